/* Tests of protox_link and protox_link_with_options. tests.c reads this file. */
#ifndef LINKING_H
#define LINKING_H

#include "trying.h"

static struct protox_file file(const char *name, const char *source)
{
    struct bytes n = text(name), s = text(source);
    return (struct protox_file){n.at, n.len, s.at, s.len};
}

/* The call that is tried. */
static uint32_t (*linking)(
    const struct protox_file *, size_t, uint8_t *, size_t, size_t *) = protox_link;

static struct answer link_asked(const struct protox_file *files, size_t n, size_t room)
{
    struct answer answer = {99, 12345, room_for(room + 16)};
    memset(answer.out, 0xa5, room + 16);
    requests = blocks = 0;
    watched = 1;
    answer.status = linking(files, n, answer.out, room, &answer.len);
    watched = 0;
    if (blocks != 0) {
        test(0, "nothing is left on the heap", "link");
    }
    return answer;
}

static struct answer link_whole(const struct protox_file *files, size_t n, size_t *room)
{
    *room = 64;
    struct answer answer = link_asked(files, n, *room);
    if (answer.status == PROTOX_TOO_SHORT) {
        *room = answer.len;
        free(answer.out);
        answer = link_asked(files, n, *room);
    }
    return answer;
}

/* Three files, each of which imports the next one, and what protoc 3.21.12 makes of them with
 * --include_imports and --include_source_info, but that locations are sorted by path. */
static const char *const chain_names[] = {"a.proto", "b.proto", "c.proto"};
static const char *const chain_sources[] = {
    "syntax = \"proto2\";\nimport \"b.proto\";\n// A.\nmessage A {\n  optional p.B b = 1;\n"
    "  repeated p.C some_cs = 2;\n}\n",
    "syntax = \"proto3\";\npackage p;\nimport public \"c.proto\";\nmessage B { C c = 1; }\n",
    "syntax = \"proto3\";\npackage p;\nmessage C { int32 n = 1; }\n",
};
static const uint8_t chain_set[] = {
    10, 147, 1, 10, 7, 99, 46, 112, 114, 111, 116, 111, 18, 1, 112, 34, 17, 10, 1, 67,
    18, 12, 10, 1, 110, 24, 1, 32, 1, 40, 5, 82, 1, 110, 74, 106, 10, 6, 18, 4,
    0, 0, 2, 26, 10, 8, 10, 1, 2, 18, 3, 1, 0, 10, 10, 9, 10, 2, 4, 0,
    18, 3, 2, 0, 26, 10, 10, 10, 3, 4, 0, 1, 18, 3, 2, 8, 9, 10, 11, 10,
    4, 4, 0, 2, 0, 18, 3, 2, 12, 24, 10, 12, 10, 5, 4, 0, 2, 0, 1, 18,
    3, 2, 18, 19, 10, 12, 10, 5, 4, 0, 2, 0, 3, 18, 3, 2, 22, 23, 10, 12,
    10, 5, 4, 0, 2, 0, 5, 18, 3, 2, 12, 17, 10, 8, 10, 1, 12, 18, 3, 0,
    0, 18, 98, 6, 112, 114, 111, 116, 111, 51, 10, 187, 1, 10, 7, 98, 46, 112, 114, 111,
    116, 111, 18, 1, 112, 26, 7, 99, 46, 112, 114, 111, 116, 111, 34, 23, 10, 1, 66, 18,
    18, 10, 1, 99, 24, 1, 32, 1, 40, 11, 50, 4, 46, 112, 46, 67, 82, 1, 99, 74,
    128, 1, 10, 6, 18, 4, 0, 0, 3, 22, 10, 8, 10, 1, 2, 18, 3, 1, 0, 10,
    10, 9, 10, 2, 3, 0, 18, 3, 2, 0, 24, 10, 9, 10, 2, 4, 0, 18, 3, 3,
    0, 22, 10, 10, 10, 3, 4, 0, 1, 18, 3, 3, 8, 9, 10, 11, 10, 4, 4, 0,
    2, 0, 18, 3, 3, 12, 20, 10, 12, 10, 5, 4, 0, 2, 0, 1, 18, 3, 3, 14,
    15, 10, 12, 10, 5, 4, 0, 2, 0, 3, 18, 3, 3, 18, 19, 10, 12, 10, 5, 4,
    0, 2, 0, 6, 18, 3, 3, 12, 13, 10, 9, 10, 2, 10, 0, 18, 3, 2, 7, 13,
    10, 8, 10, 1, 12, 18, 3, 0, 0, 18, 80, 0, 98, 6, 112, 114, 111, 116, 111, 51,
    10, 146, 2, 10, 7, 97, 46, 112, 114, 111, 116, 111, 26, 7, 98, 46, 112, 114, 111, 116,
    111, 34, 54, 10, 1, 65, 18, 18, 10, 1, 98, 24, 1, 32, 1, 40, 11, 50, 4, 46,
    112, 46, 66, 82, 1, 98, 18, 29, 10, 7, 115, 111, 109, 101, 95, 99, 115, 24, 2, 32,
    3, 40, 11, 50, 4, 46, 112, 46, 67, 82, 6, 115, 111, 109, 101, 67, 115, 74, 197, 1,
    10, 6, 18, 4, 0, 0, 6, 1, 10, 9, 10, 2, 3, 0, 18, 3, 1, 0, 17, 10,
    16, 10, 2, 4, 0, 18, 4, 3, 0, 6, 1, 26, 4, 32, 65, 46, 10, 10, 10, 10,
    3, 4, 0, 1, 18, 3, 3, 8, 9, 10, 11, 10, 4, 4, 0, 2, 0, 18, 3, 4,
    2, 21, 10, 12, 10, 5, 4, 0, 2, 0, 1, 18, 3, 4, 15, 16, 10, 12, 10, 5,
    4, 0, 2, 0, 3, 18, 3, 4, 19, 20, 10, 12, 10, 5, 4, 0, 2, 0, 4, 18,
    3, 4, 2, 10, 10, 12, 10, 5, 4, 0, 2, 0, 6, 18, 3, 4, 11, 14, 10, 11,
    10, 4, 4, 0, 2, 1, 18, 3, 5, 2, 27, 10, 12, 10, 5, 4, 0, 2, 1, 1,
    18, 3, 5, 15, 22, 10, 12, 10, 5, 4, 0, 2, 1, 3, 18, 3, 5, 25, 26, 10,
    12, 10, 5, 4, 0, 2, 1, 4, 18, 3, 5, 2, 10, 10, 12, 10, 5, 4, 0, 2,
    1, 6, 18, 3, 5, 11, 14, 10, 8, 10, 1, 12, 18, 3, 0, 0, 18,
};

static void chain(struct protox_file *files, int first, int second, int third)
{
    const int order[] = {first, second, third};
    for (int i = 0; i < 3; i++) {
        files[i] = file(chain_names[order[i]], chain_sources[order[i]]);
    }
}

static void links_as_protoc(void)
{
    int holds = 1;
    for (int first = 0; first < 3; first++) {
        for (int second = 0; second < 3; second++) {
            if (second == first) {
                continue;
            }
            struct protox_file files[3];
            size_t room;
            chain(files, first, second, 3 - first - second);
            struct answer set = link_whole(files, 3, &room);
            holds = holds && set.status == PROTOX_ACCEPTED && set.len == sizeof chain_set &&
                    memcmp(set.out, chain_set, sizeof chain_set) == 0 &&
                    untouched(&set, set.len, room);
            free(set.out);
        }
    }
    test(holds, "files in each order give protoc's set", "link");
    struct protox_file none = file("", "");
    test(is_empty(link_asked(&none, 0, 8), PROTOX_ACCEPTED, 8), "no file is an empty set", "link");
}

/* An error that is wanted: protoc's line, with line and column from 1. */
struct wanted {
    uint32_t file, kind, line, column;
    size_t length; /* of the part at fault, in bytes */
    const char *message;
};

static int are_told(const struct protox_file *files, size_t n, const struct wanted *wanted, int count)
{
    size_t room;
    struct answer told = link_whole(files, n, &room);
    struct reader reader = {told.out, told.out + told.len, 0};
    int holds = told.status == PROTOX_REFUSED && untouched(&told, told.len, room);
    for (int i = 0; i < count && holds; i++, wanted++) {
        uint32_t of = number(&reader), kind = number(&reader);
        struct place at = place(&reader);
        struct bytes message = words(&reader), label = words(&reader), help = words(&reader);
        uint32_t more = number(&reader);
        holds = !reader.overran && of == wanted->file && kind == wanted->kind &&
                at.line + 1 == wanted->line && at.column + 1 == wanted->column &&
                at.end - at.start == wanted->length &&
                is_right(at, (struct bytes){(uint8_t *)files[of].source, files[of].source_len}) &&
                message.len == strlen(wanted->message) &&
                memcmp(message.at, wanted->message, message.len) == 0 && label.len == 0 &&
                help.len == 0 && more == 0;
        if (!holds) {
            printf("record %d: file %u, kind %u, %u:%u, %.*s\n", i, of, kind, at.line + 1,
                at.column + 1, (int)message.len, (const char *)message.at);
        }
    }
    holds = holds && reader.at == reader.end;
    free(told.out);
    return holds;
}

/* The places and the messages are those that protoc prints. */
static void tells_as_protoc(void)
{
    const struct protox_file wrong[] = {
        file("d.proto", "syntax = \"proto3\";\nimport \"gone.proto\";\nimport \"e.proto\";\n"
                        "message D {\n  Gone a = 1;\n  E b = 2;\n  Hidden d = 4;\n}\n"
                        "message M {\n  int32 a = 7;\n  int32 b = 7;\n}\n"),
        file("e.proto", "syntax = \"proto3\";\nimport \"h.proto\";\nmessage E {}\nenum F {\n"
                        "  X = 0;\n}\nenum G { X = 0; }\n"),
        file("h.proto", "syntax = \"proto3\";\nmessage Hidden {}\n"),
    };
    const struct wanted all[] = {
        {0, PROTOX_LINK_MISSING_IMPORT, 2, 1, 20,
            "Import \"gone.proto\" was not found or had errors."},
        {0, PROTOX_LINK_NOT_DEFINED, 5, 3, 4, "\"Gone\" is not defined."},
        {0, PROTOX_LINK_NOT_IMPORTED, 7, 3, 6,
            "\"Hidden\" seems to be defined in \"h.proto\", which is not imported by \"d.proto\".  To "
            "use it here, please add the necessary import."},
        {0, PROTOX_LINK_NUMBER_REUSED, 11, 13, 1,
            "Field number 7 has already been used in \"M\" by field \"a\"."},
        {1, PROTOX_LINK_ALREADY_DEFINED, 7, 10, 1, "\"X\" is already defined."},
        {1, PROTOX_LINK_VALUE_BESIDE_ENUM, 7, 10, 1,
            "Note that enum values use C++ scoping rules, meaning that enum values are siblings of "
            "their type, not children of it.  Therefore, \"X\" must be unique within the global "
            "scope, not just within \"G\"."},
    };
    test(are_told(wrong, 3, all, 6), "errors are told as by protoc", "link");
    const struct protox_file circle[] = {
        file("x.proto", "import \"y.proto\";\nmessage X {}\n"),
        file("y.proto", "\nimport \"x.proto\";\n"),
    };
    const struct wanted one[] = {{0, PROTOX_LINK_IMPORT_CYCLE, 1, 1, 17,
        "File recursively imports itself: x.proto -> y.proto -> x.proto"}};
    test(are_told(circle, 2, one, 1), "a circle is told at its import, as by protoc", "link");
}

/* Faults of syntax are those of protox_report, each with the number of its file in front. */
static void tells_syntax(void)
{
    const struct protox_file files[] = {
        file("a.proto", "package a;\npackage b;\nmessage A { optional int32 b = 0; }\n"),
        file("b.proto", "message B { optional Gone b = 1; }\n"),
        file("c.proto", "import \"a.proto\";\nmessage C { optional int32 b 1; }\n\xc3\xa4\n"),
        file("d.proto", "message D {"),
    };
    size_t room;
    struct answer told = link_whole(files, 4, &room);
    struct reader reader = {told.out, told.out + told.len, 0};
    int holds = told.status == PROTOX_REFUSED;
    for (uint32_t i = 0; i < 4; i++) {
        size_t width;
        struct bytes name = {(uint8_t *)files[i].name, files[i].name_len};
        struct bytes source = {(uint8_t *)files[i].source, files[i].source_len};
        struct answer alone = whole(protox_report, name, source, &width);
        struct reader of = {alone.out, alone.out + alone.len, 0};
        while (holds && of.at < of.end) {
            const uint8_t *record = of.at;
            number(&of);
            place(&of);
            for (int k = 0; k < 3; k++) {
                words(&of);
            }
            for (uint32_t more = number(&of); more > 0; more--) {
                place(&of);
                words(&of);
            }
            size_t len = of.at - record;
            holds = !of.overran && number(&reader) == i && len <= (size_t)(reader.end - reader.at) &&
                    memcmp(reader.at, record, len) == 0;
            reader.at += len;
        }
        free(alone.out);
    }
    test(holds && reader.at == reader.end, "faults of syntax are protox_report's", "link");
    free(told.out);
}

static void link_texts(void)
{
    struct protox_file files[3];
    int holds = 1;
    for (int i = 0; i < 3; i++) {
        chain(files, 0, 1, 2);
        files[i].source = (const uint8_t *)"message \xc3";
        files[i].source_len = 9;
        holds = holds && is_empty(link_asked(files, 3, 64), PROTOX_NOT_UTF8, 64);
        chain(files, 0, 1, 2);
        files[i].name = (const uint8_t *)"\xff";
        files[i].name_len = 1;
        holds = holds && is_empty(link_asked(files, 3, 64), PROTOX_NOT_UTF8, 64);
    }
    test(holds, "names and sources that are not UTF-8", "link");
    test(sizeof(struct protox_file) == 4 * sizeof(size_t), "a file is two texts", "link");
}

/* Every room up to what is needed, and somewhat more. */
static void link_short(const struct protox_file *files, size_t n, uint32_t done, const char *of)
{
    size_t room;
    struct answer full = link_whole(files, n, &room);
    int holds = full.status == done && full.len > 0;
    for (size_t i = 0; i < full.len + 20; i++) {
        struct answer cut = link_asked(files, n, i);
        if (i < full.len) {
            holds = holds && cut.status == PROTOX_TOO_SHORT && cut.len == full.len &&
                    untouched(&cut, 0, i);
        } else {
            holds = holds && cut.status == done && cut.len == full.len &&
                    memcmp(cut.out, full.out, full.len) == 0 && untouched(&cut, full.len, i);
        }
        free(cut.out);
    }
    test(holds, "each room is enough or is told", of);
    free(full.out);
}

/* The n-th request alone is refused, or each from the n-th on. */
static void link_no_memory(
    const struct protox_file *files, size_t count, uint32_t done, int all, const char *of)
{
    size_t room;
    struct answer full = link_whole(files, count, &room);
    int holds = full.status == done;
    long n = 0, ended = 0;
    while (holds && !ended) {
        n++;
        refused_from = n;
        refused_to = all ? 1L << 40 : n;
        struct answer answer = link_asked(files, count, full.len);
        refused_from = refused_to = 0;
        ended = requests < n;
        if (ended || answer.status == done) {
            holds = answer.status == done && answer.len == full.len &&
                    memcmp(answer.out, full.out, full.len) == 0;
            free(answer.out);
        } else {
            holds = is_empty(answer, PROTOX_OUT_OF_MEMORY, full.len);
        }
    }
    char name[256];
    snprintf(name, sizeof name, "%s of %ld requests refused is out of memory",
        all ? "all from each" : "each", n - 1);
    test(holds && n > 1, name, of);
    free(full.out);
}

/* What options there are, as much as the files below need. */
#define DESCRIPTOR "google/protobuf/descriptor.proto"
static const char declares[] =
    "syntax = \"proto2\";\npackage google.protobuf;\n"
    "message FileOptions { optional string java_package = 1; extensions 1000 to max; }\n"
    "message FieldOptions { optional bool packed = 2; extensions 1000 to max; }\n";

/* A file that sets options, and what protoc 3.21.12 makes of it with --include_source_info and its own
 * descriptor.proto, but that locations are sorted by path. */
static const char sets_options[] =
    "syntax = \"proto2\";\nimport \"" DESCRIPTOR "\";\noption java_package = \"p\";\n"
    "extend google.protobuf.FieldOptions { optional int32 size = 50000; }\n"
    "message A { repeated int32 b = 1 [packed = true, (size) = 7]; }\n";
static const uint8_t option_set[] = {
    10, 144, 3, 10, 7, 97, 46, 112, 114, 111, 116, 111, 26, 32, 103, 111, 111, 103, 108, 101,
    47, 112, 114, 111, 116, 111, 98, 117, 102, 47, 100, 101, 115, 99, 114, 105, 112, 116, 111, 114,
    46, 112, 114, 111, 116, 111, 34, 25, 10, 1, 65, 18, 20, 10, 1, 98, 24, 1, 32, 3,
    40, 5, 66, 6, 16, 1, 128, 181, 24, 7, 82, 1, 98, 58, 51, 10, 4, 115, 105, 122,
    101, 18, 29, 46, 103, 111, 111, 103, 108, 101, 46, 112, 114, 111, 116, 111, 98, 117, 102, 46,
    70, 105, 101, 108, 100, 79, 112, 116, 105, 111, 110, 115, 24, 208, 134, 3, 32, 1, 40, 5,
    82, 4, 115, 105, 122, 101, 66, 3, 10, 1, 112, 74, 141, 2, 10, 6, 18, 4, 0, 0,
    4, 63, 10, 9, 10, 2, 3, 0, 18, 3, 1, 0, 42, 10, 9, 10, 2, 4, 0, 18,
    3, 4, 0, 63, 10, 10, 10, 3, 4, 0, 1, 18, 3, 4, 8, 9, 10, 11, 10, 4,
    4, 0, 2, 0, 18, 3, 4, 12, 61, 10, 12, 10, 5, 4, 0, 2, 0, 1, 18, 3,
    4, 27, 28, 10, 12, 10, 5, 4, 0, 2, 0, 3, 18, 3, 4, 31, 32, 10, 12, 10,
    5, 4, 0, 2, 0, 4, 18, 3, 4, 12, 20, 10, 12, 10, 5, 4, 0, 2, 0, 5,
    18, 3, 4, 21, 26, 10, 12, 10, 5, 4, 0, 2, 0, 8, 18, 3, 4, 33, 60, 10,
    13, 10, 6, 4, 0, 2, 0, 8, 2, 18, 3, 4, 34, 47, 10, 15, 10, 8, 4, 0,
    2, 0, 8, 208, 134, 3, 18, 3, 4, 49, 59, 10, 8, 10, 1, 7, 18, 3, 3, 0,
    68, 10, 9, 10, 2, 7, 0, 18, 3, 3, 38, 66, 10, 10, 10, 3, 7, 0, 1, 18,
    3, 3, 53, 57, 10, 10, 10, 3, 7, 0, 2, 18, 3, 3, 7, 35, 10, 10, 10, 3,
    7, 0, 3, 18, 3, 3, 60, 65, 10, 10, 10, 3, 7, 0, 4, 18, 3, 3, 38, 46,
    10, 10, 10, 3, 7, 0, 5, 18, 3, 3, 47, 52, 10, 8, 10, 1, 8, 18, 3, 2,
    0, 26, 10, 9, 10, 2, 8, 1, 18, 3, 2, 0, 26, 10, 8, 10, 1, 12, 18, 3,
    0, 0, 18,
};

static void reads_options_as_protoc(void)
{
    const struct protox_file files[] = {file("a.proto", sets_options), file(DESCRIPTOR, declares)};
    size_t room;
    struct answer set = link_whole(files, 2, &room);
    /* descriptor.proto comes first, as a.proto imports it */
    int holds = set.status == PROTOX_ACCEPTED && set.len > sizeof option_set &&
                memcmp(set.out + set.len - sizeof option_set, option_set, sizeof option_set) == 0 &&
                untouched(&set, set.len, room);
    test(holds, "options are set as by protoc", "link with options");
    free(set.out);
}

/* The messages are those that protoc prints. A statement has its own place. */
static void tells_options_as_protoc(void)
{
    const struct protox_file wrong[] = {
        file("a.proto", "syntax = \"proto2\";\nimport \"" DESCRIPTOR "\";\noption java_pakage = \"p\";\n"
                        "message A {\n  repeated int32 b = 1 [packed = 3];\n}\n"),
        file(DESCRIPTOR, declares),
    };
    const struct wanted both[] = {
        {0, PROTOX_OPTION_VALUE, 5, 25, 10,
            "Value must be identifier for boolean option \"google.protobuf.FieldOptions.packed\"."},
        {0, PROTOX_OPTION_NAME, 3, 1, 25,
            "Option \"java_pakage\" unknown. Ensure that your proto definition file imports the proto "
            "which defines the option."},
    };
    test(are_told(wrong, 2, both, 2), "statements are told as by protoc", "link with options");
    const struct protox_file asked[] = {
        file("a.proto", "message A {\n  repeated string b = 1 [packed = true];\n}\n"),
        file(DESCRIPTOR, declares),
    };
    const struct wanted packed[] = {{0, PROTOX_OPTION_PACKED, 2, 12, 6,
        "[packed = true] can only be specified for repeated primitive fields."}};
    test(are_told(asked, 2, packed, 1), "what options ask is told as by protoc", "link with options");
    const struct wanted none[] = {{0, PROTOX_OPTION_NO_TYPE, 2, 25, 13,
        "no file declares what options there are here"}};
    test(are_told(asked, 1, none, 1), "without descriptor.proto there are no options", "link with options");
}

static void test_link_with_options(void)
{
    const struct protox_file fine[] = {file("a.proto", sets_options), file(DESCRIPTOR, declares)};
    const struct protox_file wrong[] = {
        file("a.proto", "option no = 1;\nmessage A { repeated string b = 1 [(c).d = {}]; }\n"),
        file(DESCRIPTOR, declares),
    };
    linking = protox_link_with_options;
    links_as_protoc();
    tells_as_protoc();
    reads_options_as_protoc();
    tells_options_as_protoc();
    link_texts();
    link_short(fine, 2, PROTOX_ACCEPTED, "set with options");
    link_short(wrong, 2, PROTOX_REFUSED, "wrong options");
    for (int all = 0; all < 2; all++) {
        link_no_memory(fine, 2, PROTOX_ACCEPTED, all, "set with options");
        link_no_memory(wrong, 2, PROTOX_REFUSED, all, "wrong options");
    }
    linking = protox_link;
}

static void test_link(void)
{
    struct protox_file fine[3];
    chain(fine, 0, 1, 2);
    const struct protox_file loose[] = {
        file("a.proto", "import \"b.proto\";\nmessage A { optional Gone a = 1; }\n"),
        file("b.proto", "message B {}\nenum E { B = 0; }\n"),
    };
    const struct protox_file broken[] = {
        file("a.proto", "message A { optional int32 a = 0; }\n"),
        file("b.proto", "message B {}\n"),
        file("c.proto", "message C {\n"),
    };
    links_as_protoc();
    tells_as_protoc();
    tells_syntax();
    link_texts();
    link_short(fine, 3, PROTOX_ACCEPTED, "set");
    link_short(loose, 2, PROTOX_REFUSED, "errors of linking");
    link_short(broken, 3, PROTOX_REFUSED, "faults of syntax");
    for (int all = 0; all < 2; all++) {
        link_no_memory(fine, 3, PROTOX_ACCEPTED, all, "set");
        link_no_memory(loose, 2, PROTOX_REFUSED, all, "errors of linking");
        link_no_memory(broken, 3, PROTOX_REFUSED, all, "faults of syntax");
    }
}

#endif
