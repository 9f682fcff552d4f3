/* tests PROTOPARSE FOLDER FILE..: tests each call from outside, and compares what it writes with
 * what the program protoparse does for the same files. FOLDER is for files that it makes. Each test
 * prints a line `ok NAME` or `FAILED NAME`; the last line counts them.
 *
 * It is linked with malloc, realloc and free wrapped: so it counts the blocks that a call leaves,
 * and refuses requests in turn. */
#define _POSIX_C_SOURCE 200809L
#include <pthread.h>
#include "linking.h"
#include "trying.h"

/* Both calls say of a file what protoparse says of it. */
static void compare(const char *path)
{
    int status;
    size_t room;
    struct bytes source = contents(path), printed = run(path, &status);
    struct answer made = whole(protox_parse_to_descriptor, text(path), source, &room);
    if (status == 0) {
        char set_name[4096];
        snprintf(set_name, sizeof set_name, "%s/set", folder);
        struct bytes set = contents(set_name), one = in_set(set);
        test(made.status == PROTOX_ACCEPTED && made.len == one.len &&
                 memcmp(made.out, one.at, one.len) == 0,
            "the descriptor is protoparse's", path);
        test(untouched(&made, made.len, room), "nothing is written behind it", path);
        test(is_empty(asked(protox_report, text(path), source, 64), PROTOX_ACCEPTED, 64),
            "no fault is reported", path);
        free(set.at);
    } else if (status == 2) {
        test(made.status == PROTOX_NOT_UTF8 && made.len == 0 && untouched(&made, 0, room) &&
                 strstr((char *)printed.at, ": not UTF-8\n"),
            "it is no text, as for protoparse", path);
        test(is_empty(asked(protox_report, text(path), source, 64), PROTOX_NOT_UTF8, 64),
            "no fault of it is reported", path);
    } else {
        test(status == 1 && made.status == PROTOX_REFUSED && made.len == 0 &&
                 untouched(&made, 0, room),
            "it is refused, as by protoparse", path);
        struct answer told = whole(protox_report, text(path), source, &room);
        test(told.status == PROTOX_REFUSED && told.len > 0 &&
                 agree((struct bytes){told.out, told.len}, path, source, printed, 100),
            "the faults are protoparse's", path);
        test(untouched(&told, told.len, room), "nothing is written behind them", path);
        free(told.out);
    }
    free(made.out);
    free(printed.at);
    free(source.at);
}

/* Every room from 0 to what is needed, and somewhat more. */
static void short_buffers(call *call, struct bytes source, uint32_t done, const char *of)
{
    size_t room;
    struct answer full = whole(call, text("a.proto"), source, &room);
    int holds = full.status == done && full.len > 0;
    for (size_t i = 0; i < full.len; i++) {
        struct answer cut = asked(call, text("a.proto"), source, i);
        holds =
            holds && cut.status == PROTOX_TOO_SHORT && cut.len == full.len && untouched(&cut, 0, i);
        free(cut.out);
    }
    test(holds, "each shorter buffer is refused, with the room needed", of);
    holds = 1;
    for (size_t i = full.len; i < full.len + 20; i++) {
        struct answer same = asked(call, text("a.proto"), source, i);
        holds = holds && same.status == done && same.len == full.len &&
                memcmp(same.out, full.out, full.len) == 0 && untouched(&same, full.len, i);
        free(same.out);
    }
    test(holds, "each longer one holds the same", of);
    free(full.out);
}

/* The n-th request alone is refused, or each from the n-th on. */
static void no_memory(call *call, struct bytes source, uint32_t done, int all, const char *of)
{
    size_t room;
    struct answer full = whole(call, text("a.proto"), source, &room);
    int holds = full.status == done;
    long n = 0, ended = 0;
    while (holds && !ended) {
        n++;
        refused_from = n;
        refused_to = all ? 1L << 40 : n;
        struct answer answer = asked(call, text("a.proto"), source, full.len);
        refused_from = refused_to = 0;
        ended = requests < n;
        if (ended || answer.status == done) {
            holds = answer.status == done && answer.len == full.len &&
                    memcmp(answer.out, full.out, full.len) == 0;
            free(answer.out);
        } else {
            holds = is_empty(answer, PROTOX_OUT_OF_MEMORY, full.len);
        }
    }
    char name[256];
    snprintf(name, sizeof name, "%s of %ld requests refused is out of memory",
        all ? "all from each" : "each", n - 1);
    test(holds && n > 1, name, of);
    free(full.out);
}

static void odd_texts(void)
{
    struct bytes good_text = text("syntax = \"proto3\";\n"), no_text = {(uint8_t *)"", 0};
    const struct bytes wrong[] = {
        {(uint8_t *)"\xff", 1},
        {(uint8_t *)"message \xc3", 9},
        {(uint8_t *)"\xc0\x80", 2},
        {(uint8_t *)"\xed\xa0\x80", 3},
        {(uint8_t *)"\xf4\x90\x80\x80", 4},
        {(uint8_t *)"// \x80\n", 5},
    };
    call *const calls[] = {protox_parse_to_descriptor, protox_report};
    int holds = 1;
    for (int i = 0; i < 6; i++) {
        for (int k = 0; k < 2; k++) {
            holds = holds &&
                    is_empty(asked(calls[k], text("a.proto"), wrong[i], 64), PROTOX_NOT_UTF8, 64) &&
                    is_empty(asked(calls[k], wrong[i], good_text, 64), PROTOX_NOT_UTF8, 64) &&
                    is_empty(asked(calls[k], wrong[i], no_text, 0), PROTOX_NOT_UTF8, 0);
        }
    }
    test(holds, "names and sources that are not UTF-8", "");
    size_t room;
    struct answer named =
        whole(protox_parse_to_descriptor, (struct bytes){(uint8_t *)"a\0b", 3}, good_text, &room);
    test(named.status == PROTOX_ACCEPTED && named.len > 5 &&
             memcmp(named.out,
                 "\x0a\x03"
                 "a\0b",
                 5) == 0,
        "a name with a NUL", "");
    free(named.out);
    struct bytes with_nul = {(uint8_t *)"syntax = \"proto3\";\n \0message A {}", 33};
    test(is_empty(
             asked(protox_parse_to_descriptor, text("a.proto"), with_nul, 64), PROTOX_REFUSED, 64),
        "a source with a NUL", "");
    struct answer told = whole(protox_report, text("a.proto"), with_nul, &room);
    struct reader reader = {told.out, told.out + told.len, 0};
    uint32_t kind = number(&reader);
    struct place at = place(&reader);
    test(told.status == PROTOX_REFUSED && kind == PROTOX_INVALID_TOKEN && at.start == 20 &&
             at.end == 21 && at.line == 1 && at.column == 1,
        "the place of the NUL", "");
    free(told.out);
    struct answer empty = whole(protox_parse_to_descriptor, no_text, no_text, &room);
    test(empty.status == PROTOX_ACCEPTED, "an empty name and an empty source", "");
    free(empty.out);
}

/* A file in FOLDER with a text so many times. */
static const char *repeated(const char *name, const char *front, const char *part, long times)
{
    static char path[4096];
    snprintf(path, sizeof path, "%s/%s", folder, name);
    FILE *file = fopen(path, "wb");
    if (!file) {
        perror(path);
        exit(2);
    }
    fputs(front, file);
    for (long i = 0; i < times; i++) {
        fprintf(file, part, i);
    }
    fclose(file);
    return path;
}

struct job {
    struct bytes source;
    struct answer made, told;
    int holds;
};

static void *in_thread(void *given)
{
    struct job *job = given;
    job->holds = 1;
    for (int i = 0; i < 20000; i++) {
        struct answer made =
            asked(protox_parse_to_descriptor, text("a.proto"), job->source, job->made.len);
        struct answer told = asked(protox_report, text("a.proto"), job->source, job->told.len);
        job->holds = job->holds && made.status == job->made.status &&
                     told.status == job->told.status && made.len == job->made.len &&
                     told.len == job->told.len && memcmp(made.out, job->made.out, made.len) == 0 &&
                     memcmp(told.out, job->told.out, told.len) == 0;
        free(made.out);
        free(told.out);
    }
    return NULL;
}

static void two_threads(struct bytes first, struct bytes second)
{
    struct job jobs[2] = {{.source = first}, {.source = second}};
    pthread_t threads[2];
    size_t room;
    for (int i = 0; i < 2; i++) {
        jobs[i].made = whole(protox_parse_to_descriptor, text("a.proto"), jobs[i].source, &room);
        jobs[i].told = whole(protox_report, text("a.proto"), jobs[i].source, &room);
    }
    for (int i = 0; i < 2; i++) {
        pthread_create(&threads[i], NULL, in_thread, &jobs[i]);
    }
    for (int i = 0; i < 2; i++) {
        pthread_join(threads[i], NULL);
        free(jobs[i].made.out);
        free(jobs[i].told.out);
    }
    test(jobs[0].holds && jobs[1].holds, "two threads at once answer as one", "");
}

int main(int count, char **given)
{
    if (count < 4) {
        fprintf(stderr, "usage: tests PROTOPARSE FOLDER FILE..\n");
        return 2;
    }
    protoparse = given[1];
    folder = given[2];
    setvbuf(stdout, NULL, _IOLBF, 0);
    test(protox_version() == PROTOX_VERSION, "the version", "");
    for (int i = 3; i < count; i++) {
        compare(given[i]);
    }
    struct bytes fine =
        text("// A.\nmessage A {\n  optional int32 b = 1 [default = 2]; // B.\n}\n");
    struct bytes wrong = text("package a;\npackage b;\nmessage A { optional int32 b = 0; required "
                              "group c = 99999999999999999999 {} }\n");
    short_buffers(protox_parse_to_descriptor, fine, PROTOX_ACCEPTED, "descriptor");
    short_buffers(protox_report, wrong, PROTOX_REFUSED, "report");
    for (int all = 0; all < 2; all++) {
        no_memory(protox_parse_to_descriptor, fine, PROTOX_ACCEPTED, all, "descriptor");
        no_memory(protox_parse_to_descriptor, wrong, PROTOX_REFUSED, all,
            "descriptor of a refused source");
        no_memory(protox_report, wrong, PROTOX_REFUSED, all, "report");
        no_memory(protox_report, fine, PROTOX_ACCEPTED, all, "report of an accepted source");
    }
    odd_texts();
    test_link();
    test_link_with_options();
    two_threads(fine, wrong);
    compare(repeated("empty.proto", "", "", 0));
    compare(repeated("second.proto", "package a;\n\n  package b;\n", "", 0));
    compare(repeated("end.proto", "message A {\n\n", "", 0));
    compare(repeated("large.proto", "syntax = \"proto3\";\n",
        "message M%ld { int32 a = 1; repeated string b = 2; }\n", 200000));
    compare(repeated("faults.proto", "syntax = \"proto3\";\n",
        "message M%ld { int32 a = 0; /* %% */ }\n", 280000));
    printf("%d passed, %d failed\n", good, bad);
    return bad != 0;
}
