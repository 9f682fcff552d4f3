/*
 * protox.h: a parser of Protocol Buffers source files (proto2 and proto3), as a C library.
 *
 * There are five calls. `protox_parse_to_descriptor` makes of a file's name and text the bytes of
 * its FileDescriptorProto, with SourceCodeInfo: paths, spans and comments. `protox_report` says
 * all that is wrong with a file, with places. `protox_link` makes of several files the bytes of a
 * FileDescriptorSet in which all names are resolved, or says all that is wrong with them.
 * `protox_link_with_options` does the same, and reads their options. `protox_version` numbers these
 * calls and what they write.
 *
 * With a package, link with libprotox, the shared or the static library:
 *
 *     cc check.c $(pkg-config --cflags --libs protox) -o check
 *
 * From the sources, link with libprotox_ffi.a, and behind it liblibc_c.a of the kit, which it takes
 * memory from:
 *
 *     cc check.c libprotox_ffi.a liblibc_c.a -o check
 *
 * OWNERSHIP. The library keeps nothing: no pointer that you pass is held after the call, and no
 * memory that it took is left. It writes to `out` and `*out_len` alone. So there is nothing to
 * free.
 *
 * LENGTHS are in bytes. Texts need no NUL at their end, and may hold NULs. No pointer may be null,
 * also where its length is 0, nor may one in a struct protox_file. `out` and `out_len` may not lie
 * within the texts, the array of files or one another.
 *
 * ROOM. You give the buffer. Where it is too short the status is PROTOX_TOO_SHORT, `*out_len` is
 * the room that is needed, and nothing was written to `out`. The next call parses again, so give
 * room enough at first: 8 bytes for each byte of the source and 64 KiB more serve nearly every
 * file, as memory that is never written to costs little. Reports need less. For the calls that link
 * count the bytes of all sources; their records need more only where many messages repeat long
 * names.
 *
 * THREADS. The library has no state. Any number of threads may call at once, each with its own
 * `out` and `out_len`. Memory comes from malloc, realloc and free, which must be of one allocator;
 * when it runs out that is a status. Don't call from a signal handler.
 *
 * A SOURCE THAT YOU DON'T TRUST may be any bytes. For most sources a byte costs up to some 1,100
 * bytes of memory while it is parsed. But with many ranges in one `extensions 1, 2 [options];`, or
 * many fields in one `extend`, memory grows with the square of the length: 18 KB took 2.9 GB. So
 * bound the length, and the memory of the process. The calls that link hold the descriptors of all
 * files at once: bound the sum of the lengths. No file is opened: an import names one of the given
 * files.
 *
 * VERSIONS. PROTOX_VERSION changes when a call, a status, a kind or a record changes. A program
 * that loads the library at run time compares it with protox_version(). Numbers of kinds and
 * statuses keep their meaning, and new ones may come. A call that is new, as
 * protox_link_with_options was, doesn't change it: a program that needs the call fails to link, or
 * to load, with a library that lacks it.
 */
#ifndef PROTOX_H
#define PROTOX_H

#include <stddef.h>
#include <stdint.h>

#ifdef __cplusplus
extern "C" {
#endif

#define PROTOX_VERSION 1

/* What a call answers. protox_parse_to_descriptor writes to `out` where it answers PROTOX_ACCEPTED,
 * protox_report where it answers PROTOX_REFUSED, and the calls that link at both; else `out` stays
 * as it was. */
enum protox_status {
    PROTOX_ACCEPTED = 0,      /* nothing is wrong with the source, or with any of the files */
    PROTOX_REFUSED = 1,       /* something is; protox_report and the calls that link say what */
    PROTOX_OUT_OF_MEMORY = 2, /* memory ran out; nothing is said of the source */
    PROTOX_TOO_SHORT = 3,     /* `out` is too short; *out_len is the room that is needed */
    PROTOX_NOT_UTF8 = 4,      /* a name or a source is not UTF-8 */
    PROTOX_TOO_LARGE = 5,     /* what is to be written takes 2 GiB or more */
    PROTOX_NOT_A_FLOAT = 6    /* an option's value is no float; no file is known that has this */
};

/* PROTOX_VERSION of the library. */
uint32_t protox_version(void);

/* Only in the library of a package: a line of text with the package's version, the kit, what
 * `rt ci` ended with when it proved the sources, and their commit. */
extern const char protox_build[];

/*
 * Writes the bytes of the file's FileDescriptorProto to `out`, and how many there are to
 * `*out_len`. Names and options stay unresolved, as protobuf's own parser leaves them.
 *
 * PROTOX_ACCEPTED: `out` holds the descriptor. PROTOX_TOO_SHORT: call again with more room. Any
 * other status: there is no descriptor, and `*out_len` is 0.
 */
uint32_t protox_parse_to_descriptor(const uint8_t *name, size_t name_len,
                                    const uint8_t *source, size_t source_len,
                                    uint8_t *out, size_t out_capacity, size_t *out_len);

/*
 * Writes a record for each fault of the source to `out`, and how many bytes they take to
 * `*out_len`.
 *
 * PROTOX_REFUSED: `out` holds records, one at least. PROTOX_ACCEPTED: there is no fault, and
 * `*out_len` is 0. PROTOX_TOO_SHORT: call again with more room. Any other status: `*out_len` is 0.
 *
 * Records stand one behind the other to the end. A number takes four bytes, the lowest first,
 * without a sign. A text is the number of its bytes and then its bytes, in UTF-8, without a NUL at
 * its end.
 *
 *     number  kind        enum protox_kind
 *     number  start       where the fault is: the offset in bytes of its first byte
 *     number  end         and of the one past its last
 *     number  line        of its start, from 0
 *     number  column      of its start, from 0, in bytes
 *     text    message     what is wrong
 *     text    label       what to write at the place; empty where there is nothing to write
 *     text    help        what may help; empty where there is nothing to say
 *     number  places      how many second places follow: 0 or 1
 *       number  start, end, line, column
 *       text    label
 *
 * Faults come in the order in which they were found, the first as the parser stopped or refused. A
 * fault at the end of the source has an empty place there, or before a newline that ends it;
 * PROTOX_FILE_TOO_LARGE has no place, and four zeros. Don't rely on the words of a message.
 */
uint32_t protox_report(const uint8_t *name, size_t name_len,
                       const uint8_t *source, size_t source_len,
                       uint8_t *out, size_t out_capacity, size_t *out_len);

/* A file to be linked: the name by which other files import it, and its text. */
struct protox_file {
    const uint8_t *name;
    size_t name_len;
    const uint8_t *source;
    size_t source_len;
};

/*
 * Parses the n files at `files` and links them: each name that they use becomes a dot and the full
 * name of what it stands for, fields of named types get the type of a message or an enum, and each
 * field gets a name in JSON, as by protoc. Options stay unresolved. Writes the bytes of the
 * FileDescriptorSet, with SourceCodeInfo, or records of what is wrong, and to `*out_len` how many
 * bytes there are.
 *
 * Give every file that one of them imports, and each under one name: google/protobuf/ as well.
 *
 * PROTOX_ACCEPTED: `out` holds the set. In it each file stands behind all that it imports.
 * PROTOX_REFUSED: `out` holds records, one at least. PROTOX_TOO_SHORT: call again with more room.
 * Any other status: `*out_len` is 0.
 *
 * If some files have faults of syntax, there is a record for each of these, in the order of the
 * files, and linking isn't tried. Else there is a record for each error of linking, with a kind of
 * enum protox_link_kind; of a few faults two errors are told, one behind the other. A record is one
 * of protox_report with the number of its file in front:
 *
 *     number  file        the index in `files`
 *     number  kind        enum protox_kind or enum protox_link_kind
 *     number  start       and so on, as for protox_report
 *
 * An error of linking stands at the part of the file that it is told of: a name, a number, a range,
 * an import. Where the source doesn't write that part, it stands at the innermost part around it.
 * Files that import one another in a circle are told of alone, at an import of the first of them.
 */
uint32_t protox_link(const struct protox_file *files, size_t n,
                     uint8_t *out, size_t out_capacity, size_t *out_len);

/*
 * Parses and links files as protox_link does, and reads their options, as protoc does. In the set
 * each options message has the fields that its statements set, packed, custom ones and those in
 * braces too, in place of the statements; and the location of a statement has the path of the field
 * that it sets. Defaults stay as they are written.
 *
 * Which options there are is told by google/protobuf/descriptor.proto: give it, too. It is in the
 * set like the others.
 *
 * Statuses are those of protox_link, but PROTOX_NOT_A_FLOAT isn't answered. Where protox_link
 * refuses files, so does this call, with the same records. Else it refuses them where an option is
 * wrong: with a record for the first wrong statement of each options message, which has a kind of
 * enum protox_option_kind and the place of the statement. Where no option is, it refuses them for
 * what options ask of what has them, with kinds from PROTOX_OPTION_LAZY on.
 */
uint32_t protox_link_with_options(const struct protox_file *files, size_t n,
                                  uint8_t *out, size_t out_capacity, size_t *out_len);

/* The kinds of faults of syntax. */
enum protox_kind {
    PROTOX_INVALID_TOKEN = 1,                     /* no token begins with this character */
    PROTOX_INTEGER_OUT_OF_RANGE = 2,              /* an integer above 2^64 - 1 */
    PROTOX_INVALID_STRING_CHARACTERS = 3,         /* characters that no string may hold */
    PROTOX_UNTERMINATED_STRING = 4,               /* a line ends within a string */
    PROTOX_INVALID_STRING_ESCAPE = 5,             /* a backslash that begins no escape */
    PROTOX_INVALID_UTF8_STRING = 6,               /* a string that has to be text is not UTF-8 */
    PROTOX_NESTED_BLOCK_COMMENT = 7,              /* a block comment opens within another */
    PROTOX_UNKNOWN_SYNTAX = 8,                    /* neither proto2 nor proto3 */
    PROTOX_INVALID_IDENTIFIER = 9,                /* a reserved name is no identifier */
    PROTOX_INVALID_GROUP_NAME = 10,               /* a group's name begins with no capital */
    PROTOX_INVALID_IMPORT = 11,                   /* an import's path has a part such as `..` */
    PROTOX_DUPLICATE_PACKAGE = 12,                /* a second package; it has a second place */
    PROTOX_NO_SPACE_BETWEEN_INT_AND_IDENT = 13,   /* a letter follows an integer at once */
    PROTOX_HASH_COMMENT_OUTSIDE_TEXT_FORMAT = 14, /* a `#` comment outside an aggregate */
    PROTOX_FLOAT_SUFFIX_OUTSIDE_TEXT_FORMAT = 15, /* a float ends in `f` outside an aggregate */
    PROTOX_UNEXPECTED_TOKEN = 16,                 /* another token was expected */
    PROTOX_UNEXPECTED_EOF = 17,                   /* more was expected at the end */
    PROTOX_NEGATIVE_IDENT_OUTSIDE_DEFAULT = 18,   /* a negated identifier */
    PROTOX_INVALID_MESSAGE_NUMBER = 19,           /* a field number outside 1 to 536870911 */
    PROTOX_INVALID_ENUM_NUMBER = 20,              /* an enum number that 32 bits cannot hold */
    PROTOX_INVALID_DEFAULT = 21,                  /* a default value on a field of this kind */
    PROTOX_PROTO3_DEFAULT_VALUE = 22,             /* a default value in proto3 */
    PROTOX_INVALID_EXTEND_FIELD_KIND = 23,        /* an extension of this kind */
    PROTOX_REQUIRED_EXTEND_FIELD = 24,            /* a required extension */
    PROTOX_MAP_FIELD_WITH_LABEL = 25,             /* a map field with a label */
    PROTOX_ONEOF_FIELD_WITH_LABEL = 26,           /* a field of a oneof with a label */
    PROTOX_PROTO2_FIELD_MISSING_LABEL = 27,       /* a field without a label in proto2 */
    PROTOX_PROTO3_GROUP_FIELD = 28,               /* a group in proto3 */
    PROTOX_PROTO3_REQUIRED_FIELD = 29,            /* a required field in proto3 */
    PROTOX_INVALID_ONEOF_FIELD_KIND = 30,         /* a field of this kind in a oneof */
    PROTOX_INVALID_MAP_FIELD_KEY_TYPE = 31,       /* a map key of this type */
    PROTOX_VALUE_INVALID_TYPE = 32,               /* a value of another type than is asked for */
    PROTOX_INTEGER_VALUE_OUT_OF_RANGE = 33,       /* an integer outside the range of its place */
    PROTOX_EMPTY_ONEOF = 34,                      /* a oneof without a field */
    PROTOX_MESSAGE_NESTING_TOO_DEEP = 35,         /* more than 31 levels of messages and groups */
    PROTOX_FILE_TOO_LARGE = 36                    /* a source of more than 2,147,483,647 bytes */
};

/* The kinds of errors of linking. */
enum protox_link_kind {
    PROTOX_LINK_MISSING_NAME = 101,              /* a declaration has no name */
    PROTOX_LINK_BAD_NAME = 102,                  /* a name is no identifier */
    PROTOX_LINK_ALREADY_DEFINED = 103,           /* the file has the full name before */
    PROTOX_LINK_ALREADY_DEFINED_IN = 104,        /* the scope has the name before */
    PROTOX_LINK_ALREADY_DEFINED_IN_FILE = 105,   /* another file declares the full name */
    PROTOX_LINK_VALUE_BESIDE_ENUM = 106,         /* why a value clashes beside its enum */
    PROTOX_LINK_VALUE_BESIDE_ENUM_IN = 107,      /* the same in a scope */
    PROTOX_LINK_NOT_IN_TABLE = 108,              /* this can't be */
    PROTOX_LINK_NOT_A_PACKAGE = 109,             /* a package has the name of something else */
    PROTOX_LINK_LONG_PACKAGE = 110,              /* the name of a package has more than 511 bytes */
    PROTOX_LINK_DEEP_PACKAGE = 111,              /* it has more than 100 dots */
    PROTOX_LINK_NOT_DEFINED = 112,               /* a name stands for nothing */
    PROTOX_LINK_NOT_IMPORTED = 113,              /* a name stands for what no import shows */
    PROTOX_LINK_NOT_DEFINED_INSIDE = 114,        /* what a name begins with lacks the rest */
    PROTOX_LINK_NOT_A_TYPE = 115,                /* a name stands for no message or enum */
    PROTOX_LINK_NOT_A_MESSAGE = 116,             /* a name stands for what is no message */
    PROTOX_LINK_MESSAGE_DEFAULT = 117,           /* a default on a field of a message type */
    PROTOX_LINK_BAD_DEFAULT = 118,               /* the default of an enum is no identifier */
    PROTOX_LINK_NO_SUCH_VALUE = 119,             /* the default of an enum is none of its values */
    PROTOX_LINK_NUMBER_REUSED = 120,             /* two fields have the same number */
    PROTOX_LINK_FIELD_RESERVED = 121,            /* the number of a field is reserved */
    PROTOX_LINK_FOR_EXTENSIONS = 122,            /* a field's number is in an extension range */
    PROTOX_LINK_RESERVED_TWICE = 123,            /* a reserved range overlaps another one */
    PROTOX_LINK_EXTENSIONS_TWICE = 124,          /* an extension range overlaps another one */
    PROTOX_LINK_EXTENSIONS_RESERVED = 125,       /* an extension range overlaps a reserved one */
    PROTOX_LINK_VALUE_RESERVED = 126,            /* the number of a value is reserved */
    PROTOX_LINK_FIELD_NAME_RESERVED = 127,       /* the name of a field is reserved */
    PROTOX_LINK_VALUE_NAME_RESERVED = 128,       /* the name of a value is reserved */
    PROTOX_LINK_FIELD_NAME_RESERVED_TWICE = 129, /* a message reserves a name twice */
    PROTOX_LINK_VALUE_NAME_RESERVED_TWICE = 130, /* an enum reserves a name twice */
    PROTOX_LINK_FOR_IMPLEMENTATION = 131,        /* a number from 19000 to 19999 */
    PROTOX_LINK_EMPTY_EXTENSION_RANGE = 132,     /* an extension range has no number */
    PROTOX_LINK_EMPTY_RESERVED_RANGE = 133,      /* a reserved range has no number */
    PROTOX_LINK_NO_VALUE = 134,                  /* an enum has no value */
    PROTOX_LINK_FIRST_NOT_ZERO = 135,            /* proto3: an enum doesn't begin with 0 */
    PROTOX_LINK_EXTENSIONS_IN_PROTO3 = 136,      /* proto3: an extension range */
    PROTOX_LINK_FIELDS_ALIKE = 137,              /* proto3: two fields are one in JSON */
    PROTOX_LINK_VALUES_ALIKE = 138,              /* proto3: two values are alike */
    PROTOX_LINK_NOT_DECLARED = 139,              /* an extension's number is in no range */
    PROTOX_LINK_EXTENSION_REUSED = 140,          /* two extensions have the same number */
    PROTOX_LINK_NOT_OF_OPTIONS = 141,            /* proto3: extends no message of options */
    PROTOX_LINK_MISSING_IMPORT = 142,            /* no file has the name of an import */
    PROTOX_LINK_REPEATED_IMPORT = 143,           /* a file imports another one twice */
    PROTOX_LINK_IMPORT_CYCLE = 144               /* files import one another in a circle */
};

/* The kinds of what is wrong with options. */
enum protox_option_kind {
    PROTOX_OPTION_NO_TYPE = 201,                 /* no file declares what options there are here */
    PROTOX_OPTION_NAME = 202,                    /* a name leads to no field of the options */
    PROTOX_OPTION_ALREADY_SET = 203,             /* the field is set, or one inside of it */
    PROTOX_OPTION_VALUE = 204,                   /* a value is none of the field's type */
    PROTOX_OPTION_TOKEN = 205,                   /* what stands in braces has no tokens */
    PROTOX_OPTION_TEXT = 206,                    /* it is no message in text format */
    PROTOX_OPTION_AGGREGATE = 207,               /* it is none of the field's type */
    PROTOX_OPTION_LAZY = 221,                    /* a lazy field is no message */
    PROTOX_OPTION_PACKED = 222,                  /* a packed field can't be packed */
    PROTOX_OPTION_MESSAGE_SET_FIELD = 223,       /* a message set has a field */
    PROTOX_OPTION_MESSAGE_SET_EXTENSION = 224,   /* its extension is no optional message */
    PROTOX_OPTION_LITE_EXTENSION = 225,          /* a lite file extends what isn't lite */
    PROTOX_OPTION_MAP_VALUE_ENUM = 226,          /* the enum of a map doesn't begin with 0 */
    PROTOX_OPTION_JS_TYPE = 227,                 /* a jstype on what is no integer of 64 bits */
    PROTOX_OPTION_EXTENSION_JSON_NAME = 228,     /* an extension has a name in JSON */
    PROTOX_OPTION_CLOSED_ENUM = 229,             /* proto3: a field of an enum of proto2 */
    PROTOX_OPTION_SHARED_NUMBER = 230,           /* two values of one number, no allow_alias */
    PROTOX_OPTION_MESSAGE_SET_IN_PROTO3 = 231,   /* proto3: a message set */
    PROTOX_OPTION_LITE_SERVICE = 232,            /* a lite file has a service */
    PROTOX_OPTION_LITE_IMPORT = 233              /* a file that isn't lite imports one that is */
};

#ifdef __cplusplus
}
#endif

#endif
