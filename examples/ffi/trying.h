/* What tests.c tries the calls with: an allocator that counts and refuses, buffers that show each
 * write, files, and a reader of records. */
#ifndef TRYING_H
#define TRYING_H

#include <stdatomic.h>
#include <stdio.h>
#include <stdlib.h>
#include <string.h>
#include "protox.h"

typedef uint32_t call(
    const uint8_t *, size_t, const uint8_t *, size_t, uint8_t *, size_t, size_t *);

struct bytes {
    uint8_t *at;
    size_t len;
};

struct answer {
    uint32_t status;
    size_t len;
    uint8_t *out; /* as many bytes as there was room, and 16 more */
};

static const char *protoparse, *folder;
static atomic_int good, bad;

static void test(int holds, const char *name, const char *of)
{
    atomic_fetch_add(holds ? &good : &bad, 1);
    printf("%s %s%s%s\n", holds ? "ok" : "FAILED", name, *of ? ": " : "", of);
}

/* The allocator. */

void *__real_malloc(size_t);
void *__real_realloc(void *, size_t);
void __real_free(void *);

static _Thread_local int watched;
static _Thread_local long requests, refused_from, refused_to, blocks;

static int refuses(void)
{
    requests++;
    return refused_from <= requests && requests <= refused_to;
}

void *__wrap_malloc(size_t size)
{
    if (watched && refuses()) {
        return NULL;
    }
    void *block = __real_malloc(size);
    blocks += watched && block;
    return block;
}

void *__wrap_realloc(void *old, size_t size)
{
    if (watched && refuses()) {
        return NULL;
    }
    void *block = __real_realloc(old, size);
    blocks += watched && block && !old;
    return block;
}

void __wrap_free(void *block)
{
    blocks -= watched && block;
    __real_free(block);
}

/* Calls. */

static void *room_for(size_t size)
{
    void *block = malloc(size + 1);
    if (!block) {
        fprintf(stderr, "out of memory\n");
        exit(2);
    }
    return block;
}

static struct answer asked(call *call, struct bytes name, struct bytes source, size_t room)
{
    struct answer answer = {99, 12345, room_for(room + 16)};
    memset(answer.out, 0xa5, room + 16);
    requests = blocks = 0;
    watched = 1;
    answer.status = call(name.at, name.len, source.at, source.len, answer.out, room, &answer.len);
    watched = 0;
    if (blocks != 0) {
        test(0, "nothing is left on the heap", "");
    }
    return answer;
}

/* Whether all bytes from `from` on are as before the call, up to the 16 behind the room. */
static int untouched(const struct answer *answer, size_t from, size_t room)
{
    for (size_t i = from; i < room + 16; i++) {
        if (answer->out[i] != 0xa5) {
            return 0;
        }
    }
    return 1;
}

static int is_empty(struct answer answer, uint32_t status, size_t room)
{
    int holds = answer.status == status && answer.len == 0 && untouched(&answer, 0, room);
    free(answer.out);
    return holds;
}

static struct bytes text(const char *words)
{
    return (struct bytes){(uint8_t *)words, strlen(words)};
}

/* The whole answer: where the room that is guessed is too short, with the room that is asked for.
 */
static struct answer whole(call *call, struct bytes name, struct bytes source, size_t *room)
{
    *room = 64;
    struct answer answer = asked(call, name, source, *room);
    if (answer.status == PROTOX_TOO_SHORT) {
        *room = answer.len;
        free(answer.out);
        answer = asked(call, name, source, *room);
    }
    return answer;
}

/* Files. */

static struct bytes read_all(FILE *file)
{
    size_t room = 1 << 16;
    struct bytes bytes = {room_for(room), 0};
    size_t got;
    while (file && (got = fread(bytes.at + bytes.len, 1, room - bytes.len, file)) > 0) {
        bytes.len += got;
        if (bytes.len == room) {
            uint8_t *wider = room_for(room * 2);
            memcpy(wider, bytes.at, bytes.len);
            free(bytes.at);
            bytes.at = wider;
            room *= 2;
        }
    }
    bytes.at[bytes.len] = 0;
    return bytes;
}

static struct bytes contents(const char *path)
{
    FILE *file = fopen(path, "rb");
    struct bytes bytes = read_all(file);
    if (file) {
        fclose(file);
    }
    return bytes;
}

/* What protoparse prints for a file, on both of its streams, and its status; the descriptors go to
 * `FOLDER/set`. */
static struct bytes run(const char *path, int *status)
{
    char command[4096];
    snprintf(command, sizeof command,
        "rm -f '%s/set'; '%s' --descriptor-set-out='%s/set' '%s' 2>&1", folder, protoparse, folder,
        path);
    FILE *pipe = popen(command, "r");
    struct bytes bytes = read_all(pipe);
    *status = pclose(pipe) / 256;
    return bytes;
}

/* The bytes of the one descriptor in a set: behind the header of field 1 and its length. */
static struct bytes in_set(struct bytes set)
{
    size_t at = 1;
    while (at < set.len && set.at[at] >= 128) {
        at++;
    }
    at++;
    if (set.len < at) {
        return (struct bytes){set.at, 0};
    }
    return (struct bytes){set.at + at, set.len - at};
}

/* Records. */

struct reader {
    const uint8_t *at, *end;
    int overran;
};

static uint32_t number(struct reader *reader)
{
    if (reader->end - reader->at < 4) {
        reader->overran = 1;
        return 0;
    }
    const uint8_t *b = reader->at;
    reader->at += 4;
    return b[0] | (uint32_t)b[1] << 8 | (uint32_t)b[2] << 16 | (uint32_t)b[3] << 24;
}

static struct bytes words(struct reader *reader)
{
    uint32_t len = number(reader);
    if (len > (size_t)(reader->end - reader->at)) {
        reader->overran = 1;
        len = 0;
    }
    struct bytes text = {(uint8_t *)reader->at, len};
    reader->at += len;
    return text;
}

struct place {
    uint32_t start, end, line, column;
};

static struct place place(struct reader *reader)
{
    struct place place;
    place.start = number(reader);
    place.end = number(reader);
    place.line = number(reader);
    place.column = number(reader);
    return place;
}

/* Line and column are those of the start, counted here. */
static int is_right(struct place place, struct bytes source)
{
    uint32_t line = 0, column = 0;
    for (size_t i = 0; i < place.start && i < source.len; i++) {
        column = source.at[i] == '\n' ? 0 : column + 1;
        line += source.at[i] == '\n';
    }
    return place.start <= place.end && place.end <= source.len && place.line == line &&
           place.column == column;
}

/* How much of a text protoparse shows as it is: what stands before a character that a terminal
 * obeys. */
static int shown(struct bytes text)
{
    size_t i = 0;
    while (i < text.len && text.at[i] >= 32 && text.at[i] != 127) {
        i++;
    }
    return i;
}

/* The records are read to their end. The title of each fault stands in `printed`, in order, and
 * behind it its labels and its help; `checked` is for how many faults the line and the column are
 * counted again. */
static int agree(
    struct bytes records, const char *name, struct bytes source, struct bytes printed, long checked)
{
    struct reader reader = {records.at, records.at + records.len, 0};
    const char *at = (char *)printed.at;
    while (reader.at < reader.end && !reader.overran) {
        uint32_t kind = number(&reader);
        struct place first = place(&reader), at_line = first;
        struct bytes parts[4] = {{NULL, 0}};
        for (int i = 0; i < 3; i++) {
            parts[i] = words(&reader);
        }
        uint32_t places = number(&reader);
        if (places == 1) {
            at_line = place(&reader);
            parts[3] = words(&reader);
        }
        if (kind < 1 || kind > PROTOX_FILE_TOO_LARGE || places > 1 || reader.overran) {
            return 0;
        }
        if (checked-- > 0 && (!is_right(first, source) || !is_right(at_line, source))) {
            return 0;
        }
        char title[4096];
        int len = shown(parts[0]);
        snprintf(title, sizeof title, "%s:%u:%u: %.*s%s", name, at_line.line + 1,
            at_line.column + 1, len, (char *)parts[0].at, (size_t)len == parts[0].len ? "\n" : "");
        if (!(at = strstr(at, title))) {
            return 0;
        }
        at += strlen(title);
        const char *next = at;
        for (int i = 1; i < 4; i++) {
            snprintf(title, sizeof title, "%.*s", (int)parts[i].len, (char *)parts[i].at);
            const char *found = strstr(next, title);
            if (!found || found - next > 8192) {
                return 0;
            }
        }
    }
    return !reader.overran;
}

#endif
