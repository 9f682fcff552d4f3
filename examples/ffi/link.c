/* link SET FILE..: links files, and writes their FileDescriptorSet to SET; or says what is wrong. A
 * file is imported under the name that is given here. The status is 0 if nothing is wrong, 1 if
 * something is, and 2 if a file could not be read or written, isn't UTF-8, or there is no answer. */
#include <stdio.h>
#include <stdlib.h>
#include <string.h>
#include "protox.h"

static uint32_t number(const uint8_t **at)
{
    const uint8_t *b = *at;
    *at += 4;
    return b[0] | (uint32_t)b[1] << 8 | (uint32_t)b[2] << 16 | (uint32_t)b[3] << 24;
}

/* A line for each record: `FILE:LINE:COLUMN: `, with line and column from 1, and what is wrong. */
static void show(const struct protox_file *files, const uint8_t *at, const uint8_t *end)
{
    while (at < end) {
        const struct protox_file *file = &files[number(&at)];
        at += 12; /* the kind, and the offsets */
        uint32_t line = number(&at), column = number(&at);
        uint32_t len = number(&at);
        printf("%.*s:%u:%u: %.*s\n", (int)file->name_len, (const char *)file->name, line + 1,
            column + 1, (int)len, (const char *)at);
        at += len;
        for (int skipped = 0; skipped < 2; skipped++) { /* the label, and what may help */
            len = number(&at);
            at += len;
        }
        for (uint32_t more = number(&at); more > 0; more--) { /* a second place, and its label */
            at += 16;
            len = number(&at);
            at += len;
        }
    }
}

/* The whole of a file. Its source is NULL if it could not be read. */
static struct protox_file contents(const char *name)
{
    struct protox_file file = {(const uint8_t *)name, strlen(name), NULL, 0};
    FILE *stream = fopen(name, "rb");
    if (!stream) {
        return file;
    }
    if (fseek(stream, 0, SEEK_END) == 0) {
        long len = ftell(stream);
        uint8_t *bytes = len < 0 ? NULL : malloc((size_t)len + 1);
        rewind(stream);
        if (bytes && fread(bytes, 1, (size_t)len, stream) == (size_t)len) {
            file.source = bytes;
            file.source_len = (size_t)len;
        } else {
            free(bytes);
        }
    }
    fclose(stream);
    return file;
}

/* Links with room enough for nearly all files, or else with the room that is told. */
static uint32_t linked(const struct protox_file *files, size_t n, uint8_t **out, size_t *len)
{
    size_t room = 1 << 16;
    for (size_t i = 0; i < n; i++) {
        room += 8 * files[i].source_len;
    }
    for (;;) {
        *out = malloc(room);
        if (!*out) {
            return PROTOX_OUT_OF_MEMORY;
        }
        uint32_t status = protox_link(files, n, *out, room, len);
        if (status != PROTOX_TOO_SHORT) {
            return status;
        }
        free(*out);
        room = *len;
    }
}

static int finish(const char *set, const struct protox_file *files, size_t n)
{
    uint8_t *out;
    size_t len;
    int status = 2;
    switch (linked(files, n, &out, &len)) {
    case PROTOX_ACCEPTED: {
        FILE *stream = fopen(set, "wb");
        if (stream && fwrite(out, 1, len, stream) == len) {
            status = 0;
        }
        if (!stream || fclose(stream) != 0) {
            status = 2;
        }
        break;
    }
    case PROTOX_REFUSED:
        show(files, out, out + len);
        status = 1;
        break;
    case PROTOX_NOT_UTF8:
        fprintf(stderr, "a file is not UTF-8\n");
        break;
    case PROTOX_OUT_OF_MEMORY:
        fprintf(stderr, "out of memory\n");
        break;
    default:
        fprintf(stderr, "there is no answer\n");
    }
    free(out);
    return status;
}

int main(int count, char **words)
{
    size_t n = count > 2 ? (size_t)count - 2 : 0;
    struct protox_file *files = malloc((n + 1) * sizeof *files);
    int status = files && count > 1 ? 0 : 2;
    for (size_t i = 0; i < n && files; i++) {
        files[i] = contents(words[i + 2]);
        if (!files[i].source) {
            fprintf(stderr, "%s: cannot be read\n", words[i + 2]);
            status = 2;
        }
    }
    if (status == 0) {
        status = finish(words[1], files, n);
    }
    for (size_t i = 0; i < n && files; i++) {
        free((void *)files[i].source);
    }
    free(files);
    return status;
}
