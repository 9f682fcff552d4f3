/* check FILE..: says what is wrong with each file. The status is 0 if nothing is, 1 if something
 * is, and 2 if a file could not be read, isn't UTF-8, or has no answer. */
#include <stdio.h>
#include <stdlib.h>
#include <string.h>
#include "protox.h"

static uint32_t number(const uint8_t **at)
{
    const uint8_t *b = *at;
    *at += 4;
    return b[0] | (uint32_t)b[1] << 8 | (uint32_t)b[2] << 16 | (uint32_t)b[3] << 24;
}

static void text(const uint8_t **at, const char *front, const char *behind)
{
    uint32_t len = number(at);
    if (len > 0) {
        printf("%s%.*s%s", front, (int)len, (const char *)*at, behind);
    }
    *at += len;
}

/* `FILE:LINE:COLUMN: `, from the place at `at`; line and column from 1. */
static void place(const char *name, const uint8_t **at)
{
    *at += 8;
    uint32_t line = number(at);
    uint32_t column = number(at);
    printf("%s:%u:%u: ", name, line + 1, column + 1);
}

static void show(const char *name, const uint8_t *at, const uint8_t *end)
{
    while (at < end) {
        number(&at);
        place(name, &at);
        text(&at, "", "");
        text(&at, " (", ")");
        printf("\n");
        text(&at, "    help: ", "\n");
        for (uint32_t more = number(&at); more > 0; more--) {
            place(name, &at);
            text(&at, "", "\n");
        }
    }
}

/* The whole of a file, or NULL. */
static uint8_t *contents(const char *name, size_t *len)
{
    FILE *file = fopen(name, "rb");
    size_t room = 1 << 16;
    uint8_t *bytes = file ? malloc(room) : NULL;
    *len = 0;
    while (bytes) {
        size_t got = fread(bytes + *len, 1, room - *len, file);
        *len += got;
        if (got == 0) {
            break;
        }
        if (*len == room) {
            uint8_t *wider = realloc(bytes, room *= 2);
            if (!wider) {
                free(bytes);
            }
            bytes = wider;
        }
    }
    if (bytes && ferror(file)) {
        free(bytes);
        bytes = NULL;
    }
    if (file) {
        fclose(file);
    }
    return bytes;
}

static uint32_t check(const char *name)
{
    size_t len;
    uint8_t *source = contents(name, &len);
    if (!source) {
        fprintf(stderr, "%s: cannot be read\n", name);
        return PROTOX_OUT_OF_MEMORY;
    }
    size_t room = 1 << 16, needed = 0;
    uint8_t *out = malloc(room);
    uint32_t status = PROTOX_OUT_OF_MEMORY;
    while (out) {
        status =
            protox_report((const uint8_t *)name, strlen(name), source, len, out, room, &needed);
        if (status != PROTOX_TOO_SHORT) {
            break;
        }
        free(out);
        room = needed;
        out = malloc(room);
    }
    if (status == PROTOX_REFUSED) {
        show(name, out, out + needed);
    } else if (status == PROTOX_NOT_UTF8) {
        fprintf(stderr, "%s: is not UTF-8\n", name);
    } else if (status == PROTOX_OUT_OF_MEMORY) {
        fprintf(stderr, "%s: out of memory\n", name);
    } else if (status != PROTOX_ACCEPTED) {
        fprintf(stderr, "%s: the answer is too large\n", name);
    }
    free(out);
    free(source);
    return status;
}

int main(int count, char **words)
{
    int worst = 0;
    for (int i = 1; i < count; i++) {
        uint32_t status = check(words[i]);
        int mine = status == PROTOX_ACCEPTED ? 0 : status == PROTOX_REFUSED ? 1 : 2;
        worst = mine > worst ? mine : worst;
    }
    return worst;
}
