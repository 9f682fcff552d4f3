/* call FILE TURNS: calls protox_parse_to_descriptor on a file so many times, and prints the
 * shortest and the median time of a call. With 0 turns nothing is parsed: what the program costs
 * before its first parse.
 *
 *     gcc -O2 -Iexamples/ffi bench/call.c crates/protox_ffi/out/libprotox_ffi.a KIT/c/liblibc_c.a
 * -o call valgrind --tool=callgrind --callgrind-out-file=/dev/null ./call FILE 0
 */
#define _POSIX_C_SOURCE 200809L
#include <stdio.h>
#include <stdlib.h>
#include <string.h>
#include <time.h>
#include "protox.h"

static uint8_t source[1 << 24], out[1 << 27];

static double now(void)
{
    struct timespec time;
    clock_gettime(CLOCK_MONOTONIC, &time);
    return (double)time.tv_sec * 1e6 + (double)time.tv_nsec / 1e3;
}

static int compare(const void *a, const void *b)
{
    double x = *(const double *)a, y = *(const double *)b;
    return (x > y) - (x < y);
}

int main(int count, char **words)
{
    FILE *file = count == 3 ? fopen(words[1], "rb") : NULL;
    if (!file) {
        fprintf(stderr, "usage: call FILE TURNS\n");
        return 2;
    }
    size_t len = fread(source, 1, sizeof source, file), needed = 0;
    fclose(file);
    size_t turns = strtoul(words[2], NULL, 10);
    double *times = calloc(turns + 1, sizeof *times);
    for (size_t i = 0; times && i < turns; i++) {
        double start = now();
        uint32_t status = protox_parse_to_descriptor(
            (const uint8_t *)"a.proto", 7, source, len, out, sizeof out, &needed);
        times[i] = now() - start;
        if (status != PROTOX_ACCEPTED) {
            fprintf(stderr, "status %u\n", status);
            return 1;
        }
    }
    if (times && turns > 0) {
        qsort(times, turns, sizeof *times, compare);
        printf(
            "%zu bytes of source, %zu of its descriptor: shortest %.1f, median %.1f microseconds\n",
            len, needed, times[0], times[turns / 2]);
    }
    free(times);
    return 0;
}
