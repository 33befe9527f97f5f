/*
 * A host in C: a sheet that is paired, sheets that are refused, and buffers that just fit and just do not.
 *
 *     tools/staticlib.sh /tmp
 *     gcc -std=c11 -Wall -Wextra -O2 -Iinclude -o /tmp/host examples/host.c /tmp/libpairing.a
 *
 * tools/c_host.sh does that, runs it, and compares what it prints with examples/host.txt.
 */
#include <stdio.h>
#include <string.h>

#include "torwhisk.h"

/* 3 carriers, 3 jobs, ceiling 14; rows 5 10 1, 4 11 3 and 5 14 8; 9 entries in all. */
static const uint8_t three_by_three[] = {
    3, 3, 14, 3, 0, 5, 1, 10, 2, 1, 3, 0, 4, 1, 11, 2, 3, 3, 0, 5, 1, 14, 2, 8, 9,
};

/* 2 carriers, 1 job, ceiling 5: one carrier gets no job. */
static const uint8_t one_job[] = {2, 1, 5, 1, 0, 4, 1, 0, 5, 2};

/* A job is 1, where there is but job 0. */
static const uint8_t unknown_job[] = {1, 1, 5, 1, 1, 4, 1};

/* A ceiling of 2^36, which is too high for any auction under times 2. */
static const uint8_t high_ceiling[] = {1, 1, 0x80, 0x80, 0x80, 0x80, 0x80, 2, 1, 0, 4, 1};

static uint8_t out[TORWHISK_MOST_TEXT];

/* Calls with the first `room` bytes of a buffer that is filled with '#', and says what became of all of it. */
static void pair(const char *what, const uint8_t *sheet, size_t sheet_len, size_t room)
{
    memset(out, '#', sizeof out);
    int64_t told = torwhisk_pair(sheet, sheet_len, out, room);
    size_t len = told > 0 ? (size_t)told : 0;
    size_t touched = 0;
    for (size_t i = len; i < sizeof out; i++)
        touched += out[i] != '#';
    printf("%s: %lld, %zu bytes touched behind it\n", what, (long long)told, touched);
    fwrite(out, 1, len, stdout);
}

int main(void)
{
    pair("three by three", three_by_three, sizeof three_by_three, sizeof out);
    pair("a buffer that just fits", three_by_three, sizeof three_by_three, 45);
    pair("a buffer one byte too short", three_by_three, sizeof three_by_three, 44);
    pair("no buffer at all", three_by_three, sizeof three_by_three, 0);
    pair("one job for two", one_job, sizeof one_job, sizeof out);
    pair("an unknown job", unknown_job, sizeof unknown_job, sizeof out);
    pair("an unknown job, and no buffer", unknown_job, sizeof unknown_job, 0);
    pair("a ceiling too high", high_ceiling, sizeof high_ceiling, sizeof out);
    pair("cut short", three_by_three, sizeof three_by_three - 1, sizeof out);
    static uint8_t long_file[TORWHISK_MOST_BYTES + 1];
    pair("too many bytes", long_file, sizeof long_file, sizeof out);
    return 0;
}
