/* Torwhisk: pairs carriers with jobs by what each job is worth to each carrier. */
#ifndef TORWHISK_H
#define TORWHISK_H

#include <stddef.h>
#include <stdint.h>

#ifdef __cplusplus
extern "C" {
#endif

/* Limits of a sheet file: a longer file, or one with more entries, is refused with TORWHISK_TOO_SHORT. */
#define TORWHISK_MOST_BYTES 32768
#define TORWHISK_MOST_ENTRIES 4096

/* No listing is longer, so that an output buffer of this size always suffices. */
#define TORWHISK_MOST_TEXT 8320

/* Why a call is refused. torwhisk_pair returns minus the number. */
enum torwhisk_refusal {
    TORWHISK_NUMBER_CUT = 1,       /* the bytes end before a number, or inside one */
    TORWHISK_NUMBER_TOO_LONG = 2,  /* a number goes on after its sixth byte */
    TORWHISK_NUMBER_PADDED = 3,    /* a number is not in its shortest form */
    TORWHISK_COUNTS_OUTSIDE = 4,   /* carriers outside 1 to 128, jobs outside 1 to 256, or the ceiling above 2^36;
                                      or the ceiling, times (carriers + 1), is above 2^36 */
    TORWHISK_JOB_OUT_OF_ORDER = 5, /* a job is not known, or not above the one before it in its row */
    TORWHISK_WORTH_OUTSIDE = 6,    /* a worth is 0 or above the ceiling */
    TORWHISK_TOTAL_DIFFERS = 9,    /* the closing total is not the number of entries */
    TORWHISK_BYTES_FOLLOW = 10,    /* bytes follow the closing total */
    TORWHISK_TOO_SHORT = 12        /* the file is above one of the limits, or the output buffer is shorter than the listing */
};

/*
 * Pairs the carriers and jobs of the sheet file in sheet[0 .. sheet_len], and writes the listing to out[0 .. out_len]:
 * a line for each carrier, `carrier job worth`, or `carrier -` if it gets none, or `carrier ?` if the auction was cut
 * off before it was served; and a last line, as `worth 24 awards 4 stale 1`. Byte 0A ends each line; no byte 0 is added.
 *
 * Returns the length of the listing, or minus the number of a refusal. Bytes of out behind the listing are not touched,
 * and none of out after a refusal. A buffer that is too short is found last of all, so every other refusal comes first.
 *
 * Neither pointer may be null, and sheet and out may not overlap. The call allocates nothing, keeps nothing, and may be
 * made from several threads at once, each with buffers of its own. It needs about 128 KiB of stack.
 */
int64_t torwhisk_pair(const uint8_t *sheet, size_t sheet_len, uint8_t *out, size_t out_len);

#ifdef __cplusplus
}
#endif

#endif
