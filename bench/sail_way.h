/*
 * A plain C transcription of how the Sail model of CHERI-RISC-V decodes bounds and rounds requests, by
 * shifts, comparisons and corrections, for the benchmark beside the library. It isn't proved.
 */
#ifndef SAIL_WAY_H
#define SAIL_WAY_H

#include <stdint.h>

__extension__ typedef unsigned __int128 sail_number;

struct sail_bounds {
    uint64_t base;
    sail_number top;
};

struct sail_rounding {
    uint16_t b;
    uint16_t t;
    uint8_t e;
    uint8_t ie;
    uint8_t exact;
};

struct sail_bounds sail_bounds_of(uint64_t high, uint64_t low);

struct sail_rounding sail_round(uint64_t base, uint64_t length);

/* The same with the rounded base and top, which capcheck_round gives too. */
struct sail_rounded {
    struct sail_bounds bounds;
    struct sail_rounding rounding;
};

struct sail_rounded sail_round_with_bounds(uint64_t base, uint64_t length);

#endif
