#include "sail_way.h"

enum { MAX_EXPONENT = 52 };

/* getCapBoundsBits, with the mantissa of the top rebuilt as in capBitsToCapability. */
struct sail_bounds sail_bounds_of(uint64_t high, uint64_t low) {
    unsigned ie = (high >> 26) & 1;
    unsigned t = (high >> 14) & 0xfff;
    unsigned b = high & 0x3fff;
    unsigned e = 0;
    if (ie) {
        e = (t & 7) << 3 | (b & 7);
        t &= 0xff8;
        b &= 0x3ff8;
    }
    t |= (((b >> 12) + (t < (b & 0xfff)) + ie) & 3) << 12;
    if (e > MAX_EXPONENT)
        e = MAX_EXPONENT;

    unsigned a3 = (low >> (e + 11)) & 7;
    unsigned b3 = b >> 11;
    unsigned t3 = t >> 11;
    unsigned r3 = (b3 - 1) & 7;
    uint64_t a_top = e + 14 < 64 ? low >> (e + 14) : 0;
    uint64_t base_turn = a_top + (b3 < r3) - (a3 < r3);
    uint64_t top_turn = a_top + (t3 < r3) - (a3 < r3);
    const sail_number bits65 = ((sail_number)1 << 65) - 1;
    sail_number base = (((sail_number)base_turn << 14 | b) << e) & bits65;
    sail_number top = (((sail_number)top_turn << 14 | t) << e) & bits65;
    unsigned base_high = (unsigned)(base >> 63) & 1;
    unsigned top_high = (unsigned)(top >> 63) & 3;
    if (e < 51 && ((top_high - base_high) & 3) > 1)
        top ^= (sail_number)1 << 64;

    struct sail_bounds bounds = {(uint64_t)base, top};
    return bounds;
}

/* setCapBounds. */
struct sail_rounding sail_round(uint64_t base, uint64_t length) {
    sail_number top = (sail_number)base + length;
    unsigned e = length >> 13 ? 51 - (unsigned)__builtin_clzll(length) : 0;
    struct sail_rounding rounding = {base & 0x3fff, (uint16_t)top & 0x3fff, 0, 0, 1};
    if (e == 0 && !((length >> 12) & 1))
        return rounding;

    sail_number lost_mask = ((sail_number)1 << (e + 3)) - 1;
    unsigned b = (base >> (e + 3)) & 0x7ff;
    unsigned t = (unsigned)(top >> (e + 3)) & 0x7ff;
    unsigned lost_base = (base & lost_mask) != 0;
    unsigned lost_top = (top & lost_mask) != 0;
    t = (t + lost_top) & 0x7ff;
    if (((t - b) & 0x7ff) >> 10) {
        lost_base |= b & 1;
        lost_top |= t & 1;
        e++;
        b = (unsigned)((sail_number)base >> (e + 3)) & 0x7ff;
        t = ((unsigned)(top >> (e + 3)) + lost_top) & 0x7ff;
    }
    rounding.b = (uint16_t)(b << 3);
    rounding.t = (uint16_t)(t << 3);
    rounding.e = (uint8_t)e;
    rounding.ie = 1;
    rounding.exact = !(lost_base | lost_top);
    return rounding;
}

struct sail_rounded sail_round_with_bounds(uint64_t base, uint64_t length) {
    struct sail_rounding rounding = sail_round(base, length);
    sail_number lost = rounding.ie ? ((sail_number)1 << (rounding.e + 3)) - 1 : 0;
    struct sail_bounds bounds = {base & ~(uint64_t)lost, ((sail_number)base + length + lost) & ~lost};
    struct sail_rounded rounded = {bounds, rounding};
    return rounded;
}
