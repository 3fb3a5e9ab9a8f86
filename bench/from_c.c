/*
 * Times decoding and rounding, called from C: the library's and the transcription's, in ns a call. First
 * it compares what they answer, on the same words and requests, and ends with status 1 where they differ.
 */
#include "sail_way.h"

#include <capcheck.h>

#include <stdio.h>
#include <time.h>

enum { COUNT = 1 << 16, PASSES = 400 };

static capcheck_word words[COUNT];
static uint64_t bases[COUNT];
static uint64_t lengths[COUNT];

static uint64_t state = 0x9e3779b97f4a7c15;

static uint64_t next(void) {
    state ^= state << 13;
    state ^= state >> 7;
    state ^= state << 17;
    return state;
}

/* Words of requests that end in the address space, and as many patterns of any bits. */
static void fill(void) {
    for (unsigned i = 0; i < COUNT; i++) {
        bases[i] = next() >> (next() & 63);
        lengths[i] = next() >> (next() & 63);
        capcheck_word word = {next(), next()};
        if (i % 2 == 0) {
            lengths[i] = lengths[i] > UINT64_MAX - bases[i] ? UINT64_MAX - bases[i] : lengths[i];
            word = capcheck_with_bounds(word, bases[i], lengths[i]);
        }
        words[i] = word;
    }
}

static int compare(void) {
    for (unsigned i = 0; i < COUNT; i++) {
        capcheck_bounds bounds = capcheck_decode(words[i]);
        struct sail_bounds sail = sail_bounds_of(words[i].high, words[i].low);
        capcheck_rounded rounded = capcheck_round(bases[i], lengths[i]);
        struct sail_rounded with_bounds = sail_round_with_bounds(bases[i], lengths[i]);
        struct sail_rounding rounding = with_bounds.rounding;
        if (bounds.base != sail.base || bounds.top.low != (uint64_t)sail.top ||
            bounds.top.high != (uint64_t)(sail.top >> 64)) {
            printf("decoding differs at %s\n", capcheck_text_of(words[i]).digits);
            return 1;
        }
        if (rounded.b != rounding.b || rounded.t != rounding.t || rounded.e != rounding.e ||
            rounded.ie != rounding.ie || rounded.exact != rounding.exact || rounded.base != with_bounds.bounds.base ||
            rounded.top.low != (uint64_t)with_bounds.bounds.top ||
            rounded.top.high != (uint64_t)(with_bounds.bounds.top >> 64)) {
            printf("rounding differs at %016llx %016llx\n", (unsigned long long)bases[i],
                   (unsigned long long)lengths[i]);
            return 1;
        }
    }
    return 0;
}

static double now(void) {
    struct timespec time;
    clock_gettime(CLOCK_MONOTONIC, &time);
    return 1e9 * (double)time.tv_sec + (double)time.tv_nsec;
}

/* Runs the statement over all words or requests, again and again, and prints ns a call of the fastest
 * pass. Sums keep the calls alive. */
#define TIME(name, statement)                                                                       \
    do {                                                                                           \
        double least = 1e30;                                                                       \
        for (unsigned turn = 0; turn < PASSES; turn++) {                                           \
            double begin = now();                                                                  \
            for (unsigned i = 0; i < COUNT; i++) {                                                 \
                statement;                                                                         \
            }                                                                                      \
            double passed = now() - begin;                                                         \
            least = passed < least ? passed : least;                                               \
        }                                                                                          \
        printf("%-26s %6.2f ns\n", name, least / COUNT);                                           \
    } while (0)

int main(void) {
    uint64_t sum = 0;
    fill();
    if (compare())
        return 1;
    TIME("decoding, the library", capcheck_bounds bounds = capcheck_decode(words[i]);
         sum += bounds.base + bounds.top.low + bounds.top.high);
    TIME("decoding, the Sail way", struct sail_bounds bounds = sail_bounds_of(words[i].high, words[i].low);
         sum += bounds.base + (uint64_t)bounds.top + (uint64_t)(bounds.top >> 64));
    TIME("rounding, the library", capcheck_rounded rounded = capcheck_round(bases[i], lengths[i]);
         sum += rounded.b + (uint64_t)rounded.t + rounded.e + rounded.exact);
    TIME("rounding, the Sail way", struct sail_rounding rounding = sail_round(bases[i], lengths[i]);
         sum += rounding.b + (uint64_t)rounding.t + rounding.e + rounding.exact);
    TIME("with bounds, the library", capcheck_rounded rounded = capcheck_round(bases[i], lengths[i]);
         sum += rounded.b + (uint64_t)rounded.t + rounded.e + rounded.exact + rounded.base + rounded.top.low +
                rounded.top.high);
    TIME("with bounds, the Sail way", struct sail_rounded rounded = sail_round_with_bounds(bases[i], lengths[i]);
         sum += rounded.rounding.b + (uint64_t)rounded.rounding.t + rounded.rounding.e + rounded.rounding.exact +
                rounded.bounds.base + (uint64_t)rounded.bounds.top + (uint64_t)(rounded.bounds.top >> 64));
    return sum == 1;
}
