/* Buffers of exact size between guard bytes, and a count of checks: what the C tests share. */
#ifndef LENT_H
#define LENT_H

#include <stdint.h>
#include <stdio.h>

#include "monitor.h"
#include "monitor_text.h"

#define GUARD 16
#define MOST (MONITOR_STATE_BYTES + 40)

/* Places in a state, as docs/layouts.md has them: the counts, a datum and in it the right end, the terms and both ends' millionths, the first
 * entry's mask, what is saved of a name's clock, and the epoch of an identifier. */
#define HELD_COUNT 16
#define ENTRY_COUNT 20
#define DATUM_BYTES 60
#define DATUM_OF(i) (24 + DATUM_BYTES * (i))
#define RIGHT_IN 8
#define TERMS_IN 16
#define LEFT_PART_IN 52
#define RIGHT_PART_IN 56
#define FIRST_MASK 988
#define CLOCK_OF(name) (3160 + 76 * (name))
#define EPOCH_OF(name) (5364 + (name))

static int passed, failed;

static inline void check(int ok, const char *what)
{
    if (ok) {
        passed++;
    } else {
        failed++;
        printf("FAILED: %s\n", what);
    }
}

/* The status of the test. One that checked nothing has failed. */
static inline int report(void)
{
    if (passed == 0)
        failed++;
    printf("%d passed, %d failed\n", passed, failed);
    return failed != 0;
}

/* Whether the bytes of a datum have these ends, each with its millionths. */
static inline int ends_are(const uint8_t *datum, uint64_t left, uint32_t left_part, uint64_t right, uint32_t right_part)
{
    return monitor_number(datum) == left && monitor_word(datum + LEFT_PART_IN) == left_part && monitor_number(datum + RIGHT_IN) == right &&
           monitor_word(datum + RIGHT_PART_IN) == right_part;
}

/* A lent buffer of n bytes between guards; all bytes start as a pattern. */
struct lent {
    uint8_t all[GUARD + MOST + GUARD];
    size_t n;
};

static inline uint8_t pattern(size_t i)
{
    return (uint8_t)(0x5a ^ (i * 7));
}

static inline uint8_t *lend(struct lent *b, size_t n)
{
    for (size_t i = 0; i < sizeof b->all; i++)
        b->all[i] = pattern(i);
    b->n = n;
    return b->all + GUARD;
}

/* Whether every byte but the first `written` of the buffer is as it was lent. */
static inline int untouched(const struct lent *b, size_t written)
{
    for (size_t i = 0; i < sizeof b->all; i++)
        if ((i < GUARD || i >= GUARD + written) && b->all[i] != pattern(i))
            return 0;
    return 1;
}

#endif
