/* The calls on messages alone, as a C program sees them: monitor.h and the archive, nothing else. Every buffer has its exact size between
 * guard bytes, so that a byte written beside it shows. */
#include <string.h>

#include "lent.h"
#include "monitor.h"

/* Document 01's first message, with its sender's epoch: sender 1, from 1,000,000 to 1,000,200, no terms. */
static const uint32_t ends_form[] = {536870913u, 1, 1073741824u, 1074741824u, 1610612736u, 1611612936u, 3760096586u};

/* The same interval in centre form, from sender 2 with the terms {1, 2} and {3}; the epochs of 1, 2 and 3 are 3, 15 and 0. */
static const uint32_t centre_form[] = {536870978u,  97,          482,         3,           2147483648u,
                                       2148483748u, 2684354660u, 3221225478u, 3221225480u, 3759097246u};

static void reading(void)
{
    struct lent m, r;
    uint8_t *message = lend(&m, sizeof ends_form), *out = lend(&r, MONITOR_READING_BYTES);
    size_t len = monitor_put_words(message, ends_form, 7);

    check(monitor_message_read(message, len, out, r.n) == MONITOR_TAKEN, "document 01's first message is taken");
    check(monitor_number(out) == 1 && monitor_number(out + 24) == 0, "sender and term count");
    check(monitor_number(out + 8) == 1000000 && monitor_number(out + 16) == 1000200, "left and right");
    check(untouched(&r, MONITOR_READING_BYTES), "nothing beside the reading is written");

    for (size_t n = 0; n < MONITOR_READING_BYTES; n++) {
        out = lend(&r, n);
        check(monitor_message_read(message, len, out, n) == MONITOR_BUFFER && untouched(&r, 0), "a short output is 24, unchanged");
    }
    for (size_t cut = 1; cut < 4; cut++) {
        out = lend(&r, 0);
        check(monitor_message_read(message, len - cut, out, 0) == MONITOR_WORD_COUNT, "a length that leaves a rest is 10, before 24");
    }
    message[12] ^= 2; /* another left end, the old check word */
    out = lend(&r, MONITOR_READING_BYTES);
    check(monitor_message_read(message, len, out, r.n) == MONITOR_CHECK && untouched(&r, 0), "a changed end is 15, output unchanged");
    message[0] ^= 2; /* another sender, the old epoch word */
    check(monitor_message_read(message, len, out, r.n) == MONITOR_EPOCHS && untouched(&r, 0), "a changed head is 42, before 15");
}

static void rewriting(void)
{
    struct lent m, r;
    uint8_t *message = lend(&m, sizeof ends_form), *out = lend(&r, sizeof ends_form);
    size_t len = monitor_put_words(message, ends_form, 7);

    check(monitor_message_rewrite(message, len, out, r.n) == MONITOR_TAKEN, "an ends form message is taken");
    check(memcmp(out, message, len) == 0 && untouched(&r, len), "and comes out as the same words");

    const size_t written = 4 * 11;
    message = lend(&m, sizeof centre_form);
    len = monitor_put_words(message, centre_form, 10);
    for (size_t n = 0; n < written; n++) {
        out = lend(&r, n);
        check(monitor_message_rewrite(message, len, out, n) == MONITOR_BUFFER && untouched(&r, 0), "11 words do not fit, nothing is written");
    }
    out = lend(&r, MONITOR_MESSAGE_BYTES);
    check(monitor_message_rewrite(message, len, out, r.n) == MONITOR_TAKEN && untouched(&r, written), "a centre form message is written as 11 words");

    struct lent a, b;
    uint8_t *before = lend(&a, MONITOR_READING_BYTES), *after = lend(&b, MONITOR_READING_BYTES);
    check(monitor_message_read(message, len, before, a.n) == MONITOR_TAKEN && monitor_message_read(out, written, after, b.n) == MONITOR_TAKEN,
          "both forms are read");
    check(memcmp(before, after, MONITOR_READING_BYTES) == 0 && monitor_number(before + 8) == 1000000 && monitor_number(before + 16) == 1000200,
          "with the same sender, interval and term count");
    check(memcmp(out, message, 16) == 0 && memcmp(out + 32, message + 28, 8) == 0, "and the same head, epoch words and term words");
}

/* ---- what is refused, with epoch words or without them */

#define HEAD(sender, terms) (1u << 29 | (terms) << 5 | (sender))
#define ENDS 2u << 29, 2u << 29, 3u << 29, 3u << 29 | 10
#define TERM(mask) (6u << 29 | (mask))
#define LAST 7u << 29

_Static_assert(MONITOR_TAKEN == 0 && MONITOR_FORM == 11 && MONITOR_HEAD == 12 && MONITOR_LENGTH == 13 && MONITOR_KIND == 14, "as document 01 has them");
_Static_assert(MONITOR_CHECK == 15 && MONITOR_INTERVAL == 16 && MONITOR_TERMS == 17 && MONITOR_EPOCHS == 42, "and document 02");

/* What a message is read and rewritten as; its last word is made the right check word, or a wrong one. */
static const struct {
    const char *what;
    uint32_t number, count;
    int spoilt;
    uint32_t words[12];
} cases[] = {
    {"1 and 2 have their words", 0, 9, 0, {HEAD(1, 1), 1, 2, ENDS, TERM(4), LAST}},
    {"under the greatest epoch too", 0, 9, 0, {HEAD(1, 1), 481, 482, ENDS, TERM(4), LAST}},
    {"the epoch of 2 is missing", 42, 8, 0, {HEAD(1, 1), 1, ENDS, TERM(4), LAST}},
    {"the sender's is missing", 42, 8, 0, {HEAD(1, 1), 2, ENDS, TERM(4), LAST}},
    {"there is none at all", 42, 7, 0, {HEAD(1, 1), ENDS, TERM(4), LAST}},
    {"they are not in order", 42, 9, 0, {HEAD(1, 1), 2, 1, ENDS, TERM(4), LAST}},
    {"one is there twice", 42, 10, 0, {HEAD(1, 1), 1, 1, 2, ENDS, TERM(4), LAST}},
    {"twice under two epochs", 42, 10, 0, {HEAD(1, 1), 1, 33, 2, ENDS, TERM(4), LAST}},
    {"there is one too many", 42, 10, 0, {HEAD(1, 1), 1, 2, 3, ENDS, TERM(4), LAST}},
    {"bit 9 is set", 42, 9, 0, {HEAD(1, 1), 1, 514, ENDS, TERM(4), LAST}},
    {"bit 28 is set", 42, 9, 0, {HEAD(1, 1), 1, 1u << 28 | 2, ENDS, TERM(4), LAST}},
    {"an identifier is 29", 42, 10, 0, {HEAD(1, 1), 1, 2, 29, ENDS, TERM(4), LAST}},
    {"42 comes before 15", 42, 8, 1, {HEAD(1, 1), 1, ENDS, TERM(4), LAST}},
    {"42 comes before 16", 42, 8, 0, {HEAD(1, 1), 1, 2u << 29, 2u << 29 | 11, 3u << 29, 3u << 29 | 10, TERM(4), LAST}},
    {"42 comes before 17", 42, 10, 0, {HEAD(1, 2), 1, 2, ENDS, TERM(8), TERM(4), LAST}},
    {"17 comes with all of them", 17, 11, 0, {HEAD(1, 2), 1, 2, 3, ENDS, TERM(8), TERM(4), LAST}},
    {"16 comes before 17", 16, 11, 0, {HEAD(1, 2), 1, 2, 3, 2u << 29, 2u << 29 | 11, 3u << 29, 3u << 29 | 10, TERM(8), TERM(4), LAST}},
    {"15 comes before 16", 15, 7, 1, {HEAD(1, 0), 1, 2u << 29, 2u << 29 | 11, 3u << 29, 3u << 29 | 10, LAST}},
    {"14 comes before 42", 14, 8, 0, {HEAD(1, 1), 1, 2u << 29, 3u << 29, 3u << 29, 3u << 29 | 10, TERM(4), LAST}},
    {"kind 0 in the place of a term", 14, 9, 0, {HEAD(1, 1), 1, 2, ENDS, 4, LAST}},
    {"13 counts them", 13, 8, 0, {HEAD(1, 1), 1, 2, ENDS, LAST}},
    {"11 looks behind them", 11, 9, 0, {HEAD(1, 1), 1, 2, 3u << 29, 2u << 29, 3u << 29, 3u << 29 | 10, TERM(4), LAST}},
    {"sender 29 is 12", 12, 7, 0, {HEAD(29, 0), 29, ENDS, LAST}},
    {"nine terms are 12, before 11", 12, 7, 0, {HEAD(1, 9), 1, 3u << 29, 2u << 29, 3u << 29, 3u << 29 | 10, LAST}},
    {"the shortest: centre form, no terms", 0, 6, 0, {HEAD(1, 0), 1, 4u << 29, 4u << 29 | 10, 5u << 29 | 3, LAST}},
};

/* The number by which both calls refuse these words, or 0; a refused call writes nothing. */
static uint32_t number_of(const uint32_t *words, size_t count)
{
    uint8_t message[4 * (MONITOR_MOST_WORDS + 1)];
    struct lent r, o;
    uint8_t *reading = lend(&r, MONITOR_READING_BYTES), *out = lend(&o, MONITOR_MESSAGE_BYTES);
    size_t len = monitor_put_words(message, words, count);
    uint32_t number = monitor_message_read(message, len, reading, r.n);
    check(monitor_message_rewrite(message, len, out, o.n) == number, "reading and rewriting refuse the same");
    check(number == 0 || (untouched(&r, 0) && untouched(&o, 0)), "and write nothing then");
    return number;
}

static void each_case(void)
{
    for (size_t i = 0; i < sizeof cases / sizeof *cases; i++) {
        uint32_t words[12], sum = 0, count = cases[i].count;
        memcpy(words, cases[i].words, sizeof words);
        for (uint32_t k = 0; k + 1 < count; k++)
            sum += words[k];
        words[count - 1] |= (sum + (uint32_t)cases[i].spoilt) & ((1u << 29) - 1);
        check(number_of(words, count) == cases[i].number, cases[i].what);
    }
}

/* No word but the head and words of kind 0. */
static void epoch_words_alone(void)
{
    uint32_t words[MONITOR_MOST_WORDS + 1];
    words[0] = HEAD(1, 0);
    for (uint32_t i = 1; i <= MONITOR_MOST_WORDS; i++)
        words[i] = i;
    for (size_t count = 1; count <= MONITOR_MOST_WORDS + 1; count++)
        check(number_of(words, count) == (count < MONITOR_LEAST_WORDS || count > MONITOR_MOST_WORDS ? MONITOR_WORD_COUNT : MONITOR_FORM),
              "no word behind the epoch words is 11, and 10 comes first");
}

/* All identifiers, in eight terms: 43 words. */
static void longest(void)
{
    static const uint32_t ends[] = {ENDS};
    uint32_t words[MONITOR_MOST_WORDS + 1] = {HEAD(28, 8)}, n = 1, sum = 0;
    for (uint32_t name = 0; name <= MONITOR_GREATEST_NAME; name++)
        words[n++] = name % 16 << 5 | name;
    for (int i = 0; i < 4; i++)
        words[n++] = ends[i];
    for (uint32_t i = 0; i < MONITOR_MOST_TERMS; i++)
        words[n++] = TERM(i < 7 ? 15u << 4 * i : 1u << 28);
    for (uint32_t i = 0; i < n; i++)
        sum += words[i];
    words[n++] = 7u << 29 | (sum & ((1u << 29) - 1));
    check(n == MONITOR_MOST_WORDS && number_of(words, n) == MONITOR_TAKEN, "43 words are taken");
    check(number_of(words, n + 1) == MONITOR_WORD_COUNT && number_of(words, n - 1) == MONITOR_LENGTH, "44 are 10, and 42 of them are 13");
}

int main(void)
{
    reading();
    rewriting();
    each_case();
    epoch_words_alone();
    longest();
    return report();
}
