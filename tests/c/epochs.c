/* A mended monitor is a new name (document 02, W-204): which epochs are heard, what they withdraw, which names are late, and that a refusal undoes it
 * all, with monitor.h and the archive alone. The own identifier is 5; there is no drift and no delay. */
#include <string.h>

#include "lent.h"

#define OWN 5
#define NAMES (MONITOR_GREATEST_NAME + 1)
#define N(name) (1u << (name))

struct predicate {
    uint32_t count, terms[MONITOR_MOST_TERMS];
};

#define NONE ((struct predicate){0, {0}})
#define TRUE ((struct predicate){1, {0}})
#define ONE(t) ((struct predicate){1, {t}})
#define TWO(t, u) ((struct predicate){2, {t, u}})

static struct lent s;
static uint8_t *state, epochs[NAMES]; /* those that a message says */
static uint8_t message[MONITOR_MESSAGE_BYTES];
static size_t len;

static void begin(uint64_t epoch)
{
    state = lend(&s, MONITOR_STATE_BYTES);
    memset(epochs, 0, sizeof epochs);
    check(monitor_set_up(state, s.n, OWN, 0, 0, epoch) == MONITOR_TAKEN, "a monitor is set up");
}

/* docs/layouts.md, "A radio message", in ends form; instants are below 2^29. */
static void put_message(uint32_t sender, uint32_t left, uint32_t right, struct predicate p)
{
    uint32_t words[MONITOR_MOST_WORDS], n = 0, names = N(sender), sum = 0;
    for (uint32_t i = 0; i < p.count; i++)
        names |= p.terms[i];
    words[n++] = 1u << 29 | p.count << 5 | sender;
    for (uint32_t name = 0; name < NAMES; name++)
        if ((names >> name & 1) != 0)
            words[n++] = (uint32_t)epochs[name] << 5 | name;
    const uint32_t ends[] = {2u << 29, 2u << 29 | left, 3u << 29, 3u << 29 | right};
    for (int i = 0; i < 4; i++)
        words[n++] = ends[i];
    for (uint32_t i = 0; i < p.count; i++)
        words[n++] = 6u << 29 | p.terms[i];
    for (uint32_t i = 0; i < n; i++)
        sum += words[i];
    words[n++] = 7u << 29 | (sum & ((1u << 29) - 1));
    len = monitor_put_words(message, words, n);
}

static uint32_t hear(uint32_t sender, uint32_t left, uint32_t right, struct predicate p)
{
    put_message(sender, left, right, p);
    return monitor_receive(state, s.n, 0, 0, message, len);
}

static uint32_t hear_with(uint32_t sender, struct predicate p, uint64_t sender_reading, uint64_t own_reading)
{
    put_message(sender, 0, 10, p);
    return monitor_receive_with_readings(state, s.n, 0, 0, sender_reading, own_reading, 1, 0, message, len);
}

/* ---- what is in the state */

static int row_is(const uint8_t *row, struct predicate p, uint32_t places)
{
    int same = monitor_word(row) == p.count;
    for (uint32_t i = 0; i < places; i++)
        same &= monitor_word(row + 4 + 4 * i) == (i < p.count ? p.terms[i] : 0);
    return same;
}

static int datum_is(uint32_t i, uint64_t left, uint64_t right, struct predicate p)
{
    const uint8_t *datum = state + DATUM_OF(i);
    return ends_are(datum, left, 0, right, 0) && row_is(datum + TERMS_IN, p, MONITOR_MOST_TERMS);
}

static int entry_is(uint32_t i, struct predicate p)
{
    return row_is(state + FIRST_MASK - 4 + 68 * i, p, 16);
}

/* How many data and entries there are, and no byte beside the state is changed. */
static int counts(uint32_t held, uint32_t entries)
{
    return monitor_word(state + HELD_COUNT) == held && monitor_word(state + ENTRY_COUNT) == entries && untouched(&s, MONITOR_STATE_BYTES);
}

static int answers(uint64_t limit, uint64_t kind, uint64_t left, uint64_t right)
{
    uint8_t answer[MONITOR_ANSWER_BYTES];
    return monitor_ask(state, s.n, limit, answer, sizeof answer) == MONITOR_TAKEN && monitor_number(answer) == kind &&
           monitor_number(answer + 8) == left && monitor_number(answer + 16) == right;
}

static int nothing_saved(uint32_t name)
{
    int zeros = 1;
    for (size_t i = 0; i < 76; i++)
        zeros &= state[CLOCK_OF(name) + i] == 0;
    return zeros;
}

/* Whether a name's place has flag 1 and three times the readings that hear_with gave. */
static int saved_thrice(uint32_t name, uint64_t sender_reading, uint64_t own_reading)
{
    const uint8_t *place = state + CLOCK_OF(name);
    int same = monitor_word(place) == 1;
    for (int i = 0; i < 3; i++, place += 24)
        same &= monitor_number(place + 4) == sender_reading && monitor_number(place + 12) == own_reading && monitor_number(place + 20) == 1;
    return same;
}

/* ---- setting up, and the form of a state */

static void set_up(void)
{
    const uint64_t late = MONITOR_GREATEST_READING + 1;
    struct lent b;
    uint8_t *bytes = lend(&b, MONITOR_STATE_BYTES);
    check(monitor_set_up(bytes, b.n, 29, 1001, late, 16) == MONITOR_OWN_NAME, "1 comes before 41");
    check(monitor_set_up(bytes, b.n, 28, 1001, late, 16) == MONITOR_OWN_EPOCH, "an epoch of 16 is 41, before 2");
    check(monitor_set_up(bytes, b.n, 28, 1000, 0, UINT64_C(1) << 32) == MONITOR_OWN_EPOCH, "and so is one of 2^32");
    check(monitor_set_up(bytes, b.n, 28, 1001, late, 15) == MONITOR_DRIFT && monitor_set_up(bytes, b.n, 28, 1000, late, 15) == MONITOR_READING,
          "an epoch of 15 is not: 2, and then 3");
    check(monitor_set_up(bytes, b.n - 1, 29, 1001, late, 16) == MONITOR_BUFFER && untouched(&b, 0), "24 comes first, and nothing has changed");
    begin(MONITOR_GREATEST_EPOCH);
    for (uint32_t name = 0; name < NAMES; name++)
        check(state[EPOCH_OF(name)] == (name == OWN ? 15 : 0), "the own epoch is known, and the others are 0");
}

static void form(void)
{
    begin(0);
    for (uint32_t name = 0; name < NAMES; name++) {
        state[EPOCH_OF(name)] = 15;
        check(monitor_age(state, s.n, 0) == MONITOR_TAKEN, "a known epoch of 15 is in form");
        state[EPOCH_OF(name)] = 16;
        check(monitor_age(state, s.n, 0) == MONITOR_STATE_FORM && monitor_receive(state, s.n, 0, 0, NULL, 0) == MONITOR_STATE_FORM,
              "one of 16 is 25");
        state[EPOCH_OF(name)] = 0;
    }
}

/* ---- names that are withdrawn */

static void mended(void)
{
    begin(0);
    check(hear(1, 0, 10, NONE) == 0 && hear(2, 20, 30, NONE) == 0 && counts(2, 1), "1 and 2 contradict each other");
    check(answers(0, MONITOR_CONTRADICTED, 0, 0), "ask 0 is contradicted");
    epochs[1] = 1;
    check(hear(1, 22, 40, NONE) == 0 && counts(2, 0), "1 is mended: its datum and the entry go");
    check(datum_is(0, 20, 30, ONE(N(2))) && datum_is(1, 22, 40, ONE(N(1))) && state[EPOCH_OF(1)] == 1, "2 and the new 1 are held");
    check(answers(0, MONITOR_BETWEEN, 22, 30), "ask 0 is between");

    begin(0);
    epochs[1] = 1;
    check(hear(1, 22, 40, NONE) == 0, "the mended 1 first");
    epochs[1] = 0;
    check(hear(1, 0, 10, NONE) == 0 && counts(1, 0) && state[EPOCH_OF(1)] == 1, "what the old 1 says is true, and not held");
    check(hear(2, 20, 30, NONE) == 0 && answers(0, MONITOR_BETWEEN, 22, 30), "the answer is the same");
}

static void heard_in_terms(void)
{
    begin(0);
    check(hear(1, 0, 10, NONE) == 0, "1 is held");
    epochs[1] = 1;
    check(hear(2, 0, 5, ONE(N(1))) == 0 && counts(1, 0) && datum_is(0, 0, 5, TWO(N(1), N(2))), "a term brings its epoch: the old 1 goes");

    begin(0);
    check(hear(1, 0, 10, NONE) == 0, "1 is held");
    epochs[1] = 1;
    check(hear(2, 0, 5, ONE(N(1) | N(OWN))) == 0 && counts(1, 0) && datum_is(0, 0, 5, ONE(N(2))), "a term that is struck too");

    begin(0);
    epochs[1] = 1;
    check(hear(1, 0, 10, NONE) == 0 && hear(3, 0, 9, NONE) == 0 && counts(2, 0), "1 under epoch 1, and 3");
    epochs[1] = 0;
    epochs[3] = 1;
    check(hear(1, 0, 3, ONE(N(3))) == 0 && counts(1, 0) && datum_is(0, 0, 10, ONE(N(1))), "an old sender brings epoch 1 of 3");
    check(state[EPOCH_OF(1)] == 1 && state[EPOCH_OF(3)] == 1, "both are known");
}

static void heard_though_true(void)
{
    begin(0);
    check(hear(1, 0, 10, NONE) == 0, "1 is held");
    epochs[1] = 1;
    check(hear(1, 0, 10, TRUE) == 0 && counts(0, 0) && state[EPOCH_OF(1)] == 1, "with a true predicate the old 1 goes too");
}

/* No more than normal form: rows are not merged, and step 2 is not made. */
static void put_in_normal_form(void)
{
    begin(0);
    check(hear(2, 0, 9, ONE(N(1) | N(3))) == 0 && hear(2, 3, 20, ONE(N(3))) == 0 && counts(2, 0), "2 + {1, 3}, and 2 + 3");
    epochs[1] = 1;
    check(hear(1, 0, 50, TRUE) == 0 && counts(2, 0), "1 is mended");
    check(datum_is(0, 0, 9, TWO(N(2), N(3))) && datum_is(1, 3, 20, TWO(N(2), N(3))), "two data under 2 + 3");

    begin(0);
    check(hear(3, 0, 1, NONE) == 0 && hear(3, 5, 6, NONE) == 0 && counts(0, 1) && entry_is(0, ONE(N(3))), "3 has failed");
    check(hear(2, 0, 9, ONE(N(1) | N(3))) == 0 && counts(1, 1), "2 + {1, 3} is held");
    epochs[1] = 1;
    check(hear(1, 0, 50, TRUE) == 0 && counts(1, 1) && datum_is(0, 0, 9, TWO(N(2), N(3))), "2 + 3 stays, although the entry implies it");

    begin(0);
    check(hear(2, 0, 9, TWO(N(1) | N(3), N(1) | N(4))) == 0 && hear(3, 20, 29, NONE) == 0 && counts(2, 1), "an entry 2 + 3 + {1, 4}");
    check(entry_is(0, ((struct predicate){3, {N(2), N(3), N(1) | N(4)}})), "with its terms");
    epochs[1] = 1;
    check(hear(1, 0, 50, TRUE) == 0 && entry_is(0, ((struct predicate){3, {N(2), N(3), N(4)}})), "is 2 + 3 + 4 once 1 is mended");
}

/* ---- names that are late */

static void late_in_terms(void)
{
    uint8_t before[MONITOR_STATE_BYTES];
    begin(0);
    epochs[1] = 1;
    check(hear(1, 0, 10, NONE) == 0, "1 under epoch 1");
    epochs[1] = 0;
    check(hear(2, 0, 9, ONE(N(1) | N(3))) == 0 && datum_is(1, 0, 9, TWO(N(2), N(3))), "the old 1 counts as failed: 2 + 3");
    memcpy(before, state, sizeof before);
    check(hear(2, 0, 8, ONE(N(1))) == 0 && memcmp(before, state, sizeof before) == 0, "alone in a term it makes that true");
    check(hear(2, 0, 20, ONE(N(1) | N(OWN))) == 0 && datum_is(2, 0, 20, ONE(N(2))), "but terms with the own identifier are struck before");
}

static void own_epoch(void)
{
    begin(2);
    epochs[OWN] = 9;
    check(hear(1, 0, 9, ONE(N(OWN) | N(2))) == 0 && datum_is(0, 0, 9, ONE(N(1))), "a term with the own identifier is struck under any epoch");
    check(hear(OWN, 0, 9, NONE) == MONITOR_SENDER, "and 18 comes under any");
    epochs[OWN] = 0;
    check(hear(3, 0, 9, ONE(N(OWN) | N(2))) == 0 && datum_is(1, 0, 9, ONE(N(3))) && state[EPOCH_OF(OWN)] == 2, "the own epoch stays");
}

/* ---- clocks */

static void triples_go(void)
{
    begin(0);
    check(hear_with(1, NONE, 0, 0) == 0 && saved_thrice(1, 0, 0), "readings of 1 are saved");
    epochs[1] = 1;
    check(hear(2, 0, 10, ONE(N(1))) == 0 && nothing_saved(1) && state[EPOCH_OF(1)] == 1, "its epoch rises in a term: they go");

    begin(0);
    check(hear_with(1, NONE, 0, 0) == 0, "readings of 1 are saved");
    epochs[1] = 1;
    check(hear_with(1, NONE, 1000, 5) == 0 && counts(1, 0) && saved_thrice(1, 1000, 5), "under a new epoch they are not tested against the old");
    epochs[1] = 0;
    check(hear_with(1, NONE, 7, 7) == 0 && counts(1, 0) && saved_thrice(1, 1000, 5), "those of the old name are neither tested nor saved");
}

static void violation_goes(void)
{
    begin(0);
    check(hear_with(1, NONE, 0, 0) == 0 && hear_with(1, NONE, 100, 103) == 0 && counts(0, 1) && entry_is(0, ONE(N(1))), "the clock of 1 jumps");
    check(answers(0, MONITOR_CONTRADICTED, 0, 0), "ask 0 is contradicted");
    epochs[1] = 1;
    check(hear(1, 0, 10, NONE) == 0 && counts(1, 0) && nothing_saved(1), "1 is mended: the entry and the readings go");
    check(answers(0, MONITOR_BETWEEN, 0, 10), "ask 0 is between");
}

/* ---- refusals undo what was heard */

static void too_many_terms(void)
{
    const struct predicate eight = {8, {N(6), N(7), N(8), N(9), N(10), N(11), N(12), N(13)}};
    uint8_t before[MONITOR_STATE_BYTES];
    begin(0);
    memcpy(before, state, sizeof before);
    epochs[2] = 1;
    check(hear(2, 0, 9, eight) == MONITOR_TERM_COUNT && memcmp(before, state, sizeof before) == 0, "31: the epoch of 2 stays 0");
    epochs[2] = 0;
    epochs[6] = 1;
    check(hear(6, 0, 9, NONE) == 0, "6 is mended");
    memcpy(before, state, sizeof before);
    epochs[6] = 0;
    check(hear(2, 0, 9, eight) == 0 && memcmp(before, state, sizeof before) == 0, "with an old name in a term of its own the eight are true");
}

static void too_many_data(void)
{
    uint8_t before[MONITOR_STATE_BYTES];
    begin(0);
    for (uint32_t name = 6; name < 22; name++)
        check(hear(name, name, 1000 + name, ONE(N(1) | N(22))) == 0, "sixteen data");
    check(counts(16, 0), "each under a name + {1, 22}");
    memcpy(before, state, sizeof before);
    epochs[1] = 1;
    check(hear(2, 0, 2000, ONE(N(1))) == MONITOR_TOO_MANY && memcmp(before, state, sizeof before) == 0, "32 undoes the withdrawal");
    check(hear_with(2, ONE(N(1)), 1, 1) == MONITOR_TOO_MANY && memcmp(before, state, sizeof before) == 0, "with readings too");
    check(hear(1, 0, 2000, TRUE) == 0 && datum_is(15, 21, 1021, TWO(N(21), N(22))), "where there is room 1 is withdrawn from all");
    epochs[6] = 1;
    check(hear(6, 0, 2000, NONE) == 0 && counts(16, 0), "and the mended 6 takes the place of the old one");
}

/* ---- what is written */

static void written(void)
{
    static const uint32_t words[] = {536870981u,  97,          2,           229,         1073741824u, 1073741824u,
                                     1610612736u, 1610612746u, 3221225474u, 3221225476u, 3758096797u};
    uint8_t wanted[sizeof words];
    struct lent o;
    begin(7);
    epochs[1] = 3;
    check(hear(1, 0, 10, ONE(N(2))) == 0, "[0, 10] under 1 + 2, 1 at epoch 3, the own epoch 7");
    (void)monitor_put_words(wanted, words, sizeof words / sizeof *words);
    for (size_t n = 0; n < sizeof wanted; n++) {
        uint8_t *out = lend(&o, n);
        check(monitor_write(state, s.n, 0, out, n) == MONITOR_BUFFER && untouched(&o, 0), "11 words do not fit, nothing is written");
    }
    uint8_t *out = lend(&o, MONITOR_MESSAGE_BYTES);
    check(monitor_write(state, s.n, 0, out, o.n) == MONITOR_TAKEN && untouched(&o, sizeof wanted), "they are written");
    check(memcmp(out, wanted, sizeof wanted) == 0, "with the epochs that are known");
}

int main(void)
{
    set_up();
    form();
    mended();
    heard_in_terms();
    heard_though_true();
    put_in_normal_form();
    late_in_terms();
    own_epoch();
    triples_go();
    violation_goes();
    too_many_terms();
    too_many_data();
    written();
    return report();
}
