/* Every end keeps its millionths of a microsecond (document 02, W-205): what ageing and delays make of them, what they decide alone, which of them are
 * out of form, and that answers and written messages alone round, with monitor.h and the archive alone. The own identifier is 5. */
#include <string.h>

#include "lent.h"

#define OWN 5
#define N(name) (1u << (name))
#define LAST MONITOR_GREATEST_END
#define MILLION 1000000u

static struct lent s;
static uint8_t *state, before[MONITOR_STATE_BYTES];
static uint8_t message[MONITOR_MESSAGE_BYTES];
static size_t len;

static void begin(uint32_t drift)
{
    state = lend(&s, MONITOR_STATE_BYTES);
    check(monitor_set_up(state, s.n, OWN, drift, 0, 0) == MONITOR_TAKEN, "a monitor is set up");
}

static void keep(void)
{
    memcpy(before, state, sizeof before);
}

static int unchanged(void)
{
    return memcmp(before, state, sizeof before) == 0 && untouched(&s, MONITOR_STATE_BYTES);
}

static uint32_t age(uint64_t reading)
{
    return monitor_age(state, s.n, reading);
}

/* ---- messages */

/* docs/layouts.md, "A radio message", in ends form, with at most one term, epochs 0. */
static void put_message(uint32_t sender, uint64_t left, uint64_t right, uint32_t count, uint32_t term)
{
    const uint32_t low = (1u << 29) - 1;
    uint32_t words[MONITOR_MOST_WORDS], n = 0, names = N(sender) | (count > 0 ? term : 0), sum = 0;
    words[n++] = 1u << 29 | count << 5 | sender;
    for (uint32_t name = 0; name <= MONITOR_GREATEST_NAME; name++)
        if ((names >> name & 1) != 0)
            words[n++] = name;
    const uint32_t ends[] = {2u << 29 | (uint32_t)(left >> 29), 2u << 29 | ((uint32_t)left & low), 3u << 29 | (uint32_t)(right >> 29),
                             3u << 29 | ((uint32_t)right & low)};
    for (int i = 0; i < 4; i++)
        words[n++] = ends[i];
    if (count > 0)
        words[n++] = 6u << 29 | term;
    for (uint32_t i = 0; i < n; i++)
        sum += words[i];
    words[n++] = 7u << 29 | (sum & low);
    len = monitor_put_words(message, words, n);
}

/* A message under its sender alone. */
static uint32_t hear(uint32_t sender, uint64_t left, uint64_t right)
{
    put_message(sender, left, right, 0, 0);
    return monitor_receive(state, s.n, 0, 0, message, len);
}

/* One under sender + other. */
static uint32_t hear_of(uint32_t sender, uint32_t other, uint64_t left, uint64_t right)
{
    put_message(sender, left, right, 1, N(other));
    return monitor_receive(state, s.n, 0, 0, message, len);
}

static uint32_t hear_late(uint32_t sender, uint64_t left, uint64_t right, uint64_t least, uint64_t greatest)
{
    put_message(sender, left, right, 0, 0);
    return monitor_receive(state, s.n, least, greatest, message, len);
}

/* ---- what is in the state */

static int is_datum(uint32_t i, uint64_t left, uint32_t left_part, uint64_t right, uint32_t right_part)
{
    return ends_are(state + DATUM_OF(i), left, left_part, right, right_part);
}

static int counts(uint32_t held, uint32_t entries)
{
    return monitor_word(state + HELD_COUNT) == held && monitor_word(state + ENTRY_COUNT) == entries && untouched(&s, MONITOR_STATE_BYTES);
}

static void put_part(uint32_t i, size_t in, uint32_t part)
{
    monitor_put_word(state + DATUM_OF(i) + in, part);
}

/* Gives a datum such ends as runs seldom reach. */
static void put_ends(uint32_t i, uint64_t left, uint32_t left_part, uint64_t right, uint32_t right_part)
{
    uint8_t *datum = state + DATUM_OF(i);
    const uint32_t words[] = {(uint32_t)left, (uint32_t)(left >> 32), (uint32_t)right, (uint32_t)(right >> 32)};
    (void)monitor_put_words(datum, words, 4);
    put_part(i, LEFT_PART_IN, left_part);
    put_part(i, RIGHT_PART_IN, right_part);
}

static int answers(uint64_t limit, uint64_t kind, uint64_t left, uint64_t right)
{
    uint8_t answer[MONITOR_ANSWER_BYTES];
    return monitor_ask(state, s.n, limit, answer, sizeof answer) == MONITOR_TAKEN && monitor_number(answer) == kind &&
           monitor_number(answer + 8) == left && monitor_number(answer + 16) == right;
}

static int fewest(uint64_t count, uint64_t mask)
{
    uint8_t answer[MONITOR_FEWEST_BYTES];
    return monitor_fewest(state, s.n, answer, sizeof answer) == MONITOR_TAKEN && monitor_number(answer) == count && monitor_number(answer + 8) == mask;
}

/* ---- ageing and delays */

static void ageing(void)
{
    begin(100);
    check(hear(1, 0, 10) == 0 && is_datum(0, 0, 0, 10, 0), "[0, 10] is held as it came");
    check(age(1) == 0 && is_datum(0, 0, 999900, 11, 100), "1 later it is 0.9999 to 11.0001");
    check(answers(0, MONITOR_BETWEEN, 0, 12) && answers(1, MONITOR_OPEN, 0, 0), "ask 0 is 0 to 12");
    check(age(9999) == 0 && is_datum(0, 9998, 100, 10009, 999900), "9,999 later 9998.0001 to 10009.9999");
    check(age(10000) == 0 && is_datum(0, 9999, 0, 10011, 0), "and then both ends carry, at a million");
    check(answers(0, MONITOR_BETWEEN, 9999, 10011), "which leaves nothing to round");
    keep();
    check(age(10000) == 0 && unchanged(), "an equal reading changes nothing");

    begin(1);
    check(hear(1, 0, 10) == 0 && age(1) == 0 && is_datum(0, 0, 999999, 11, 1), "the least drift takes and adds a millionth");
    check(age(1000000) == 0 && is_datum(0, 999999, 0, 1000011, 0), "and 1 in a second");

    begin(0);
    check(hear(1, 0, 10) == 0 && age(7) == 0 && is_datum(0, 7, 0, 17, 0), "without drift no end has millionths");
}

/* A product of more than 64 bits: 2^57 microseconds at 1,000 parts per million are 144,115,188,075,855.872 less or more. */
static void ageing_far(void)
{
    begin(1000);
    check(hear(1, 0, 10) == 0 && age(UINT64_C(1) << 57) == 0, "2^57 later, at the greatest drift");
    check(is_datum(0, UINT64_C(143971072887780016), 128000, UINT64_C(144259303263931737), 872000), "every millionth counts");
}

/* Ages one copy at once, another in so many steps, and compares the bytes. */
static int same_in_steps(uint64_t step, uint64_t steps)
{
    uint8_t whole[MONITOR_STATE_BYTES];
    uint64_t reading = 0;
    int taken = 1;
    memcpy(whole, state, sizeof whole);
    taken &= monitor_age(whole, sizeof whole, step * steps) == MONITOR_TAKEN;
    for (uint64_t i = 0; i < steps; i++)
        taken &= age(reading += step) == MONITOR_TAKEN;
    return taken && memcmp(whole, state, sizeof whole) == 0;
}

static void pieces(void)
{
    begin(100);
    check(hear(1, 0, 10) == 0 && same_in_steps(1, 1000), "1,000 ageings of 1 are one of 1,000");
    check(is_datum(0, 999, 900000, 1010, 100000) && answers(0, MONITOR_BETWEEN, 999, 1011), "to 999.9 and 1010.1, not [0, 2010]");
    begin(100);
    check(hear(1, 0, 10) == 0 && same_in_steps(1000000, 10), "ten ageings of a second are one of ten seconds");
    begin(999);
    check(hear(1, 3, 10) == 0 && hear_late(2, 0, 20, 1, 7) == 0 && counts(2, 0), "two data, one of them with millionths");
    check(same_in_steps(UINT64_C(987654321987), 3), "three long pieces are one");

    begin(100);
    check(hear(1, 0, 10) == 0 && age(3) == 0, "a piece");
    keep();
    check(age(2) == MONITOR_BACKWARDS && age(LAST + 1) == MONITOR_READING && unchanged(), "a refused one leaves the millionths");
    check(age(10) == 0 && is_datum(0, 9, 999000, 20, 1000), "and the next goes on from there");
}

static void delays(void)
{
    begin(100);
    check(hear_late(1, 0, 10, 1, 50) == 0 && is_datum(0, 0, 999900, 60, 5000), "delays of 1 and 50 are 0.9999 and 50.005");
    check(answers(0, MONITOR_BETWEEN, 0, 61), "ask 0 is 0 to 61");
    begin(1000);
    check(hear_late(1, 0, 0, 0, 999) == 0 && is_datum(0, 0, 0, 999, 999000), "no least delay: nothing is borrowed");
    begin(1000);
    check(hear_late(1, 0, 0, MONITOR_GREATEST_DELAY - 1, MONITOR_GREATEST_DELAY) == 0 && is_datum(0, 599399999, 1000, 600600000, 0),
          "the longest delays");
}

/* ---- the greatest end */

/* A receipt up to `right` at a drift, and then an ageing to `reading`, of this number. */
static int aged_from(uint32_t drift, uint64_t right, uint64_t reading, uint32_t number)
{
    begin(drift);
    if (hear(1, 0, right) != MONITOR_TAKEN)
        return 0;
    keep();
    return age(reading) == number && (number == MONITOR_TAKEN || unchanged());
}

/* A receipt up to `right` over a greatest delay at a drift, of this number. */
static int grown_from(uint32_t drift, uint64_t right, uint64_t greatest, uint32_t number)
{
    begin(drift);
    keep();
    return hear_late(1, 0, right, 0, greatest) == number && (number == MONITOR_TAKEN || unchanged());
}

static void greatest_end(void)
{
    check(aged_from(100, LAST, 0, 0) && aged_from(100, LAST, 1, MONITOR_END), "from 2^58 - 1 on 1 is 30");
    check(aged_from(100, LAST - 2, 1, 0) && is_datum(0, 0, 999900, LAST - 1, 100), "from 2^58 - 3 on 1 is taken");
    check(aged_from(100, LAST - 2, 2, MONITOR_END), "and 2, which is 2.0002, is 30");
    check(aged_from(0, LAST - 2, 2, 0) && is_datum(0, 2, 0, LAST, 0), "without drift 2 are taken");
    check(aged_from(0, LAST - 2, 3, MONITOR_END), "and 3 are 30");
    check(aged_from(1, LAST - 1, 1, MONITOR_END), "a millionth past it is 30");
    check(grown_from(100, LAST - 1, 1, MONITOR_END) && grown_from(100, LAST - 2, 1, 0), "a delay likewise: 1.0001 from 2^58 - 2, and from 2^58 - 3");
    check(grown_from(0, LAST - 1, 1, 0) && is_datum(0, 0, 0, LAST, 0) && grown_from(0, LAST, 1, MONITOR_END), "and without drift");
    begin(100);
    keep();
    put_message(1, 0, LAST - 1, 1, 0);
    check(monitor_receive(state, s.n, 0, 1, message, len) == MONITOR_END && unchanged(), "30 comes for a true predicate too");
    begin(1000);
    check(hear(1, 0, LAST - 2) == 0, "an end to which 1 adds 1.001");
    put_part(0, RIGHT_PART_IN, 999001);
    check(age(1) == MONITOR_END, "2^58 - 2.000999 comes a millionth past it: 30");
    put_part(0, RIGHT_PART_IN, 999000);
    check(age(1) == 0 && is_datum(0, 0, 999000, LAST, 0), "2^58 - 2.001 just to it");
    begin(500);
    check(hear(1, 0, LAST - 2001) == 0, "an end that 2,000 microseconds bring to the greatest one");
    check(age(1999) == 0 && is_datum(0, 1998, 500, LAST - 2, 999500) && age(2001) == MONITOR_END, "1,999 are taken, and 2,001 are 30");
    check(age(2000) == 0 && is_datum(0, 1999, 0, LAST, 0), "2,000 carry to it, and not past it");
}

/* ---- what fractions decide alone */

/* [0, 10] under 1, or [11, 20], aged by 1 at 100 parts per million, and then a message of 2: how many entries that makes. */
static int entries_after(uint64_t left, uint64_t right, uint64_t new_left, uint64_t new_right, uint32_t entries)
{
    begin(100);
    return hear(1, left, right) == 0 && age(1) == 0 && hear(2, new_left, new_right) == 0 && counts(2, entries);
}

static void disjoint(void)
{
    check(entries_after(0, 10, 12, 20, 1) && answers(0, MONITOR_CONTRADICTED, 0, 0), "[12, 20] is apart from 0.9999 to 11.0001");
    check(entries_after(0, 10, 11, 20, 0) && answers(0, MONITOR_BETWEEN, 11, 12), "[11, 20] meets it");
    check(entries_after(11, 20, 0, 12, 0) && answers(0, MONITOR_BETWEEN, 11, 12), "[0, 12] meets 11.9999 to 21.0001");
    check(entries_after(11, 20, 0, 11, 1) && answers(0, MONITOR_CONTRADICTED, 0, 0), "[0, 11] is apart from it");
}

/* Two data with ends between 5 and 6, under 1 and 2. */
static void within_one(void)
{
    begin(100);
    check(hear(1, 5, 6) == 0 && hear(2, 5, 6) == 0, "two data");
    put_ends(0, 5, 200000, 5, 400000);
    put_ends(1, 5, 500000, 5, 600000);
    check(answers(0, MONITOR_CONTRADICTED, 0, 0) && answers(1, MONITOR_BETWEEN, 5, 6), "[5.2, 5.4] and [5.5, 5.6]: one has failed");
    check(answers(2, MONITOR_OPEN, 0, 0) && fewest(1, N(1)), "or both, and fewest is 1");
    put_ends(1, 5, 300000, 5, 600000);
    check(answers(0, MONITOR_BETWEEN, 5, 6) && fewest(0, 0), "[5.2, 5.4] and [5.3, 5.6] meet");
    put_ends(1, 5, 400000, 5, 600000);
    check(answers(0, MONITOR_BETWEEN, 5, 6) && fewest(0, 0), "[5.2, 5.4] and [5.4, 5.6] do so at 5.4");
    put_ends(1, 5, 400001, 5, 600000);
    check(answers(0, MONITOR_CONTRADICTED, 0, 0) && fewest(1, N(1)), "a millionth more, and they do not");
}

/* The same among four data, so that a set of two names is searched for. */
static void searched(void)
{
    begin(0);
    for (uint32_t name = 1; name <= 4; name++)
        check(hear(name, 5, 6) == 0, "four data");
    put_ends(0, 5, 100000, 5, 200000);
    put_ends(1, 5, 300000, 5, 400000);
    put_ends(2, 5, 350000, 7, 1);
    put_ends(3, 5, 400000, 9, 0);
    check(answers(1, MONITOR_BETWEEN, 5, 6) && fewest(1, N(1)), "without 1 they meet at 5.4");
    put_ends(3, 5, 400001, 9, 0);
    check(answers(1, MONITOR_CONTRADICTED, 0, 0) && fewest(2, N(1) | N(2)), "a millionth more, and two have failed");
    check(answers(2, MONITOR_BETWEEN, 5, 8) && answers(3, MONITOR_BETWEEN, 5, 9), "the greatest is 7.000001, and then 9");
}

/* Four data that are all apart, three of them within one microsecond, and a fifth around them whose ends are far from theirs. */
static void searched_far(void)
{
    begin(0);
    for (uint32_t name = 6; name <= 10; name++)
        check(hear(name, 5, 7) == 0, "five data");
    put_ends(0, 5, 100000, 5, 200000);
    put_ends(1, 5, 300000, 5, 400000);
    put_ends(2, 5, 500000, 5, 600000);
    put_ends(3, 7, 1, 7, 1);
    put_ends(4, 0, 500000, LAST - 1, 999999);
    check(answers(2, MONITOR_CONTRADICTED, 0, 0) && fewest(3, N(6) | N(7) | N(8)), "three have failed");
    check(answers(3, MONITOR_BETWEEN, 5, 8) && answers(4, MONITOR_BETWEEN, 0, LAST), "the greatest is 7.000001, and then nearly 2^58 - 1");
}

static void rule_15(void)
{
    begin(0);
    check(hear(1, 5, 6) == 0, "a datum");
    put_ends(0, 5, 200000, 5, 900000);
    check(hear(1, 5, 6) == 0 && counts(1, 0) && is_datum(0, 5, 200000, 5, 900000), "[5.2, 5.9] and [5, 6] under 1 are [5.2, 5.9]");
    put_ends(0, 4, 900000, 6, 100000);
    check(hear(1, 5, 6) == 0 && counts(1, 0) && is_datum(0, 5, 0, 6, 0), "[4.9, 6.1] and [5, 6] are [5, 6]");
    begin(1000);
    check(hear(1, 5, 6) == 0, "a datum");
    put_ends(0, 5, 0, 6, 500);
    check(hear_late(1, 4, 5, 1, 1) == 0 && counts(1, 0) && is_datum(0, 5, 0, 6, 500), "[5, 6.0005] and [4.999, 6.001] are [5, 6.0005]");
    put_ends(0, 4, 998000, 6, 2000);
    check(hear_late(1, 4, 5, 1, 1) == 0 && counts(1, 0) && is_datum(0, 4, 999000, 6, 1000), "[4.998, 6.002] and that are [4.999, 6.001]");
    put_ends(0, 5, 200000, 5, 900000);
    check(hear(1, 5, 5) == 0 && counts(0, 1) && fewest(1, N(1)), "[5, 5] is apart from [5.2, 5.9]: 1 has failed");
}

static void rule_14(void)
{
    begin(0);
    check(hear_of(1, 2, 5, 9) == 0, "a datum under 1 + 2");
    put_ends(0, 5, 200000, 9, 0);
    check(hear(1, 5, 9) == 0 && counts(2, 0) && is_datum(0, 5, 200000, 9, 0) && is_datum(1, 5, 0, 9, 0), "[5.2, 9], and [5, 9] under 1: both stay");
    begin(0);
    check(hear_of(1, 2, 5, 9) == 0, "a datum under 1 + 2");
    put_ends(0, 4, 999999, 9, 1);
    check(hear(1, 5, 9) == 0 && counts(1, 0) && is_datum(0, 5, 0, 9, 0), "[5, 9] lies in [4.999999, 9.000001], which goes");

    begin(0);
    check(hear(1, 5, 9) == 0, "a datum under 1");
    put_ends(0, 5, 1, 8, 999999);
    check(hear_of(1, 2, 5, 9) == 0 && counts(1, 0), "[5, 9] under 1 + 2 is no better than [5.000001, 8.999999]");
    put_ends(0, 5, 0, 9, 1);
    check(hear_of(1, 2, 5, 9) == 0 && counts(2, 0), "but [5, 9.000001] is not within it");
}

/* A place that is free again has no millionths, and those that move keep theirs. */
static void moved(void)
{
    begin(0);
    check(hear(1, 5, 6) == 0 && hear(2, 0, 21) == 0, "two data");
    put_ends(0, 5, 200000, 5, 400000);
    put_ends(1, 0, 500000, 20, 250000);
    check(hear(1, 5, 6) == 0 && counts(2, 0) && is_datum(0, 0, 500000, 20, 250000) && is_datum(1, 5, 200000, 5, 400000), "they change places");
    check(hear(1, 7, 8) == 0 && counts(1, 1) && is_datum(0, 0, 500000, 20, 250000), "1 has failed, and its datum goes");
    int zeros = 1;
    for (size_t i = DATUM_OF(1); i < DATUM_OF(16); i++)
        zeros &= state[i] == 0;
    check(zeros, "its place is all zero");
}

/* ---- the form of a state */

/* Whether every call on the state is refused with this number, and no lent byte is changed. */
static int refused(size_t n, uint32_t number)
{
    struct lent o;
    uint8_t *out = lend(&o, MONITOR_MESSAGE_BYTES);
    keep();
    put_message(1, 5, 6, 0, 0);
    int all = monitor_age(state, n, LAST) == number && monitor_receive(state, n, 0, 0, message, len) == number;
    all &= monitor_receive_with_readings(state, n, 0, 0, 1, 1, 1, 0, message, len) == number;
    all &= monitor_ask(state, n, 0, out, o.n) == number && monitor_ask(state, n, 4, out, o.n) == number;
    all &= monitor_fewest(state, n, out, o.n) == number && monitor_write(state, n, 0, out, o.n) == number;
    return all && unchanged() && untouched(&o, 0);
}

static int in_form(void)
{
    return monitor_age(state, s.n, 0) == MONITOR_TAKEN;
}

/* Of each datum in use, the least and the greatest fractions. */
static void parts_in_use(void)
{
    begin(100);
    for (uint32_t i = 0; i < 16; i++) {
        check(hear(6 + i, 5, 9 + i) == 0, "a datum");
        for (size_t in = LEFT_PART_IN; in <= RIGHT_PART_IN; in += RIGHT_PART_IN - LEFT_PART_IN) {
            put_part(i, in, MILLION - 1);
            check(in_form(), "999,999 millionths are in form");
            put_part(i, in, MILLION);
            check(refused(s.n, MONITOR_STATE_FORM), "1,000,000 are 25");
            put_part(i, in, 1u << 31);
            check(refused(s.n, MONITOR_STATE_FORM), "and so are 2^31");
            put_part(i, in, UINT32_MAX);
            check(refused(s.n, MONITOR_STATE_FORM), "and 2^32 - 1");
            put_part(i, in, 0);
        }
    }
    check(in_form() && counts(16, 0), "sixteen data are in form again");
}

static void order_of_ends(void)
{
    begin(0);
    check(hear(1, 5, 6) == 0, "a datum");
    put_ends(0, 5, 200000, 5, 200000);
    check(in_form() && answers(0, MONITOR_BETWEEN, 5, 6), "[5.2, 5.2] is in form");
    put_ends(0, 5, 200001, 5, 200000);
    check(refused(s.n, MONITOR_STATE_FORM), "a left end a millionth above the right one is 25");
    put_ends(0, 5, 999999, 6, 0);
    check(in_form(), "[5.999999, 6] is in form");
    put_ends(0, LAST, 0, LAST, 0);
    check(in_form() && answers(0, MONITOR_BETWEEN, LAST, LAST), "the greatest end is in form");
    put_ends(0, 0, 0, LAST, 1);
    check(refused(s.n, MONITOR_STATE_FORM), "with a millionth it is 25");
    put_ends(0, LAST, 0, LAST, 999999);
    check(refused(s.n, MONITOR_STATE_FORM), "and with more");
    put_ends(0, LAST - 1, 999998, LAST - 1, 999999);
    check(in_form() && answers(0, MONITOR_BETWEEN, LAST - 1, LAST), "below it each fraction is in form");
}

static void unused_places(void)
{
    begin(0);
    check(hear(1, 5, 6) == 0, "a datum");
    for (uint32_t i = 1; i < 16; i++)
        for (size_t byte = LEFT_PART_IN; byte < DATUM_BYTES; byte++) {
            state[DATUM_OF(i) + byte] = 1;
            check(refused(s.n, MONITOR_STATE_FORM), "a fraction where nothing is held is 25");
            state[DATUM_OF(i) + byte] = 0;
        }
    check(in_form(), "without it the state is in form");
}

/* The length that states had before. */
static void old_length(void)
{
    begin(0);
    check(hear(1, 5, 6) == 0 && refused(5265, MONITOR_BUFFER) && refused(s.n - 1, MONITOR_BUFFER), "5,265 bytes are 24, and so are 5,392");
    check(monitor_set_up(state, 5265, OWN, 0, 0, 0) == MONITOR_BUFFER && monitor_set_up(state, s.n - 1, OWN, 0, 0, 0) == MONITOR_BUFFER && unchanged(),
          "setting up likewise");
}

/* ---- rounding */

static void asked(void)
{
    begin(0);
    check(hear(1, 5, 6) == 0, "a datum");
    put_ends(0, 5, 1, 5, 1);
    check(answers(0, MONITOR_BETWEEN, 5, 6), "5.000001 is between 5 and 6");
    put_ends(0, 5, 999999, 6, 1);
    check(answers(0, MONITOR_BETWEEN, 5, 7), "5.999999 to 6.000001 is 5 to 7");
    put_ends(0, 6, 0, 6, 0);
    check(answers(0, MONITOR_BETWEEN, 6, 6), "6 is 6 to 6");
    put_ends(0, 0, 999999, LAST, 0);
    keep();
    check(answers(0, MONITOR_BETWEEN, 0, LAST) && unchanged(), "asking changes no end");
}

/* Whether the oldest datum, under 1, is written with these ends, and reads back to them. */
static int written(uint64_t left, uint64_t right)
{
    struct lent o;
    uint8_t *out = lend(&o, MONITOR_MESSAGE_BYTES), reading[MONITOR_READING_BYTES];
    keep();
    put_message(OWN, left, right, 1, N(1));
    if (monitor_write(state, s.n, 0, out, o.n) != MONITOR_TAKEN || !untouched(&o, len) || memcmp(out, message, len) != 0 || !unchanged())
        return 0;
    return monitor_message_read(out, len, reading, sizeof reading) == MONITOR_TAKEN && monitor_number(reading + 8) == left &&
           monitor_number(reading + 16) == right;
}

static void writing(void)
{
    begin(100);
    check(hear(1, 0, 10) == 0 && written(0, 10), "[0, 10] is written");
    check(age(1) == 0 && written(0, 12), "0.9999 to 11.0001 as 0 to 12");
    put_ends(0, 5, 999999, 5, 999999);
    check(written(5, 6), "5.999999 as 5 to 6");
    put_ends(0, 5, 0, 6, 0);
    check(written(5, 6), "whole ends as they are");
    put_ends(0, LAST - 1, 1, LAST - 1, 1);
    check(written(LAST - 1, LAST), "up to the greatest end");
}

int main(void)
{
    ageing();
    ageing_far();
    pieces();
    delays();
    greatest_end();
    disjoint();
    within_one();
    searched();
    searched_far();
    rule_15();
    rule_14();
    moved();
    parts_in_use();
    order_of_ends();
    unused_places();
    old_length();
    asked();
    writing();
    return report();
}
