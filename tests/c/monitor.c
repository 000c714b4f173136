/* A monitor from C: set up, aged, fed and asked as in document 01's listing, its oldest datum written, and a sender's clock watched, with
 * monitor.h and the archive alone. */
#include <string.h>

#include "lent.h"
#include "monitor.h"

/* Document 01's listing, with epochs: sender 1 from 1,000,000 to 1,000,200, and later sender 2 from 3,000,000 + 1,000 to 3,001,000. */
static const uint32_t first[] = {536870913u, 1, 1073741824u, 1074741824u, 1610612736u, 1611612936u, 3760096586u};
static const uint32_t second[] = {536870914u, 2, 1073741824u, 1076742824u, 1610612736u, 1613613736u, 3764098388u};
#define WORDS (sizeof first / sizeof *first)

static void set_up_refuses(void)
{
    struct lent s;
    uint8_t *state = lend(&s, MONITOR_STATE_BYTES);
    check(monitor_set_up(state, MONITOR_STATE_BYTES - 1, 5, 100, 0, 0) == MONITOR_BUFFER && untouched(&s, 0), "a state one byte short is 24");
    check(monitor_set_up(state, s.n, MONITOR_GREATEST_NAME + 1, 100, 0, 0) == MONITOR_OWN_NAME && untouched(&s, 0), "own identifier 29 is 1");
    check(monitor_set_up(state, s.n, 5, 100, 0, MONITOR_GREATEST_EPOCH + 1) == MONITOR_OWN_EPOCH && untouched(&s, 0), "own epoch 16 is 41");
    check(monitor_set_up(state, s.n, 5, MONITOR_GREATEST_DRIFT + 1, 0, 0) == MONITOR_DRIFT && untouched(&s, 0), "drift 1,001 is 2");
    check(monitor_set_up(state, s.n, 5, 100, MONITOR_GREATEST_READING + 1, 0) == MONITOR_READING && untouched(&s, 0),
          "a reading of 2^58 is 3");
    check(monitor_age(state, s.n, 0) == MONITOR_STATE_FORM && untouched(&s, 0), "bytes that are no state are 25");
}

/* Whether the state is asked with this answer, and nothing beside its bytes is written. */
static int answers(const uint8_t *state, uint64_t limit, uint64_t kind, uint64_t left, uint64_t right)
{
    struct lent a;
    uint8_t *answer = lend(&a, MONITOR_ANSWER_BYTES);
    return monitor_ask(state, MONITOR_STATE_BYTES, limit, answer, a.n) == MONITOR_TAKEN && untouched(&a, MONITOR_ANSWER_BYTES) &&
           monitor_number(answer) == kind && monitor_number(answer + 8) == left && monitor_number(answer + 16) == right;
}

/* The same for the fewest failures. */
static int fewest(const uint8_t *state, uint64_t count, uint64_t mask)
{
    struct lent a;
    uint8_t *answer = lend(&a, MONITOR_FEWEST_BYTES);
    return monitor_fewest(state, MONITOR_STATE_BYTES, answer, a.n) == MONITOR_TAKEN && untouched(&a, MONITOR_FEWEST_BYTES) &&
           monitor_number(answer) == count && monitor_number(answer + 8) == mask;
}

static void refusals_leave(uint8_t *state, const uint8_t *message, size_t len)
{
    uint8_t before[MONITOR_STATE_BYTES];
    memcpy(before, state, MONITOR_STATE_BYTES);
    check(monitor_age(state, MONITOR_STATE_BYTES, 1999999) == MONITOR_BACKWARDS, "an earlier reading is 20");
    check(monitor_receive(state, MONITOR_STATE_BYTES, 51, 50, message, len) == MONITOR_DELAY, "a least delay above the greatest is 21");
    check(monitor_receive(state, MONITOR_STATE_BYTES, 0, 50, message, len - 1) == MONITOR_WORD_COUNT, "a length that leaves a rest is 10");
    check(memcmp(before, state, MONITOR_STATE_BYTES) == 0, "and the refusals left every byte");
}

static void writing(const uint8_t *state)
{
    struct lent o;
    uint8_t *out = lend(&o, MONITOR_MESSAGE_BYTES), reading[MONITOR_READING_BYTES];
    check(monitor_write(state, MONITOR_STATE_BYTES, 0, out, o.n) == MONITOR_TAKEN && untouched(&o, 36), "the oldest is written as 9 words");
    check(monitor_word(out + 4) == 1 && monitor_word(out + 8) == 5, "with the epochs of its sender and of its term");
    check(monitor_message_read(out, 36, reading, sizeof reading) == MONITOR_TAKEN, "what is written is read");
    check(monitor_number(reading) == 5 && monitor_number(reading + 24) == 1, "own identifier and one term");
    check(monitor_number(reading + 8) == 2999800 && monitor_number(reading + 16) == 3000451, "and the interval");
}

static void questions_refuse(const uint8_t *state)
{
    struct lent a, b;
    uint8_t *answer = lend(&a, MONITOR_ANSWER_BYTES), *broken = lend(&b, MONITOR_STATE_BYTES);
    check(monitor_ask(state, MONITOR_STATE_BYTES, MONITOR_GREATEST_LIMIT + 1, answer, a.n) == MONITOR_LIMIT, "limit 5 is 22");
    check(monitor_ask(state, MONITOR_STATE_BYTES, UINT64_MAX, answer, 0) == MONITOR_LIMIT, "22 comes before 24 for the answer");
    check(monitor_ask(state, MONITOR_STATE_BYTES - 1, MONITOR_GREATEST_LIMIT + 1, answer, a.n) == MONITOR_BUFFER,
          "a short state is 24, before 22");
    check(monitor_ask(broken, b.n, MONITOR_GREATEST_LIMIT + 1, answer, a.n) == MONITOR_STATE_FORM,
          "bytes that are no state are 25, before 22");
    check(monitor_fewest(state, MONITOR_STATE_BYTES - 1, answer, a.n) == MONITOR_BUFFER, "a short state is 24");
    check(monitor_fewest(broken, b.n, answer, 0) == MONITOR_STATE_FORM, "25 comes before 24 for the answer");
    check(untouched(&a, 0) && untouched(&b, 0), "and the refusals left every byte");
    for (size_t n = 0; n < MONITOR_ANSWER_BYTES; n++) {
        answer = lend(&a, n);
        check(monitor_ask(state, MONITOR_STATE_BYTES, 1, answer, n) == MONITOR_BUFFER && untouched(&a, 0), "a short answer is 24, unchanged");
    }
    for (size_t n = 0; n < MONITOR_FEWEST_BYTES; n++) {
        answer = lend(&a, n);
        check(monitor_fewest(state, MONITOR_STATE_BYTES, answer, n) == MONITOR_BUFFER && untouched(&a, 0), "a short answer is 24, unchanged");
    }
    answer = lend(&a, MONITOR_ANSWER_BYTES + 76);
    check(monitor_ask(state, MONITOR_STATE_BYTES, 1, answer, a.n) == MONITOR_TAKEN && untouched(&a, MONITOR_ANSWER_BYTES),
          "a longer answer keeps what is beyond");
    answer = lend(&a, MONITOR_FEWEST_BYTES + 84);
    check(monitor_fewest(state, MONITOR_STATE_BYTES, answer, a.n) == MONITOR_TAKEN && untouched(&a, MONITOR_FEWEST_BYTES),
          "and so for the fewest failures");
}

static void listing(void)
{
    struct lent s, o;
    uint8_t *state = lend(&s, MONITOR_STATE_BYTES), *out = lend(&o, MONITOR_MESSAGE_BYTES), message[sizeof first];

    check(monitor_set_up(state, s.n, 5, 100, 0, 0) == MONITOR_TAKEN && untouched(&s, MONITOR_STATE_BYTES), "set 5 100 0 0");
    check(monitor_write(state, s.n, 0, out, o.n) == MONITOR_POSITION && untouched(&o, 0), "a fresh state holds nothing: 23");
    check(answers(state, 0, MONITOR_OPEN, 0, 0) && answers(state, MONITOR_GREATEST_LIMIT, MONITOR_OPEN, 0, 0), "a fresh state is open");
    check(fewest(state, 0, 0), "and nobody need have failed");

    size_t len = monitor_put_words(message, first, WORDS);
    check(monitor_receive(state, s.n, 0, 50, message, len) == MONITOR_TAKEN, "get 0 50 of the first message");
    check(ends_are(state + DATUM_OF(0), 1000000, 0, 1000250, 5000), "its interval has grown by the delays, to 1000250.005");
    check(answers(state, 0, MONITOR_BETWEEN, 1000000, 1000251), "ask 0 is that interval, rounded");
    check(monitor_age(state, s.n, 2000000) == MONITOR_TAKEN, "age 2000000");
    check(ends_are(state + DATUM_OF(0), 2999800, 0, 3000450, 5000), "it has widened by the drift");
    check(answers(state, 0, MONITOR_BETWEEN, 2999800, 3000451), "and so has the answer");
    refusals_leave(state, message, len);

    len = monitor_put_words(message, second, WORDS);
    check(monitor_receive(state, s.n, 0, 0, message, len) == MONITOR_TAKEN, "get 0 0 of the second message");
    check(state[HELD_COUNT] == 2 && state[ENTRY_COUNT] == 1, "two data are held, and that they are disjoint is known");
    check(answers(state, 0, MONITOR_CONTRADICTED, 0, 0), "ask 0 is contradicted");
    check(answers(state, 1, MONITOR_BETWEEN, 2999800, 3001000), "ask 1 is between");
    check(answers(state, 2, MONITOR_OPEN, 0, 0), "ask 2 is open");
    check(fewest(state, 1, 2), "fewest 1 2");
    writing(state);
    questions_refuse(state);
    check(untouched(&s, MONITOR_STATE_BYTES), "nothing beside the state is written");
}

/* A message of the instant 0 over a channel with these delays; what it then says, or the number that it is refused with. */
static int arrives(uint32_t drift, uint64_t least, uint64_t greatest, uint32_t number, uint64_t left, uint64_t right)
{
    static const uint32_t words[] = {1u << 29 | 1, 1, 2u << 29, 2u << 29, 3u << 29, 3u << 29, 7u << 29 | 2};
    struct lent s;
    uint8_t *state = lend(&s, MONITOR_STATE_BYTES), message[sizeof words];
    size_t len = monitor_put_words(message, words, WORDS);
    if (monitor_set_up(state, s.n, 5, drift, 0, 0) != MONITOR_TAKEN || monitor_receive(state, s.n, least, greatest, message, len) != number)
        return 0;
    return answers(state, 0, number == MONITOR_TAKEN ? MONITOR_BETWEEN : MONITOR_OPEN, left, right) && untouched(&s, MONITOR_STATE_BYTES);
}

/* Radios that sleep: delays up to ten minutes, counted on the own clock. */
static void delays(void)
{
    const uint64_t most = MONITOR_GREATEST_DELAY;
    check(arrives(0, 3, most, MONITOR_TAKEN, 3, 600000000), "without drift a delay is true time");
    check(arrives(100, 1, 1, MONITOR_TAKEN, 0, 2), "with it 1 is 0.9999 to 1.0001");
    check(arrives(1000, most, most, MONITOR_TAKEN, 599400000, 600600000), "the greatest drift and delay");
    check(arrives(100, 0, most + 1, MONITOR_DELAY, 0, 0) && arrives(100, UINT64_MAX, UINT64_MAX, MONITOR_DELAY, 0, 0), "a longer delay is 21");
}

/* Sender n at its own place, so that no two of them agree. */
static void over_limit(void)
{
    struct lent s;
    uint8_t *state = lend(&s, MONITOR_STATE_BYTES), message[sizeof first];
    check(monitor_set_up(state, s.n, 0, 0, 0, 0) == MONITOR_TAKEN, "a monitor is set up");
    for (uint32_t n = 1; n <= MONITOR_GREATEST_LIMIT + 2; n++) {
        uint32_t words[] = {1u << 29 | n, n, 2u << 29, 2u << 29 | 100 * n, 3u << 29, 3u << 29 | (100 * n + 9), 7u << 29 | (202 * n + 9)};
        size_t len = monitor_put_words(message, words, WORDS);
        check(monitor_receive(state, s.n, 0, 0, message, len) == MONITOR_TAKEN, "senders 1 to 6, all apart");
        int over = n > MONITOR_GREATEST_LIMIT + 1;
        check(over ? fewest(state, MONITOR_FEWEST_OVER, 0) : fewest(state, n - 1, (1u << n) - 2), "all but one of them have failed");
    }
    check(answers(state, MONITOR_GREATEST_LIMIT, MONITOR_CONTRADICTED, 0, 0), "which is more than the greatest limit");
}

/* ---- a sender's clock */

/* Document 01's first message with readings of its sender, without delay; drift 0. */
static uint32_t watched(uint8_t *state, uint64_t sender_reading, uint64_t own_reading, uint64_t half_width)
{
    uint8_t message[sizeof first];
    size_t len = monitor_put_words(message, first, WORDS);
    return monitor_receive_with_readings(state, MONITOR_STATE_BYTES, 0, 0, sender_reading, own_reading, half_width, 0, message, len);
}

/* Whether sender 1's place has flag 1 and these nine numbers. */
static int saved(const uint8_t *state, const uint64_t numbers[9])
{
    const uint8_t *place = state + CLOCK_OF(1);
    int same = monitor_word(place) == 1;
    for (int i = 0; i < 9; i++)
        same &= monitor_number(place + 4 + 8 * i) == numbers[i];
    return same;
}

/* Whether all places but sender 1's are zeros, and all epochs. */
static int no_other_saved(const uint8_t *state)
{
    int zeros = 1;
    for (size_t i = CLOCK_OF(0); i < MONITOR_STATE_BYTES; i++)
        zeros &= state[i] == 0 || (i >= CLOCK_OF(1) && i < CLOCK_OF(2));
    return zeros;
}

static void clock_is_watched(void)
{
    static const uint64_t one[9] = {0, 0, 1, 0, 0, 1, 0, 0, 1}, two[9] = {100, 102, 1, 0, 0, 1, 100, 102, 1};
    static const uint64_t three[9] = {200, 205, 1, 0, 0, 1, 200, 205, 1};
    struct lent s;
    uint8_t *state = lend(&s, MONITOR_STATE_BYTES);
    check(monitor_set_up(state, s.n, 5, 0, 0, 0) == MONITOR_TAKEN && no_other_saved(state), "a fresh state has nothing saved");
    check(watched(state, 0, 0, 1) == MONITOR_TAKEN && saved(state, one), "the first readings are saved three times");
    check(watched(state, 100, 102, 1) == MONITOR_TAKEN && saved(state, two), "at the bound of the test they agree, and are saved");
    check(state[HELD_COUNT] == 1 && state[ENTRY_COUNT] == 0 && no_other_saved(state), "a datum is held, and no failure is known");
    check(answers(state, 0, MONITOR_BETWEEN, 1000000, 1000200), "ask 0 is its interval");
    check(watched(state, 200, 205, 1) == MONITOR_TAKEN && saved(state, three), "past the bound they are taken and saved too");
    check(state[HELD_COUNT] == 0 && state[ENTRY_COUNT] == 1 && monitor_word(state + FIRST_MASK) == 2, "the sender is known to have failed");
    check(answers(state, 0, MONITOR_CONTRADICTED, 0, 0) && answers(state, 1, MONITOR_OPEN, 0, 0), "ask 0 is contradicted, ask 1 open");
    check(fewest(state, 1, 2), "fewest 1 2");
    check(no_other_saved(state) && untouched(&s, MONITOR_STATE_BYTES), "nothing beside is written");
}

static void readings_refuse(void)
{
    struct lent s;
    uint8_t *state = lend(&s, MONITOR_STATE_BYTES), before[MONITOR_STATE_BYTES], message[sizeof first];
    size_t len = monitor_put_words(message, first, WORDS);
    const uint64_t past = MONITOR_GREATEST_CLOCK + 1;
    check(monitor_set_up(state, s.n, 5, 0, 0, 0) == MONITOR_TAKEN, "a monitor is set up");
    memcpy(before, state, sizeof before);
    check(watched(state, past, 0, 0) == MONITOR_READINGS, "a sender's reading of 2^43 is 40");
    check(watched(state, 0, past, 0) == MONITOR_READINGS, "an own reading of 2^43 is 40");
    check(watched(state, 0, 0, past) == MONITOR_READINGS, "a half width of 2^43 is 40");
    check(monitor_receive_with_readings(state, s.n, 0, 0, 0, 0, 0, MONITOR_GREATEST_DRIFT + 1, message, len) == MONITOR_READINGS,
          "a sender's drift of 1,001 is 40");
    check(monitor_receive_with_readings(state, s.n, 1, 0, past, 0, 0, 0, message, len) == MONITOR_DELAY, "21 comes before 40");
    check(monitor_receive_with_readings(state, s.n, 0, 0, past, 0, 0, 0, message, len - 1) == MONITOR_READINGS, "40 comes before 10");
    check(monitor_receive_with_readings(state, s.n, 0, 0, 1, 2, 3, 4, message, len - 1) == MONITOR_WORD_COUNT, "a length that leaves a rest is 10");
    check(monitor_receive_with_readings(state, s.n - 1, 1, 0, past, 0, 0, 0, message, len) == MONITOR_BUFFER, "a state one byte short is 24");
    check(memcmp(before, state, sizeof before) == 0, "and the refusals left every byte");
    check(watched(state, past - 1, past - 1, past - 1) == MONITOR_TAKEN, "the greatest numbers are taken");
    state[CLOCK_OF(1)] = 2;
    memcpy(before, state, sizeof before);
    check(watched(state, past, 0, 0) == MONITOR_STATE_FORM && monitor_age(state, s.n, 0) == MONITOR_STATE_FORM, "a flag of 2 is 25, before 40");
    check(memcmp(before, state, sizeof before) == 0 && untouched(&s, MONITOR_STATE_BYTES), "and the refusals left every byte");
}

int main(void)
{
    set_up_refuses();
    listing();
    delays();
    over_limit();
    clock_is_watched();
    readings_refuse();
    return report();
}
