/* Slices of length 0 at NULL, for every call: what an empty buffer hands in. Each is refused as the papers list it, and nothing is written. */
#include <string.h>

#include "lent.h"

static const uint32_t words[] = {536870913u, 1, 1073741824u, 1074741824u, 1610612736u, 1611612936u, 3760096586u};

/* No state: 24, whatever else is handed in. */
static void no_state(const uint8_t *message, size_t len)
{
    struct lent o;
    uint8_t *out = lend(&o, MONITOR_MESSAGE_BYTES);
    check(monitor_set_up(NULL, 0, 5, 100, 0, 0) == MONITOR_BUFFER, "setting up without a state is 24");
    check(monitor_set_up(NULL, 0, 99, 9999, UINT64_MAX, UINT64_MAX) == MONITOR_BUFFER, "before 1, 41, 2 and 3");
    check(monitor_age(NULL, 0, 7) == MONITOR_BUFFER, "ageing without a state is 24");
    check(monitor_receive(NULL, 0, 0, 50, message, len) == MONITOR_BUFFER, "receiving without a state is 24");
    check(monitor_receive(NULL, 0, 0, 50, NULL, 0) == MONITOR_BUFFER, "without a message too");
    check(monitor_receive_with_readings(NULL, 0, 0, 50, 1, 2, 3, 4, message, len) == MONITOR_BUFFER, "with readings too");
    check(monitor_receive_with_readings(NULL, 0, 51, 50, UINT64_MAX, UINT64_MAX, UINT64_MAX, UINT32_MAX, NULL, 0) == MONITOR_BUFFER,
          "before 21 and 40");
    check(monitor_write(NULL, 0, 0, out, o.n) == MONITOR_BUFFER, "writing without a state is 24");
    check(monitor_write(NULL, 0, 0, NULL, 0) == MONITOR_BUFFER, "without an output too");
    check(monitor_ask(NULL, 0, 1, out, o.n) == MONITOR_BUFFER, "asking without a state is 24");
    check(monitor_ask(NULL, 0, 1, NULL, 0) == MONITOR_BUFFER, "without an output too");
    check(monitor_fewest(NULL, 0, out, o.n) == MONITOR_BUFFER, "the fewest failures without a state are 24");
    check(monitor_fewest(NULL, 0, NULL, 0) == MONITOR_BUFFER, "without an output too");
    check(untouched(&o, 0), "and no output is written");
}

/* A state that holds a datum, and no message or no output. */
static void no_more(const uint8_t *message, size_t len)
{
    struct lent s;
    uint8_t *state = lend(&s, MONITOR_STATE_BYTES), before[MONITOR_STATE_BYTES];
    check(monitor_set_up(state, s.n, 5, 100, 0, 0) == MONITOR_TAKEN, "a monitor is set up");
    check(monitor_receive(state, s.n, 0, 50, message, len) == MONITOR_TAKEN, "and holds a datum");
    memcpy(before, state, sizeof before);
    check(monitor_receive(state, s.n, 0, 50, NULL, 0) == MONITOR_WORD_COUNT, "no message is 10");
    check(monitor_receive(state, s.n, 51, 50, NULL, 0) == MONITOR_DELAY, "21 comes first");
    check(monitor_receive_with_readings(state, s.n, 0, 50, 1, 2, 3, 4, NULL, 0) == MONITOR_WORD_COUNT, "no message is 10 with readings too");
    check(monitor_receive_with_readings(state, s.n, 0, 50, UINT64_MAX, 2, 3, 4, NULL, 0) == MONITOR_READINGS, "40 comes first");
    check(monitor_receive_with_readings(state, s.n, 51, 50, UINT64_MAX, 2, 3, 4, NULL, 0) == MONITOR_DELAY, "and 21 before it");
    check(monitor_write(state, s.n, 0, NULL, 0) == MONITOR_BUFFER, "no output for a message is 24");
    check(monitor_write(state, s.n, 1, NULL, 0) == MONITOR_POSITION, "23 comes first");
    check(monitor_ask(state, s.n, 1, NULL, 0) == MONITOR_BUFFER, "no output for an answer is 24");
    check(monitor_ask(state, s.n, 5, NULL, 0) == MONITOR_LIMIT, "22 comes first");
    check(monitor_fewest(state, s.n, NULL, 0) == MONITOR_BUFFER, "no output for the fewest failures is 24");
    check(memcmp(before, state, sizeof before) == 0 && untouched(&s, MONITOR_STATE_BYTES), "and the state is as it was");
}

static void no_message(const uint8_t *message, size_t len)
{
    struct lent o;
    uint8_t *out = lend(&o, MONITOR_MESSAGE_BYTES);
    check(monitor_message_read(NULL, 0, out, o.n) == MONITOR_WORD_COUNT, "reading no message is 10");
    check(monitor_message_read(NULL, 0, NULL, 0) == MONITOR_WORD_COUNT, "before 24");
    check(monitor_message_read(message, len, NULL, 0) == MONITOR_BUFFER, "no output for the reading is 24");
    check(monitor_message_rewrite(NULL, 0, out, o.n) == MONITOR_WORD_COUNT, "rewriting no message is 10");
    check(monitor_message_rewrite(NULL, 0, NULL, 0) == MONITOR_WORD_COUNT, "before 24");
    check(monitor_message_rewrite(message, len, NULL, 0) == MONITOR_BUFFER, "no output for the message is 24");
    check(untouched(&o, 0), "and no output is written");
}

int main(void)
{
    uint8_t message[sizeof words];
    size_t len = monitor_put_words(message, words, sizeof words / sizeof *words);
    no_state(message, len);
    no_more(message, len);
    no_message(message, len);
    return report();
}
