// The calls from C++: buffers are vectors, and an empty one hands in whatever its data() is, a null pointer in the common libraries.
#include <cstdint>
#include <vector>

#include "lent.h"

using bytes = std::vector<std::uint8_t>;

static std::uint32_t set_up(bytes &state) { return monitor_set_up(state.data(), state.size(), 5, 100, 0, 0); }

static std::uint32_t age(bytes &state, std::uint64_t reading) { return monitor_age(state.data(), state.size(), reading); }

static std::uint32_t receive(bytes &state, const bytes &message)
{
    return monitor_receive(state.data(), state.size(), 0, 50, message.data(), message.size());
}

static std::uint32_t receive_with_readings(bytes &state, std::uint64_t sender_reading, std::uint64_t own_reading, const bytes &message)
{
    return monitor_receive_with_readings(state.data(), state.size(), 0, 50, sender_reading, own_reading, 1, 0, message.data(), message.size());
}

static std::uint32_t write(const bytes &state, bytes &out) { return monitor_write(state.data(), state.size(), 0, out.data(), out.size()); }

static std::uint32_t ask(const bytes &state, bytes &answer) { return monitor_ask(state.data(), state.size(), 0, answer.data(), answer.size()); }

static std::uint32_t fewest(const bytes &state, bytes &answer) { return monitor_fewest(state.data(), state.size(), answer.data(), answer.size()); }

static std::uint32_t read(const bytes &message, bytes &out)
{
    return monitor_message_read(message.data(), message.size(), out.data(), out.size());
}

static std::uint32_t rewrite(const bytes &message, bytes &out)
{
    return monitor_message_rewrite(message.data(), message.size(), out.data(), out.size());
}

// Document 01's first message; its sender was mended so often.
static bytes first_message(std::uint32_t epoch = 0)
{
    const std::vector<std::uint32_t> words{536870913u,  1 + 32 * epoch, 1073741824u, 1074741824u, 1610612736u,
                                           1611612936u, 3760096586u + 32 * epoch};
    bytes message(4 * words.size());
    check(monitor_put_words(message.data(), words.data(), words.size()) == message.size(), "the words are put");
    return message;
}

static void empty()
{
    bytes none, state(MONITOR_STATE_BYTES), message = first_message();
    check(none.data() == nullptr, "an empty vector hands in NULL here");
    check(set_up(none) == MONITOR_BUFFER && age(none, 0) == MONITOR_BUFFER && receive(none, message) == MONITOR_BUFFER, "no state is 24");
    check(write(none, none) == MONITOR_BUFFER && ask(none, none) == MONITOR_BUFFER && fewest(none, none) == MONITOR_BUFFER, "and so elsewhere");
    check(receive_with_readings(none, 0, 0, message) == MONITOR_BUFFER, "with readings too");
    check(set_up(state) == MONITOR_TAKEN && receive(state, none) == MONITOR_WORD_COUNT, "no message is 10");
    check(receive_with_readings(state, 0, 0, none) == MONITOR_WORD_COUNT, "with readings too");
    check(receive(state, message) == MONITOR_TAKEN, "a message is received");
    check(write(state, none) == MONITOR_BUFFER && ask(state, none) == MONITOR_BUFFER && fewest(state, none) == MONITOR_BUFFER, "no output is 24");
    check(read(none, none) == MONITOR_WORD_COUNT && rewrite(none, none) == MONITOR_WORD_COUNT, "no message is 10");
    check(read(message, none) == MONITOR_BUFFER && rewrite(message, none) == MONITOR_BUFFER, "no output is 24");
}

static void filled()
{
    bytes state(MONITOR_STATE_BYTES, 0xee), message = first_message(), answer(MONITOR_ANSWER_BYTES), reading(MONITOR_READING_BYTES);
    check(set_up(state) == MONITOR_TAKEN && receive(state, message) == MONITOR_TAKEN, "document 01's first message is received");
    check(age(state, 2000000) == MONITOR_TAKEN, "age 2000000");
    check(ask(state, answer) == MONITOR_TAKEN && monitor_number(answer.data()) == MONITOR_BETWEEN, "ask 0 is between");
    check(monitor_number(answer.data() + 8) == 2999800 && monitor_number(answer.data() + 16) == 3000451, "2999800 and 3000451");
    check(fewest(state, answer) == MONITOR_TAKEN && monitor_number(answer.data()) == 0, "nobody need have failed");
    bytes out(message.size());
    check(rewrite(message, out) == MONITOR_TAKEN && out == message, "an ends form message is rewritten as it was");
    out.assign(36, 0);
    check(write(state, out) == MONITOR_TAKEN && read(out, reading) == MONITOR_TAKEN && monitor_number(reading.data()) == 5, "a datum is written");
}

// A clock that runs as it should, then jumps, and is mended.
static void watched()
{
    bytes state(MONITOR_STATE_BYTES), message = first_message(), answer(MONITOR_FEWEST_BYTES);
    check(set_up(state) == MONITOR_TAKEN, "a monitor is set up");
    check(receive_with_readings(state, 0, 0, message) == MONITOR_TAKEN, "the first readings of a sender");
    check(receive_with_readings(state, 5000, 5002, message) == MONITOR_TAKEN, "readings that agree");
    check(fewest(state, answer) == MONITOR_TAKEN && monitor_number(answer.data()) == 0, "nobody need have failed");
    check(receive_with_readings(state, 6000, 7000, message) == MONITOR_TAKEN, "readings that do not");
    check(fewest(state, answer) == MONITOR_TAKEN && monitor_number(answer.data()) == 1 && monitor_number(answer.data() + 8) == 2,
          "the sender has failed");
    check(receive(state, first_message(1)) == MONITOR_TAKEN, "the mended sender");
    check(fewest(state, answer) == MONITOR_TAKEN && monitor_number(answer.data()) == 0, "nobody need have failed");
}

int main()
{
    empty();
    filled();
    watched();
    return report();
}
