/* Compares hand.c with the engine over seeded random calls: numbers, and every byte of state and output, guards around them too. `compare` is
 * the full comparison, `compare N` one of N rounds. Fails at the first difference, and if a number of the papers' lists or anything else that is
 * counted was never seen. */
#include <stdio.h>
#include <stdlib.h>

#include "hand.h"
#include "samples.h"

#define ROUNDS 100000
#define GUARD 64
#define BUFFER (GUARD + 8 + MONITOR_STATE_BYTES + 40 + GUARD)
#define COUNT(array) (sizeof(array) / sizeof *(array))
#define PICK(r, ...) (((const uint64_t[]){__VA_ARGS__})[below(r, COUNT(((const uint64_t[]){__VA_ARGS__})))])

enum kind { SET_UP, AGE, RECEIVE, WITH_READINGS, WRITE, ASK, FEWEST, READ, REWRITE, KINDS };
static const char *const kind_names[KINDS] = {"set_up", "age", "receive", "receive_with_readings", "write", "ask", "fewest", "message_read",
                                              "message_rewrite"};

/* The papers' numbers for each call; 0 is taken and stands first. */
static const unsigned expected[KINDS][19] = {
    {0, 1, 2, 3, 24, 41},
    {0, 3, 20, 24, 25, 30},
    {0, 10, 11, 12, 13, 14, 15, 16, 17, 18, 21, 24, 25, 30, 31, 32, 42},
    {0, 10, 11, 12, 13, 14, 15, 16, 17, 18, 21, 24, 25, 30, 31, 32, 40, 42},
    {0, 23, 24, 25},
    {0, 22, 24, 25},
    {0, 24, 25},
    {0, 10, 11, 12, 13, 14, 15, 16, 17, 24, 42},
    {0, 10, 11, 12, 13, 14, 15, 16, 17, 24, 42},
};

static unsigned long seen[KINDS][64];
static unsigned long answers[3], counts[6];

/* What taken receipts with readings met. */
enum met { FIRST, AGREED, VIOLATED, METS };
static unsigned long met[METS];

/* What receipts made of epochs: those taken, and those refused when names had been withdrawn. */
enum heard {
    RISEN_SENDER, RISEN_TERM, RISEN_STRUCK, LATE_SENDER, LATE_TERM, OWN_PASSED, DATUM_GONE, DATUM_LESS, ENTRY_GONE, ENTRY_LESS, TRIPLES_GONE,
    UNHEEDED, UNDONE, HEARDS
};
static const char *const heard_names[HEARDS] = {
    "risen sender", "risen in a term", "risen in a struck term alone", "late sender", "late in a term", "another epoch of the own identifier",
    "datum withdrawn", "datum less a name", "entry withdrawn", "entry less a name", "triples gone", "readings of a late sender",
    "undone by 32"
};
static unsigned long heard[HEARDS];

/* Document 01's greatest delay: a radio that takes longer has slept. */
#define AWAKE 60000000
/* Drifts at which receipts from such radios have to be taken; what else those met, and those refused 30. */
static const uint32_t drifts[] = {0, 1, 100, 999, 1000};
enum slept { ALIKE, LONGEST, AT_END, PAST_END, SLEPTS };
static unsigned long slept_at[COUNT(drifts)], slept[SLEPTS];

/* What the millionths of an end alone decided: against the same state without them, or between ends whose wholes are equal. */
enum decided {
    APART, TOUCHING, NARROWED, STORED, KEPT, END_PASSED, END_REACHED, CARRIED, PIECES, FORM_GREAT, FORM_ORDER, FORM_END, FORM_UNUSED, IN_FORM,
    CROSSED, LEFT_DOWN, RIGHT_UP, FEWER, DECIDED
};
static const char *const decided_names[DECIDED] = {
    "apart", "touching", "narrowed by rule 15", "stored against rule 14", "kept against rule 14", "30", "up to the greatest end",
    "a carry at 1,000,000", "aged in pieces", "25 by a million", "25 by the order", "25 by the greatest end", "25 by an unused place",
    "equal wholes in form", "another kind of answer", "left end down", "right end up", "other fewest failures"
};
static unsigned long decided[DECIDED];

/* ---- calls by both programs */

/* Bytes lent to both, between filled guards and at any alignment. */
struct lent {
    uint8_t engine[BUFFER], hand[BUFFER], before[BUFFER];
    size_t at, len;
};

/* A call with its arguments, the lent bytes aside. */
struct call {
    enum kind kind;
    uint32_t own, drift;
    uint64_t epoch;
    uint64_t a, b; /* reading, delays, position or limit */
    uint64_t sender_reading, own_reading, half_width;
    uint32_t sender_drift;
    uint8_t message[200];
    size_t len;
};

/* Lends a copy of the bytes to both; those around them are random. */
static void lend(struct source *r, struct lent *l, const uint8_t *bytes, size_t count, size_t len)
{
    for (size_t i = 0; i < BUFFER; i += 8)
        put64(l->before + (i + 8 <= BUFFER ? i : BUFFER - 8), bits(r));
    l->at = GUARD + below(r, 8);
    l->len = len;
    memcpy(l->before + l->at, bytes, count);
    memcpy(l->engine, l->before, BUFFER);
    memcpy(l->hand, l->before, BUFFER);
}

static uint32_t by_engine(const struct call *c, uint8_t *state, size_t len, uint8_t *out, size_t out_len)
{
    switch (c->kind) {
    case SET_UP:
        return monitor_set_up(state, len, c->own, c->drift, c->a, c->epoch);
    case AGE:
        return monitor_age(state, len, c->a);
    case RECEIVE:
        return monitor_receive(state, len, c->a, c->b, c->message, c->len);
    case WITH_READINGS:
        return monitor_receive_with_readings(state, len, c->a, c->b, c->sender_reading, c->own_reading, c->half_width, c->sender_drift,
                                             c->message, c->len);
    case WRITE:
        return monitor_write(state, len, c->a, out, out_len);
    case ASK:
        return monitor_ask(state, len, c->a, out, out_len);
    case FEWEST:
        return monitor_fewest(state, len, out, out_len);
    case READ:
        return monitor_message_read(c->message, c->len, out, out_len);
    default:
        return monitor_message_rewrite(c->message, c->len, out, out_len);
    }
}

static uint32_t by_hand(const struct call *c, uint8_t *state, size_t len, uint8_t *out, size_t out_len)
{
    switch (c->kind) {
    case SET_UP:
        return hand_set_up(state, len, c->own, c->drift, c->a, c->epoch);
    case AGE:
        return hand_age(state, len, c->a);
    case RECEIVE:
        return hand_receive(state, len, c->a, c->b, c->message, c->len);
    case WITH_READINGS:
        return hand_receive_with_readings(state, len, c->a, c->b, c->sender_reading, c->own_reading, c->half_width, c->sender_drift,
                                          c->message, c->len);
    case WRITE:
        return hand_write(state, len, c->a, out, out_len);
    case ASK:
        return hand_ask(state, len, c->a, out, out_len);
    case FEWEST:
        return hand_fewest(state, len, out, out_len);
    case READ:
        return hand_message_read(c->message, c->len, out, out_len);
    default:
        return hand_message_rewrite(c->message, c->len, out, out_len);
    }
}

/* ---- test (20) */

/* As printed, times a million, in 128 bits: how many of the three triples in a name's place the readings violate it with. */
static int violations(const uint8_t *place, const struct call *c, uint32_t own_drift)
{
    __extension__ typedef __int128 signed_wide;
    int count = 0;
    for (const uint8_t *saved = place + 4; saved < place + CLOCK; saved += 24) {
        signed_wide a = (signed_wide)c->sender_reading - get64(saved), b = (signed_wide)c->own_reading - get64(saved + 8);
        signed_wide left = (b < 0 ? -b : b) - a, right = ((signed_wide)own_drift + c->sender_drift) * (a < 0 ? -a : a);
        right += ((signed_wide)get64(saved + 16) + c->half_width) * 1000000;
        count += (left < 0 ? -left : left) * 1000000 > right;
    }
    return count;
}

/* The place of the message's sender, or none. */
static const uint8_t *place_of(const uint8_t *state, const struct call *c)
{
    uint32_t sender = c->len > 0 ? c->message[0] & 31 : 0;
    return sender < NAMES ? state + CLOCKS_AT + CLOCK * sender : NULL;
}

/* ---- epochs */

/* The names in a row's terms, and whether these names contain one of the terms. */
static uint32_t names_of(const uint8_t *row, uint32_t names, int *within)
{
    uint32_t all = 0;
    *within = 0;
    for (uint32_t i = 0; i < get32(row); i++) {
        all |= get32(row + 4 + 4 * i);
        *within |= (get32(row + 4 + 4 * i) & ~names) == 0;
    }
    return all;
}

/* What names that have risen make of the rows. */
static void count_rows(const uint8_t *state, uint32_t risen)
{
    int gone;
    for (uint32_t i = 0; i < get32(state + HELD_AT); i++)
        if ((names_of(state + DATA_AT + DATUM * i + 16, risen, &gone) & risen) != 0)
            heard[gone ? DATUM_GONE : DATUM_LESS]++;
    for (uint32_t i = 0; i < get32(state + KNOWN_AT); i++)
        if ((names_of(state + ENTRIES_AT + ENTRY * i, risen, &gone) & risen) != 0)
            heard[gone ? ENTRY_GONE : ENTRY_LESS]++;
}

/* The names in the terms of a message that is in form, those with the own identifier aside. */
static uint32_t names_left(const struct call *c, uint32_t own)
{
    uint32_t names = 0, count = get32(c->message) >> 5 & 31;
    for (uint32_t i = 0; i < count; i++) {
        uint32_t t = get32(c->message + c->len - 4 - 4 * (count - i)) & PAYLOAD;
        names |= (t >> own & 1) != 0 ? 0 : t;
    }
    return names;
}

/* Counts what a receipt made of the epochs in its message, which is in form. */
static void count_heard(const struct call *c, const uint8_t *state, uint32_t number)
{
    uint32_t own = get32(state), sender = c->message[0] & 31, left = names_left(c, own), risen = 0;
    for (const uint8_t *at = c->message + 4; get32(at) >> 29 == 0; at += 4) {
        uint32_t name = get32(at) & 31, epoch = get32(at) >> 5, known = state[EPOCHS_AT + name];
        risen |= name != own && epoch > known ? 1u << name : 0;
        if (number != 0)
            continue;
        if (name == own)
            heard[OWN_PASSED] += epoch != known;
        else if (epoch > known)
            heard[name == sender ? RISEN_SENDER : (left >> name & 1) != 0 ? RISEN_TERM : RISEN_STRUCK]++;
        else if (epoch < known)
            heard[name == sender ? LATE_SENDER : LATE_TERM]++;
        heard[TRIPLES_GONE] += (risen >> name & 1) != 0 && get32(state + CLOCKS_AT + CLOCK * name) != 0;
        heard[UNHEEDED] += c->kind == WITH_READINGS && name == sender && epoch < known;
    }
    if (number == 0)
        count_rows(state, risen);
    heard[UNDONE] += number == MONITOR_TOO_MANY && risen != 0;
}

/* The epoch of the sender of a message that is in form. */
static uint32_t sender_epoch(const struct call *c)
{
    const uint8_t *at = c->message + 4;
    while ((get32(at) & 31) != (c->message[0] & 31u))
        at += 4;
    return get32(at) >> 5;
}

/* ---- delays */

/* The ageing rule's greatest advance, rounded up. */
static uint64_t greatest_advance(uint64_t passed, uint32_t drift)
{
    return (uint64_t)(((wide)passed * (MILLION + drift) + MILLION - 1) / MILLION);
}

static int has_slept(const struct call *c)
{
    return c->b > AWAKE && c->b <= MONITOR_GREATEST_DELAY;
}

/* Counts a receipt from a radio that has slept. */
static void count_slept(const struct call *c, uint32_t drift, uint32_t number)
{
    uint8_t reading[MONITOR_READING_BYTES];
    if (monitor_message_read(c->message, c->len, reading, sizeof reading) != MONITOR_TAKEN)
        return;
    uint64_t end = get64(reading + 16) + greatest_advance(c->b, drift);
    for (size_t i = 0; i < COUNT(drifts); i++)
        slept_at[i] += number == 0 && drift == drifts[i];
    slept[ALIKE] += number == 0 && c->a == c->b;
    slept[LONGEST] += number == 0 && c->b == MONITOR_GREATEST_DELAY;
    slept[AT_END] += number == 0 && end == MONITOR_GREATEST_END;
    slept[PAST_END] += number == MONITOR_END && end == MONITOR_GREATEST_END + 1;
}

/* ---- fractions */

/* Moves every end in use to the microsecond below, or to the one above. */
static void round_ends(uint8_t *state, int up)
{
    for (uint32_t i = 0; i < get32(state + HELD_AT); i++) {
        uint8_t *datum = state + DATA_AT + DATUM * i;
        wide left = left_of(datum) + (up ? MILLION - 1 : 0), right = right_of(datum) + (up ? MILLION - 1 : 0);
        put_ends(datum, left - left % MILLION, right - right % MILLION);
    }
}

/* What the fractions made of a question's answer: they let the intervals cross, and they round. */
static void count_answer(const struct call *c, const uint8_t *state, const uint8_t *answer)
{
    uint8_t down[MONITOR_STATE_BYTES], up[MONITOR_STATE_BYTES], by_down[MONITOR_ANSWER_BYTES], by_up[MONITOR_ANSWER_BYTES];
    memcpy(down, state, sizeof down);
    memcpy(up, state, sizeof up);
    round_ends(down, 0);
    round_ends(up, 1);
    by_hand(c, down, sizeof down, by_down, sizeof by_down);
    by_hand(c, up, sizeof up, by_up, sizeof by_up);
    if (c->kind == FEWEST) {
        decided[FEWER] += memcmp(answer, by_down, MONITOR_FEWEST_BYTES) != 0;
        return;
    }
    decided[CROSSED] += get64(answer) != get64(by_down);
    decided[RIGHT_UP] += get64(answer) == get64(by_down) && get64(answer + 16) != get64(by_down + 16);
    decided[LEFT_DOWN] += get64(answer) == get64(by_up) && get64(answer + 8) != get64(by_up + 8);
}

/* Which fractions put a state out of form that is in form without them, or are in form with wholes that are equal. */
static void count_form(const uint8_t *state, uint32_t number)
{
    uint8_t whole[MONITOR_STATE_BYTES];
    uint32_t held = get32(state + HELD_AT);
    memcpy(whole, state, sizeof whole);
    for (uint32_t i = 0; i < MOST_DATA; i++)
        put64(whole + DATA_AT + DATUM * i + PARTS_IN, 0);
    if (hand_write(whole, sizeof whole, UINT64_MAX, NULL, 0) != MONITOR_POSITION)
        return;
    for (uint32_t i = 0; i < MOST_DATA; i++) {
        const uint8_t *datum = state + DATA_AT + DATUM * i;
        uint32_t left = get32(datum + PARTS_IN), right = get32(datum + PARTS_IN + 4);
        int same = i < held && get64(datum) == get64(datum + 8);
        decided[FORM_UNUSED] += i >= held && (left | right) > 0;
        decided[FORM_GREAT] += i < held && (left == MILLION || right == MILLION);
        decided[FORM_ORDER] += same && right < left && left < MILLION;
        decided[FORM_END] += i < held && get64(datum + 8) == MONITOR_GREATEST_END && right > 0 && right < MILLION;
        decided[IN_FORM] += number != MONITOR_STATE_FORM && same && left < right;
    }
}

/* What an ageing made of the ends. */
static void count_age(const struct call *c, const uint8_t *state, const uint8_t *after, uint32_t number)
{
    wide gain = (wide)(c->a - get64(state + READING_AT)) * (MILLION + get32(state + 4)), last = 0;
    for (uint32_t i = 0; i < get32(state + HELD_AT); i++) {
        const uint8_t *datum = state + DATA_AT + DATUM * i, *aged = after + DATA_AT + DATUM * i;
        wide right = right_of(datum) + gain;
        last = right > last ? right : last;
        decided[CARRIED] += number == 0 && ((left_of(datum) % MILLION > 0 && left_of(aged) % MILLION == 0) ||
                                            (right_of(datum) % MILLION > 0 && right_of(aged) % MILLION == 0));
    }
    decided[END_PASSED] += number == MONITOR_END && last / MILLION == MONITOR_GREATEST_END;
    decided[END_REACHED] += number == 0 && last == GREATEST_MILLIONTHS;
}

/* Whether each term of a row contains one of another. */
static int implies(const uint8_t *row, const uint8_t *other)
{
    for (uint32_t i = 0; i < get32(row); i++) {
        int contains = 0;
        for (uint32_t j = 0; j < get32(other); j++)
            contains |= (get32(other + 4 + 4 * j) & ~get32(row + 4 + 4 * i)) == 0;
        if (!contains)
            return 0;
    }
    return 1;
}

/* Whether a datum is held as it stands. */
static int is_held(const uint8_t *state, const uint8_t *datum)
{
    int held = 0;
    for (uint32_t i = 0; i < get32(state + HELD_AT); i++)
        held |= memcmp(state + DATA_AT + DATUM * i, datum, DATUM) == 0;
    return held;
}

/* Whether one interval lies in another by the wholes, and yet not. */
static int barely_outside(const uint8_t *inner, const uint8_t *outer)
{
    return get64(outer) <= get64(inner) && get64(inner + 8) <= get64(outer + 8) &&
           (left_of(outer) > left_of(inner) || right_of(inner) > right_of(outer));
}

/* What a new datum, the last of a state, met in rule 14 and, where it has the predicate of a held one, in rule 15. */
static void count_new(const uint8_t *before, const uint8_t *after, wide left, wide right)
{
    const uint8_t *new = after + DATA_AT + DATUM * (get32(after + HELD_AT) - 1);
    if (get32(after + HELD_AT) == 0 || is_held(before, new))
        return;
    for (uint32_t i = 0; i < get32(before + HELD_AT); i++) {
        const uint8_t *old = before + DATA_AT + DATUM * i;
        wide from = left_of(old), to = right_of(old);
        if (memcmp(old + 16, new + 16, PARTS_IN - 16) == 0) {
            decided[NARROWED] += (from > left && from / MILLION == left / MILLION) || (to < right && to / MILLION == right / MILLION);
            continue;
        }
        decided[STORED] += implies(old + 16, new + 16) && barely_outside(old, new);
        decided[KEPT] += implies(new + 16, old + 16) && barely_outside(new, old) && is_held(after, old);
    }
}

/* What the fractions made of a receipt whose message is in form, where no epoch has risen. */
static void count_ends(const struct call *c, const uint8_t *before, const uint8_t *after, uint32_t number)
{
    uint8_t reading[MONITOR_READING_BYTES];
    uint32_t drift = get32(before + 4);
    if (hand_message_read(c->message, c->len, reading, sizeof reading) != 0 || memcmp(before + EPOCHS_AT, after + EPOCHS_AT, NAMES) != 0)
        return;
    wide left = (wide)get64(reading + 8) * MILLION + (wide)c->a * (MILLION - drift);
    wide right = (wide)get64(reading + 16) * MILLION + (wide)c->b * (MILLION + drift);
    decided[END_PASSED] += number == MONITOR_END && right / MILLION == MONITOR_GREATEST_END;
    if (number != 0)
        return;
    decided[END_REACHED] += right == GREATEST_MILLIONTHS;
    int learnt = memcmp(before + ENTRIES_AT, after + ENTRIES_AT, MOST_ENTRIES * ENTRY) != 0;
    for (uint32_t i = 0; i < get32(before + HELD_AT); i++) {
        const uint8_t *old = before + DATA_AT + DATUM * i;
        wide from = left_of(old), to = right_of(old);
        int after_new = from / MILLION == right / MILLION, before_new = to / MILLION == left / MILLION;
        decided[APART] += learnt && ((after_new && from > right) || (before_new && left > to));
        decided[TOUCHING] += !learnt && ((after_new && from < right) || (before_new && left < to));
    }
    count_new(before, after, left, right);
}

static void differ(const struct call *c, uint64_t round, const char *what, uint32_t engine, uint32_t hand)
{
    printf("FAILED: round %llu, %s: %s, engine %u, C %u\n", (unsigned long long)round, kind_names[c->kind], what, engine, hand);
    exit(1);
}

/* What the readings of a taken receipt met. Those under a new epoch are the first of their name; those under an old one meet nothing. */
static void count_met(const struct call *c, const uint8_t *state)
{
    const uint8_t *place = place_of(state, c);
    uint32_t epoch = sender_epoch(c), known = state[EPOCHS_AT + (c->message[0] & 31)];
    if (epoch >= known)
        met[get32(place) == 0 || epoch > known ? FIRST : violations(place, c, get32(state + 4)) > 0 ? VIOLATED : AGREED]++;
}

/* Counts what a receipt met; one that is refused with 32 has a message in form too. */
static void count_receipt(const struct call *c, const uint8_t *state, uint32_t number)
{
    if (number == MONITOR_TAKEN || number == MONITOR_TOO_MANY)
        count_heard(c, state, number);
    if (c->kind == WITH_READINGS && number == MONITOR_TAKEN)
        count_met(c, state);
    if (has_slept(c))
        count_slept(c, get32(state + 4), number);
}

/* Counts what the fractions decided in a call that both programs answered alike. */
static void count_decided(const struct call *c, const uint8_t *state, const uint8_t *after, const uint8_t *out, uint32_t number)
{
    if (number != MONITOR_BUFFER && c->kind != SET_UP && c->kind != READ && c->kind != REWRITE)
        count_form(state, number);
    if ((c->kind == ASK || c->kind == FEWEST) && number == 0)
        count_answer(c, state, out);
    if (c->kind == AGE && (number == 0 || number == MONITOR_END))
        count_age(c, state, after, number);
    if ((c->kind == RECEIVE || c->kind == WITH_READINGS) && (number == 0 || number == MONITOR_END))
        count_ends(c, state, after, number);
}

/* Ages to a reading on the way first: the same bytes. */
static void age_in_pieces(struct source *r, uint64_t round, const struct call *c, const uint8_t *before, const uint8_t *after)
{
    uint8_t state[MONITOR_STATE_BYTES];
    uint64_t last = get64(before + READING_AT), middle = last + below(r, c->a - last + 1);
    memcpy(state, before, sizeof state);
    uint32_t first = monitor_age(state, sizeof state, middle), second = monitor_age(state, sizeof state, c->a);
    if (first != 0 || second != 0 || memcmp(state, after, sizeof state) != 0)
        differ(c, round, "two pieces and one", first, second);
    decided[PIECES] += last < middle && middle < c->a && get32(state + HELD_AT) > 0;
}

/* Runs a call in both programs, and compares. A refused call has changed nothing. */
static uint32_t compare(uint64_t round, const struct call *c, struct lent *state, struct lent *out)
{
    uint32_t engine = by_engine(c, state->engine + state->at, state->len, out->engine + out->at, out->len);
    uint32_t hand = by_hand(c, state->hand + state->at, state->len, out->hand + out->at, out->len);
    if (engine != hand)
        differ(c, round, "numbers", engine, hand);
    for (size_t i = 0; i < BUFFER; i++) {
        if (state->engine[i] != state->hand[i])
            differ(c, round, "bytes of the state", state->engine[i], state->hand[i]);
        if (out->engine[i] != out->hand[i])
            differ(c, round, "bytes of the output", out->engine[i], out->hand[i]);
    }
    if (hand != 0 && (memcmp(state->before, state->hand, BUFFER) != 0 || memcmp(out->before, out->hand, BUFFER) != 0))
        differ(c, round, "a refused call has changed bytes", engine, hand);
    seen[c->kind][hand < 63 ? hand : 63]++;
    if (c->kind == ASK && hand == 0)
        answers[out->hand[out->at] % 3]++;
    if (c->kind == FEWEST && hand == 0)
        counts[out->hand[out->at] % 6]++;
    if (c->kind == RECEIVE || c->kind == WITH_READINGS)
        count_receipt(c, state->before + state->at, hand);
    count_decided(c, state->before + state->at, state->hand + state->at, out->hand + out->at, hand);
    return hand;
}

/* Lends a state and an output to a call, seldom too few bytes of them, and keeps what it makes of the state. */
static uint32_t run(struct source *r, uint64_t round, const struct call *c, uint8_t *state)
{
    static struct lent lent, out;
    uint8_t filler[MONITOR_MESSAGE_BYTES] = {0};
    static const size_t wants[KINDS] = {
        [WRITE] = MONITOR_MESSAGE_BYTES,   [ASK] = MONITOR_ANSWER_BYTES,       [FEWEST] = MONITOR_FEWEST_BYTES,
        [READ] = MONITOR_READING_BYTES,    [REWRITE] = MONITOR_MESSAGE_BYTES,
    };
    size_t wanted = wants[c->kind];
    size_t len = once_in(r, 40) ? MONITOR_STATE_BYTES - 1 - below(r, PICK(r, 1, 4, 5000)) : MONITOR_STATE_BYTES + below(r, 9);
    lend(r, &lent, state, MONITOR_STATE_BYTES, len);
    lend(r, &out, filler, sizeof filler, wanted > 0 && once_in(r, 10) ? below(r, wanted) : wanted);
    uint32_t number = compare(round, c, &lent, &out);
    if (c->kind == AGE && number == 0)
        age_in_pieces(r, round, c, state, lent.hand + lent.at);
    memcpy(state, lent.hand + lent.at, MONITOR_STATE_BYTES);
    return number;
}

/* ---- what the calls are drawn from */

/* Names below a number, and intervals that meet, contradict and better each other often; in places far from each other, if there are some. */
struct world {
    uint32_t own, drift, names;
    uint64_t reading, base, span, places;
    int crowded;
};

static struct world small_world(struct source *r)
{
    uint32_t names = (uint32_t)PICK(r, 3, 3, 4, 4, 5, 6, 9, NAMES);
    uint64_t span = PICK(r, 6, 12, 12, 30, 1000);
    return (struct world){
        .own = (uint32_t)below(r, names),
        .drift = (uint32_t)PICK(r, 0, 1, 100, below(r, 1001), 999, MONITOR_GREATEST_DRIFT),
        .names = names,
        .reading = PICK(r, 0, 5, 1000000, MONITOR_GREATEST_READING - 3 * span),
        .base = PICK(r, 0, 0, 0, 1 << 29, MONITOR_GREATEST_END - 3 * span),
        .span = span,
    };
}

static struct world crowded_world(struct source *r)
{
    return (struct world){
        .own = (uint32_t)below(r, NAMES),
        .drift = (uint32_t)PICK(r, 0, 1, 100, 999, MONITOR_GREATEST_DRIFT),
        .names = (uint32_t)PICK(r, 12, 20, NAMES),
        .reading = below(r, 1000000),
        .base = PICK(r, 0, 1 << 29, UINT64_C(1) << 40),
        .span = 1000,
        .places = PICK(r, 2, 3, 8, 9, 10),
        .crowded = 1,
    };
}

/* One to three names, now and then any of them. */
static uint32_t any_term(struct source *r, uint32_t names)
{
    uint32_t t = 0;
    if (once_in(r, 12))
        return (uint32_t)below(r, UINT64_C(1) << names);
    for (uint64_t size = PICK(r, 1, 1, 2, 2, 3); size > 0; size--)
        t |= 1u << below(r, names);
    return t;
}

/* A normal form of at most so many terms, none of them empty or with a name of these. */
static unsigned any_terms(struct source *r, uint32_t names, uint32_t without, unsigned most, uint32_t *terms)
{
    unsigned count = (unsigned)PICK(r, 0, 1, 2, below(r, most), most, 2 * most), kept = 0;
    for (unsigned i = 0; i < count; i++) {
        uint32_t t = any_term(r, names) & ~without;
        terms[kept] = t;
        kept += t != 0;
    }
    kept = normal(terms, kept);
    for (; kept > most; kept--)
        terms[below(r, kept)] = terms[kept - 1];
    return normal(terms, kept);
}

/* Ends near those of a held datum. */
static void near_ends(struct source *r, const uint8_t *state, uint64_t *left, uint64_t *right)
{
    const uint8_t *datum = state + DATA_AT + DATUM * below(r, get32(state + HELD_AT));
    uint64_t low = PICK(r, 0, 0, 1, 2), high = PICK(r, 0, 0, 1, 2), from = get64(datum), to = get64(datum + 8);
    switch (below(r, 4)) {
    case 0:
        *left = from > low ? from - low : 0;
        *right = to + high;
        break;
    case 1:
        *left = from + low;
        *right = to > high ? to - high : 0;
        break;
    case 2:
        *left = to + low;
        *right = to + low + high;
        break;
    default:
        *left = from > low + high ? from - low - high : 0;
        *right = from > low ? from - low : 0;
    }
}

static void any_ends(struct source *r, const struct world *w, const uint8_t *state, uint64_t *left, uint64_t *right)
{
    uint64_t reading = get64(state + READING_AT), from = w->base + (reading > w->reading ? reading - w->reading : 0);
    uint32_t held = get32(state + HELD_AT);
    if (held > 0 && held <= MOST_DATA && once_in(r, 4)) {
        near_ends(r, state, left, right);
    } else if (w->crowded) {
        uint64_t place = below(r, w->places);
        *left = from + 100 * place + below(r, 20);
        *right = *left + PICK(r, 40, 50, below(r, 60), 100 * below(r, w->places), 5000);
    } else {
        *left = from + below(r, w->span);
        *right = *left + below(r, PICK(r, 1, 4, w->span));
    }
    if (*right > MONITOR_GREATEST_END)
        *right = MONITOR_GREATEST_END;
    if (*left > *right)
        *left = *right;
}

/* As it was sent, if there is room below: once it has grown its right end is there, or one past it. */
static void send_earlier(struct source *r, uint64_t delay, uint32_t drift, uint64_t *left, uint64_t *right)
{
    uint64_t gained = greatest_advance(delay, drift) - (uint64_t)once_in(r, 3);
    if (*right < gained)
        return;
    *left = *left > gained ? *left - gained : 0;
    *right -= gained;
}

/* One damage to the epoch words: one lost, one too many, one with a further bit or of another identifier. */
static void damage_epochs(struct source *r, struct message *m)
{
    unsigned count = 0;
    while (count + 1 < m->count && m->words[count + 1] >> 29 == 0)
        count++;
    unsigned at = 1 + (unsigned)below(r, count + 1);
    uint32_t *word = m->words + at;
    switch (below(r, 4)) {
    case 0:
        memmove(word, word + 1, 4 * (m->count - at));
        m->count -= m->count > 1;
        break;
    case 1:
        memmove(word + 1, word, 4 * (m->count - at));
        *word = (uint32_t)below(r, 512);
        m->count++;
        break;
    case 2:
        *word |= 1u << (9 + below(r, 20));
        break;
    default:
        *word = (*word & ~31u) | (uint32_t)PICK(r, below(r, 32), 29, 31);
    }
    correct(m);
}

/* One damage to the words: a bit, a kind, a payload, one lost, doubled or moved, or the length. */
static void damage_words(struct source *r, struct message *m)
{
    unsigned one = (unsigned)below(r, m->count), other = (unsigned)below(r, m->count);
    uint32_t word = m->words[one];
    switch (below(r, 8)) {
    case 0:
        m->words[one] ^= 1u << below(r, 32);
        break;
    case 1:
        m->words[one] = (uint32_t)below(r, 8) << 29 | (word & PAYLOAD);
        break;
    case 2:
        m->words[one] = (word & ~PAYLOAD) | (bits(r) & PAYLOAD);
        break;
    case 3:
        m->words[one] = m->words[other];
        m->words[other] = word;
        break;
    case 4:
        m->count = (unsigned)below(r, PICK(r, 22, 46));
        break;
    case 5:
        m->words[0] = (word & ~1023u) | (uint32_t)below(r, 1024);
        break;
    case 6:
        damage_epochs(r, m);
        return;
    default:
        memmove(m->words + one + 1, m->words + one, 4 * (m->count - one));
        m->count++;
    }
    if (m->count > 0 && !once_in(r, 4))
        correct(m);
}

/* Epochs as they are known, or some above them or below. */
static void any_epochs(struct source *r, const uint8_t *state, uint8_t epochs[NAMES])
{
    uint64_t times = PICK(r, 0, 0, 6, 30);
    for (unsigned i = 0; i < NAMES; i++) {
        uint32_t known = state[EPOCHS_AT + i] % (MONITOR_GREATEST_EPOCH + 1);
        epochs[i] = (uint8_t)known;
        if (times > 0 && once_in(r, times))
            epochs[i] = (uint8_t)(once_in(r, 2) ? known + (known < MONITOR_GREATEST_EPOCH)
                                                : PICK(r, known > 0 ? known - 1 : 0, 0, once_in(r, 8) ? below(r, 16) : known));
    }
}

/* Terms that are not in normal form any more, where there are some to change. */
static void disorder(struct source *r, uint32_t *terms, unsigned count)
{
    unsigned one = (unsigned)below(r, count), other = (unsigned)below(r, count);
    uint32_t t = terms[one];
    terms[one] = terms[other];
    terms[other] = once_in(r, 2) ? t : t | terms[one];
}

/* A message of this world, damaged now and then, in bytes that are seldom not a multiple of 4. */
static void any_message(struct source *r, const struct world *w, const uint8_t *state, struct call *c)
{
    uint32_t terms[2 * ENTRY_TERMS] = {0}, sender = (uint32_t)below(r, w->names), held = get32(state + HELD_AT);
    uint64_t left, right;
    uint8_t epochs[NAMES];
    unsigned count = any_terms(r, w->names, 0, DATUM_TERMS, terms);
    if (sender == get32(state) && !once_in(r, 6))
        sender = (sender + 1) % w->names;
    if (held > 0 && held <= MOST_DATA && once_in(r, 8)) {
        /* the predicate of a held datum: the sender goes into a term of its own */
        const uint8_t *row = state + DATA_AT + DATUM * below(r, held) + 16;
        count = get32(row) % (DATUM_TERMS + 1);
        memcpy(terms, row + 4, 4 * count);
        for (unsigned i = 0; i < count; i++)
            if (terms[i] != 0 && terms[i] < 1u << NAMES && (terms[i] & (terms[i] - 1)) == 0)
                sender = (uint32_t)__builtin_ctz(terms[i]);
    }
    if (once_in(r, 30)) {
        terms[0] = 0;
        count = (unsigned)below(r, 3);
    }
    any_ends(r, w, state, &left, &right);
    if (has_slept(c) && !once_in(r, 4))
        send_earlier(r, c->b, get32(state + 4) % 1001, &left, &right);
    if (count > 1 && once_in(r, 30))
        disorder(r, terms, count);
    any_epochs(r, state, epochs);
    struct message m = message_of(sender, epochs, left, right, terms, count, once_in(r, 2));
    for (uint64_t damages = PICK(r, 0, 0, 0, 0, 0, 0, 0, 0, 1, 2); damages > 0 && m.count > 0; damages--)
        damage_words(r, &m);
    c->len = 4 * m.count;
    memcpy(c->message, m.words, c->len);
    if (c->len > 3 && once_in(r, 60))
        c->len -= 1 + below(r, 3);
}

/* A half width, mostly small. */
static uint64_t any_width(struct source *r)
{
    return once_in(r, 40) ? PICK(r, below(r, MONITOR_GREATEST_CLOCK), MONITOR_GREATEST_CLOCK) : PICK(r, 0, 0, 1, 2, 3, 8, 20);
}

static uint64_t sum(uint64_t x, uint64_t y)
{
    return x + y < MONITOR_GREATEST_CLOCK ? x + y : MONITOR_GREATEST_CLOCK;
}

static uint64_t difference(uint64_t x, uint64_t y)
{
    return x > y ? x - y : 0;
}

/* Readings some time after one of the three saved ones, seldom before it, and off by about what is allowed. */
static void near_readings(struct source *r, const uint8_t *place, uint32_t own_drift, struct call *c)
{
    const uint8_t *saved = place + 4 + 24 * below(r, 3);
    uint64_t a = get64(saved), b = get64(saved + 8), w = get64(saved + 16) % 41, passed = PICK(r, 0, below(r, 12), below(r, 12), 5000, 40000000);
    c->half_width = any_width(r);
    uint64_t allowed = (own_drift + c->sender_drift) * passed / 1000000 + w + c->half_width % 41;
    uint64_t off = PICK(r, 0, below(r, allowed + 1), allowed, allowed, allowed + 1);
    c->sender_reading = once_in(r, 8) ? difference(a, passed) : sum(a, passed);
    c->own_reading = once_in(r, 8) ? difference(b, passed) : sum(b, passed);
    c->own_reading = once_in(r, 2) ? sum(c->own_reading, off) : difference(c->own_reading, off);
}

/* Readings of the message's sender: they agree mostly with what is saved, or violate the test with one triple alone; flawed now and then. */
static void any_readings(struct source *r, const uint8_t *state, struct call *c)
{
    const uint8_t *place = place_of(state, c);
    int wanted = (int)PICK(r, 0, 0, 0, 0, 0, 1, 3);
    uint32_t own_drift = get32(state + 4) % 1001;
    c->sender_drift = (uint32_t)PICK(r, 0, 0, 1, 100, below(r, 1001), MONITOR_GREATEST_DRIFT);
    c->sender_reading = PICK(r, below(r, 60), below(r, 60), below(r, MONITOR_GREATEST_CLOCK), MONITOR_GREATEST_CLOCK);
    c->own_reading = PICK(r, c->sender_reading, below(r, 60), below(r, MONITOR_GREATEST_CLOCK), MONITOR_GREATEST_CLOCK);
    c->half_width = any_width(r);
    if (place != NULL && get32(place) == 1)
        for (int tries = 0; tries < 8 && (tries == 0 || (wanted < 3 && violations(place, c, own_drift) != wanted)); tries++)
            near_readings(r, place, own_drift, c);
    if (!once_in(r, 16))
        return;
    uint64_t past = PICK(r, MONITOR_GREATEST_CLOCK + 1, MONITOR_GREATEST_CLOCK + 1, UINT64_C(1) << 63, bits(r));
    switch (below(r, 4)) {
    case 0:
        c->sender_reading = past;
        break;
    case 1:
        c->own_reading = past;
        break;
    case 2:
        c->half_width = past;
        break;
    default:
        c->sender_drift = (uint32_t)PICK(r, 1001, 65536, UINT32_MAX, bits(r));
    }
}

/* The delays, mostly small; those of a radio that has slept and flawed ones now and then. */
static void any_delays(struct source *r, uint64_t most, struct call *c)
{
    c->a = PICK(r, 0, 0, below(r, most));
    c->b = c->a + below(r, most);
    if (once_in(r, 20)) {
        c->b = PICK(r, AWAKE + 1, AWAKE + 1 + below(r, MONITOR_GREATEST_DELAY - AWAKE), MONITOR_GREATEST_DELAY);
        c->a = PICK(r, c->b, c->b - below(r, most), c->b - c->b % 1000000, below(r, c->b), 0);
    }
    if (once_in(r, 30)) {
        c->a = PICK(r, c->b, c->b + 1, bits(r));
        c->b = PICK(r, c->b, MONITOR_GREATEST_DELAY, MONITOR_GREATEST_DELAY + 1, UINT64_MAX);
    }
}

/* How long the greatest right end can gain by the drift, or 1 longer. */
static uint64_t up_to_end(struct source *r, const uint8_t *state)
{
    wide last = 0;
    for (uint32_t i = 0; i < get32(state + HELD_AT) % (MOST_DATA + 1); i++) {
        wide right = right_of(state + DATA_AT + DATUM * i);
        last = right > last ? right : last;
    }
    return last > GREATEST_MILLIONTHS ? 0 : (uint64_t)((GREATEST_MILLIONTHS - last) / (MILLION + get32(state + 4))) + below(r, 2);
}

/* A reading to age to, mostly a little later. */
static uint64_t any_reading(struct source *r, const struct world *w, const uint8_t *state)
{
    uint64_t reading = get64(state + READING_AT);
    if (once_in(r, 8))
        return PICK(r, reading, reading + 1, reading + below(r, w->span), reading + below(r, 3000000), reading - 1,
                    reading + below(r, UINT64_C(1) << 50), MONITOR_GREATEST_READING, MONITOR_GREATEST_READING + 1, bits(r));
    return reading + (once_in(r, 16) ? up_to_end(r, state) : below(r, w->span));
}

static struct call any_call(struct source *r, const struct world *w, const uint8_t *state)
{
    struct call c = {.kind = (enum kind)PICK(r, RECEIVE, RECEIVE, RECEIVE, WITH_READINGS, WITH_READINGS, WITH_READINGS, AGE, WRITE, ASK, ASK, FEWEST,
                                             READ, REWRITE)};
    switch (c.kind) {
    case RECEIVE:
    case WITH_READINGS:
        any_delays(r, w->span / 6 + 1, &c);
        any_message(r, w, state, &c);
        any_readings(r, state, &c);
        break;
    case READ:
    case REWRITE:
        any_message(r, w, state, &c);
        break;
    case AGE:
        c.a = any_reading(r, w, state);
        break;
    case WRITE:
        c.a = PICK(r, below(r, MOST_DATA + 1), below(r, 4), 0, UINT64_C(1) << 32, UINT64_MAX);
        break;
    default:
        c.a = PICK(r, 0, 1, 2, 2, 3, 3, 4, 4, 4, 5, UINT64_C(1) << 32, bits(r));
    }
    return c;
}

static struct call any_set_up(struct source *r)
{
    return (struct call){
        .kind = SET_UP,
        .own = (uint32_t)PICK(r, 0, 2, 28, 28, 29, 256, bits(r)),
        .drift = (uint32_t)PICK(r, 0, 1, 1000, 1000, 1001, 65536, bits(r)),
        .a = PICK(r, 0, 9, MONITOR_GREATEST_READING, MONITOR_GREATEST_READING + 1, UINT64_MAX),
        .epoch = PICK(r, 0, 1, 15, 15, 16, UINT64_C(1) << 32, bits(r)),
    };
}

/* ---- states */

static void put_terms(struct source *r, uint8_t *row, uint32_t names, uint32_t own, unsigned most)
{
    uint32_t terms[2 * ENTRY_TERMS];
    unsigned count = any_terms(r, names, 1u << own, most, terms);
    if (count == 0)
        terms[count++] = 1u << (own + 1 + below(r, NAMES - 1)) % NAMES;
    put32(row, count);
    memcpy(row + 4, terms, 4 * count);
}

/* One more name that makes every entry true, so that few failures often explain all; it is left out where it is the highest of 17 terms. */
static void add_suspect(uint8_t *state, uint32_t name)
{
    for (uint32_t i = 0; i < get32(state + KNOWN_AT); i++) {
        uint8_t *row = state + ENTRIES_AT + ENTRY * i;
        uint32_t terms[ENTRY_TERMS + 1], count = get32(row);
        memcpy(terms, row + 4, 4 * count);
        terms[count] = name;
        count = normal(terms, count + 1);
        memset(row, 0, ENTRY);
        put32(row, count > ENTRY_TERMS ? ENTRY_TERMS : count);
        memcpy(row + 4, terms, 4 * get32(row));
    }
}

/* What may be saved of the senders' clocks, in no order: of no name, of few or of all. */
static void put_clocks(struct source *r, uint8_t *state)
{
    uint64_t times = PICK(r, 0, 0, 1, 4);
    for (uint8_t *place = state + CLOCKS_AT; times > 0 && place < state + EPOCHS_AT; place += CLOCK) {
        if (!once_in(r, times))
            continue;
        put32(place, 1);
        for (int i = 0; i < 9; i++)
            put64(place + 4 + 8 * i, PICK(r, 0, below(r, 60), below(r, 60), below(r, MONITOR_GREATEST_CLOCK), MONITOR_GREATEST_CLOCK));
    }
}

/* Epochs of no name, of few or of all. */
static void put_epochs(struct source *r, uint8_t *state)
{
    uint64_t times = PICK(r, 0, 1, 4);
    for (unsigned i = 0; i < NAMES; i++)
        state[EPOCHS_AT + i] = (uint8_t)(times > 0 && once_in(r, times) ? PICK(r, 1, below(r, 16), MONITOR_GREATEST_EPOCH) : 0);
}

/* An end near the base. Its millionths are often those of another, or such that a short ageing carries to a whole. */
static wide any_end(struct source *r, uint64_t base, uint64_t span, uint64_t drift, uint64_t often)
{
    uint64_t part = PICK(r, 0, often, often, 1, MILLION - 1, below(r, MILLION), drift * below(r, 4), (MILLION - drift * below(r, 4)) % MILLION);
    wide end = (wide)(base + below(r, span)) * MILLION + part;
    return end < GREATEST_MILLIONTHS ? end : GREATEST_MILLIONTHS;
}

/* Any held data; in a quarter of the states the wholes of all ends are equal or nearly so, now and then they are at two places far from each other,
 * or the only right end is left just what some microseconds gain by the drift. */
static void put_data(struct source *r, uint8_t *state, uint32_t held, uint32_t names)
{
    uint64_t often = below(r, MILLION), span = PICK(r, 10, 40, 1000, MONITOR_GREATEST_END), bases[3] = {0, 0, 0}, drift = get32(state + 4);
    if (once_in(r, 4))
        span = PICK(r, 1, 1, 2);
    if (span < 1001)
        bases[0] = bases[1] = bases[2] = PICK(r, 0, 1 << 29, MONITOR_GREATEST_END - span + 1);
    if (span < 1001 && once_in(r, 8))
        bases[2] = MONITOR_GREATEST_END - span + 1;
    for (uint32_t i = 0; i < held; i++) {
        uint8_t *datum = state + DATA_AT + DATUM * i;
        wide one = any_end(r, bases[below(r, 3)], span, drift, often), other = any_end(r, bases[below(r, 3)], span, drift, often);
        put_ends(datum, one < other ? one : other, one < other ? other : one);
        put_terms(r, datum + 16, names, get32(state), DATUM_TERMS);
    }
    if (held == 1 && once_in(r, 4))
        put_ends(state + DATA_AT, 0, GREATEST_MILLIONTHS - (1 + below(r, 9)) * (MILLION + drift));
}

/* Any state in form: runs reach few of them. */
static void any_state(struct source *r, uint8_t *state)
{
    uint32_t own = (uint32_t)below(r, NAMES), names = (uint32_t)PICK(r, 3, 4, 5, 8, 12, NAMES);
    uint32_t held = (uint32_t)PICK(r, 0, 1, 3, below(r, 17), 15, 16), known = (uint32_t)PICK(r, 0, 0, 1, 3, below(r, 33), 31, 32);
    memset(state, 0, MONITOR_STATE_BYTES);
    put32(state, own);
    put32(state + 4, (uint32_t)PICK(r, 0, 1, 100, below(r, 1001), 999, 1000));
    put64(state + READING_AT, PICK(r, 0, 7, below(r, MONITOR_GREATEST_READING), MONITOR_GREATEST_READING - 5, MONITOR_GREATEST_READING));
    put32(state + HELD_AT, held);
    put32(state + KNOWN_AT, known);
    put_data(r, state, held, names);
    for (uint32_t i = 0; i < known; i++)
        put_terms(r, state + ENTRIES_AT + ENTRY * i, names, own, ENTRY_TERMS);
    if (once_in(r, 2))
        add_suspect(state, 1u << (own + 1 + below(r, NAMES - 1)) % NAMES);
    put_clocks(r, state);
    put_epochs(r, state);
}

/* One damage to an end, mostly of a datum in use: its millionths, or another whole beside them. */
static void damage_end(struct source *r, uint8_t *state)
{
    uint8_t *datum = state + DATA_AT + DATUM * (once_in(r, 4) ? below(r, MOST_DATA) : below(r, 1 + get32(state + HELD_AT) % MOST_DATA));
    uint8_t *part = datum + PARTS_IN + 4 * below(r, 2);
    switch (below(r, 4)) {
    case 0:
        put64(datum + 8, MONITOR_GREATEST_END);
        break;
    case 1:
        put64(datum, get64(datum + 8));
        break;
    default:
        put32(part, (uint32_t)PICK(r, 0, 1, MILLION - 1, MILLION, MILLION, below(r, MILLION), 1u << 31, UINT32_MAX));
    }
}

/* One damage, in the head, in a row in use, in the places of the clocks, in the epochs or anywhere; the state may stay in form. */
static void damage_state(struct source *r, uint8_t *state)
{
    size_t data = DATUM * (1 + get32(state + HELD_AT) % MOST_DATA), entries = ENTRY * (1 + get32(state + KNOWN_AT) % MOST_ENTRIES);
    size_t clocks = CLOCKS_AT + PICK(r, below(r, CLOCK * NAMES), CLOCK * below(r, NAMES), CLOCK * below(r, NAMES) + 4 * (2 + 2 * below(r, 9)));
    size_t at = PICK(r, below(r, DATA_AT), DATA_AT + below(r, data), ENTRIES_AT + below(r, entries), clocks, EPOCHS_AT + below(r, NAMES),
                     below(r, MONITOR_STATE_BYTES));
    size_t last = MONITOR_STATE_BYTES - 4, word = at / 4 * 4 < last ? at / 4 * 4 : last, from = below(r, MONITOR_STATE_BYTES / 4) * 4;
    uint32_t x = get32(state + word);
    switch (below(r, 8)) {
    case 0:
        state[at] ^= (uint8_t)(1u << below(r, 8));
        break;
    case 1:
        put32(state + word, x + (uint32_t)PICK(r, 1, UINT32_MAX));
        break;
    case 2:
        put32(state + word, (uint32_t)PICK(r, 0, 1, below(r, 34), 2047, 2048, 1u << 28, 1u << 29, UINT32_MAX));
        break;
    case 3:
        put32(state + word, x ^ 1u << below(r, NAMES));
        break;
    case 4:
        put32(state + word, get32(state + from));
        break;
    case 5:
        state[at] = (uint8_t)PICK(r, 1, 15, 16, 17, 255);
        break;
    case 6:
        damage_end(r, state);
        break;
    default:
        put32(state + (word + 4 < last ? word + 4 : word), x);
    }
}

/* ---- rounds */

/* A run after a set up, with ageings, questions and refusals in between. */
static void long_run(struct source *r, uint64_t round)
{
    uint8_t state[MONITOR_STATE_BYTES], damaged[MONITOR_STATE_BYTES];
    struct world w = once_in(r, 2) ? crowded_world(r) : small_world(r);
    struct call first = {.kind = SET_UP, .own = w.own, .drift = w.drift, .a = w.reading, .epoch = below(r, 16)}, other = any_set_up(r);
    memset(state, 7, sizeof state);
    run(r, round, &other, state);
    while (run(r, round, &first, state) != 0)
        ;
    for (uint64_t steps = PICK(r, 10, 30, 60, 120); steps > 0; steps--) {
        struct call c = any_call(r, &w, state);
        run(r, round, &c, state);
        if (once_in(r, 6)) {
            memcpy(damaged, state, sizeof state);
            damage_state(r, damaged);
            c = any_call(r, &w, damaged);
            run(r, round, &c, damaged);
        }
    }
}

/* A few calls in a state in form that no run reaches, and in damaged copies of it. */
static void any_state_round(struct source *r, uint64_t round)
{
    uint8_t state[MONITOR_STATE_BYTES], copy[MONITOR_STATE_BYTES];
    any_state(r, state);
    struct world w = small_world(r);
    w.own = get32(state);
    w.reading = get64(state + READING_AT);
    if (get32(state + HELD_AT) > 0)
        w.base = get64(state + DATA_AT);
    for (int i = 0; i < 10; i++) {
        memcpy(copy, state, sizeof copy);
        for (uint64_t damages = PICK(r, 0, 0, 1, 2); damages > 0; damages--)
            damage_state(r, copy);
        struct call c = any_call(r, &w, copy);
        run(r, round, &c, copy);
    }
}

/* The numbers that each call returned, and whether one was missing; adds how many calls there were. */
static int report_numbers(unsigned long *all)
{
    int missing = 0;
    for (int k = 0; k < KINDS; k++) {
        printf("%-21s", kind_names[k]);
        for (unsigned n = 0; n < 64; n++) {
            *all += seen[k][n];
            if (seen[k][n] > 0)
                printf(" %u: %lu,", n, seen[k][n]);
        }
        printf("\n");
        for (unsigned i = 0; i < COUNT(expected[k]) && (i == 0 || expected[k][i] > 0); i++)
            if (seen[k][expected[k][i]] == 0) {
                printf("FAILED: %s never returned %u\n", kind_names[k], expected[k][i]);
                missing = 1;
            }
    }
    return missing;
}

static int report(void)
{
    unsigned long all = 0;
    int missing = report_numbers(&all);
    printf("answers: contradicted %lu, open %lu, between %lu\n", answers[0], answers[1], answers[2]);
    printf("fewest: 0 %lu, 1 %lu, 2 %lu, 3 %lu, 4 %lu, over %lu\n", counts[0], counts[1], counts[2], counts[3], counts[4], counts[5]);
    printf("readings: first %lu, agreed %lu, violated %lu\n", met[FIRST], met[AGREED], met[VIOLATED]);
    printf("epochs:");
    for (int i = 0; i < HEARDS; i++)
        printf("%s %s %lu", i > 0 ? "," : "", heard_names[i], heard[i]);
    printf("\nafter a sleep: at drift");
    for (size_t i = 0; i < COUNT(drifts); i++)
        printf(" %u %lu,", drifts[i], slept_at[i]);
    printf(" delays alike %lu, the greatest %lu, up to the greatest end %lu, 30 at one past it %lu\n", slept[ALIKE], slept[LONGEST],
           slept[AT_END], slept[PAST_END]);
    printf("by fractions alone:");
    for (int i = 0; i < DECIDED; i++) {
        printf("%s %s %lu", i > 0 ? "," : "", decided_names[i], decided[i]);
        missing |= decided[i] == 0;
    }
    printf("\n");
    for (int i = 0; i < 6; i++)
        missing |= (i < 3 && answers[i] == 0) || counts[i] == 0 || (i < METS && met[i] == 0);
    for (int i = 0; i < HEARDS; i++)
        missing |= heard[i] == 0;
    for (size_t i = 0; i < COUNT(drifts); i++)
        missing |= slept_at[i] == 0 || (i < SLEPTS && slept[i] == 0);
    printf("%lu calls compared, %s\n", all, missing ? "but not all that was to be seen was" : "no difference");
    return missing;
}

int main(int argc, char **argv)
{
    unsigned long rounds = argc > 1 ? strtoul(argv[1], NULL, 10) : ROUNDS;
    for (uint64_t round = 0; round < rounds; round++) {
        struct source r = {round};
        if (once_in(&r, 2))
            long_run(&r, round);
        else
            any_state_round(&r, round);
    }
    return report();
}
