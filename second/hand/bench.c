/* How long each call takes, by the engine and by hand.c: a table in Markdown. `bench` is the full measure, `bench N` one of N rounds.
 *
 * The states are those of second/src/samples/loads.rs, from the same random numbers, and states whose terms are all single names; each with
 * nothing saved of any sender's clock, and with triples saved of all 28. A receipt with a rise is of the same message under the sender's next epoch,
 * in a copy of the state, and so is the one that it is held against. Engine and C run in turn in batches of about 20 microseconds; the
 * numbers are medians for one call. */
#define _POSIX_C_SOURCE 199309L
#include <stdio.h>
#include <stdlib.h>
#include <time.h>

#include "hand.h"
#include "samples.h"

#define STATES 8
#define BATCH_NS 20000.0
#define MOST_ROUNDS 100001

/* ---- states */

/* How full a state is to be, how many terms a message has at most, how many senders are far off, and whether terms are single names. */
struct filling {
    const char *name;
    unsigned data, entries, terms, astray, single;
};

static const struct filling fillings[] = {
    {"quiet", 3, 0, 1, 0, 0},
    {"usual", 8, 4, 2, 1, 0},
    {"full", MOST_DATA, MOST_ENTRIES, 7, 3, 0},
    {"full, single names", MOST_DATA, MOST_ENTRIES, 7, 3, 1},
};

/* What a call is lent: a state, and a message that it has just received, so that receiving it again changes nothing. The same message with the
 * sender mended changes a copy of the state. */
struct load {
    uint8_t state[MONITOR_STATE_BYTES], message[MONITOR_MESSAGE_BYTES], out[MONITOR_MESSAGE_BYTES];
    uint8_t copy[MONITOR_STATE_BYTES], mended[MONITOR_MESSAGE_BYTES];
    size_t len;
    uint64_t reading;
};

#define OWN 5u
#define INSTANT UINT64_C(1000000000000)

/* Any name but the own one. */
static uint32_t other(struct source *r)
{
    return (uint32_t)(OWN + 1 + below(r, NAMES - 1)) % NAMES;
}

static uint32_t term(struct source *r, const struct filling *f)
{
    static const unsigned sizes[] = {1, 2, 2, 3};
    unsigned size = f->single ? 1 : sizes[below(r, 4)];
    uint32_t t = 0;
    while (size-- > 0)
        t |= 1u << other(r);
    return t;
}

static void lend(const struct message *m, struct load *load)
{
    load->len = 4 * m->count;
    memcpy(load->message, m->words, load->len);
}

/* A message of one term, which has these names and name 1, the sender. */
static void of_names(uint32_t names, struct load loads[STATES])
{
    static const uint8_t epochs[NAMES];
    uint32_t term = names | 1u << 1;
    struct message m = message_of(1, epochs, INSTANT, INSTANT + 500, &term, 1, 0);
    for (unsigned i = 0; i < STATES; i++)
        lend(&m, &loads[i]);
}

/* A message, and whether its sender is far off. */
static int message(struct source *r, const struct filling *f, struct load *load)
{
    static const uint8_t epochs[NAMES];
    uint32_t sender = other(r), terms[DATUM_TERMS];
    int astray = (sender + NAMES - OWN - 1) % NAMES < f->astray;
    uint64_t centre = INSTANT + (astray ? UINT64_C(1000000) * (sender + 1) : 0);
    centre += below(r, 100);
    uint64_t low = 100 + below(r, 1000), high = 100 + below(r, 1000);
    unsigned count = (unsigned)below(r, f->terms + 1);
    for (unsigned i = 0; i < count; i++)
        terms[i] = term(r, f);
    struct message m = message_of(sender, epochs, centre - low, centre + high, terms, normal(terms, count), 0);
    lend(&m, load);
    for (unsigned i = 1; m.words[i] >> 29 == 0; i++)
        m.words[i] += m.words[i] == sender ? 1 << 5 : 0;
    correct(&m);
    memcpy(load->mended, m.words, load->len);
    return astray;
}

static uint32_t receive(uint8_t *state, const uint8_t *words, size_t len)
{
    return monitor_receive(state, MONITOR_STATE_BYTES, 10, 60, words, len);
}

/* Whether a run of receipts comes to such a load. */
static int reached(struct source *r, const struct filling *f, int far, struct load *load)
{
    uint8_t again[MONITOR_STATE_BYTES];
    load->reading = 1000000;
    if (monitor_set_up(load->state, sizeof load->state, OWN, 100, load->reading, 0) != MONITOR_TAKEN)
        return 0;
    for (int i = 0; i < 60; i++) {
        int astray = message(r, f, load);
        receive(load->state, load->message, load->len);
        memcpy(again, load->state, sizeof again);
        int settled = receive(again, load->message, load->len) == 0 && memcmp(again, load->state, sizeof again) == 0;
        if (settled && astray == far && get32(again + HELD_AT) == f->data && get32(again + KNOWN_AT) == f->entries)
            return 1;
    }
    return 0;
}

static void make_loads(const struct filling *f, int far, struct load loads[STATES])
{
    unsigned made = 0;
    for (uint64_t seed = 0; made < STATES; seed++) {
        struct source r = {seed};
        made += (unsigned)reached(&r, f, far, &loads[made]);
    }
}

/* A copy of the state, for a receipt that changes it. */
static uint8_t *copy(struct load *l)
{
    memcpy(l->copy, l->state, sizeof l->copy);
    return l->copy;
}

/* The loads whose state takes the message of the mended sender, some of them twice in place of those that are too full for it. */
static void taking(const struct load loads[STATES], struct load kept[STATES])
{
    unsigned count = 0;
    for (unsigned i = 0; i < STATES; i++) {
        kept[count] = loads[i];
        count += receive(copy(&kept[count]), loads[i].mended, loads[i].len) == 0;
    }
    for (unsigned i = count; count > 0 && i < STATES; i++)
        kept[i] = kept[i - count];
}

/* Readings that agree with all that is saved: the sender's, the own one, half width and drift. */
#define READINGS 9000, 9003, 5, 100

/* Triples of every name but the own one, as receipts leave them: the previous one, and those with the largest sums. */
static void save_clocks(struct load loads[STATES])
{
    for (unsigned i = 0; i < STATES; i++)
        for (uint32_t name = 0; name < NAMES; name++) {
            const uint64_t saved[] = {3000, 3001, 20, 1000 + name, 1000, 60, 2000, 2004 + name, 60};
            uint8_t *place = loads[i].state + CLOCKS_AT + CLOCK * name;
            if (name == OWN)
                continue;
            put32(place, 1);
            for (unsigned n = 0; n < 9; n++)
                put64(place + 4 + 8 * n, saved[n]);
        }
}

/* ---- calls */

/* A call with its other arguments, by one of the two programs, and the number that it returns. */
struct call {
    const char *name;
    uint32_t (*engine)(struct load *), (*hand)(struct load *);
    uint32_t number;
};

/* Both programs' functions for a call on a load. */
#define BY(name, ...)                             \
    static uint32_t engine_##name(struct load *l) \
    {                                             \
        return monitor_##__VA_ARGS__;             \
    }                                             \
    static uint32_t by_hand_##name(struct load *l)\
    {                                             \
        return hand_##__VA_ARGS__;                \
    }
#define CALL(text, name, number) {text, engine_##name, by_hand_##name, number}

BY(fresh, set_up(l->state, sizeof l->state, 3, 100, 7, 2))
BY(form, write(l->state, sizeof l->state, UINT64_MAX, l->out, sizeof l->out))
BY(older, age(l->state, sizeof l->state, ++l->reading))
BY(taken, receive(l->state, sizeof l->state, 10, 60, l->message, l->len))
BY(watched, receive_with_readings(l->state, sizeof l->state, 10, 60, READINGS, l->message, l->len))
BY(copied, receive(copy(l), sizeof l->copy, 10, 60, l->message, l->len))
BY(risen, receive(copy(l), sizeof l->copy, 10, 60, l->mended, l->len))
BY(ask0, ask(l->state, sizeof l->state, 0, l->out, MONITOR_ANSWER_BYTES))
BY(ask1, ask(l->state, sizeof l->state, 1, l->out, MONITOR_ANSWER_BYTES))
BY(ask2, ask(l->state, sizeof l->state, 2, l->out, MONITOR_ANSWER_BYTES))
BY(ask3, ask(l->state, sizeof l->state, 3, l->out, MONITOR_ANSWER_BYTES))
BY(ask4, ask(l->state, sizeof l->state, 4, l->out, MONITOR_ANSWER_BYTES))
BY(least, fewest(l->state, sizeof l->state, l->out, MONITOR_FEWEST_BYTES))
BY(written, write(l->state, sizeof l->state, 2, l->out, sizeof l->out))
BY(read, message_read(l->message, l->len, l->out, MONITOR_READING_BYTES))
BY(again, message_rewrite(l->message, l->len, l->out, sizeof l->out))

static const struct call set_up = CALL("set up", fresh, 0);
static const struct call reading[] = {CALL("read", read, 0), CALL("rewrite", again, 0)};
static const struct call receiving[] = {
    CALL("receive", taken, 0),
    CALL("receive with readings", watched, 0),
};
static const struct call mending[] = {
    CALL("copy, receive", copied, 0),
    CALL("copy, receive with a rise", risen, 0),
};
static const struct call calls[] = {
    CALL("form check", form, 23), CALL("age", older, 0), CALL("ask 0", ask0, 0), CALL("ask 1", ask1, 0),  CALL("ask 2", ask2, 0),
    CALL("ask 3", ask3, 0),       CALL("ask 4", ask4, 0), CALL("fewest", least, 0), CALL("write", written, 0),
};

/* ---- times */

static double now(void)
{
    struct timespec t;
    clock_gettime(CLOCK_MONOTONIC, &t);
    return 1e9 * (double)t.tv_sec + (double)t.tv_nsec;
}

/* The time of so many passes over the states, in nanoseconds. */
static double time_of(uint32_t (*run)(struct load *), uint32_t number, struct load loads[STATES], unsigned passes)
{
    double begun = now();
    for (unsigned pass = 0; pass < passes; pass++)
        for (unsigned i = 0; i < STATES; i++)
            if (run(&loads[i]) != number) {
                printf("another number than %u\n", number);
                exit(1);
            }
    return now() - begun;
}

/* So many passes that they take a batch's time; the first are slow, as nothing of theirs is in the caches yet. */
static unsigned passes_of(uint32_t (*run)(struct load *), uint32_t number, struct load loads[STATES])
{
    unsigned passes = 1;
    while (time_of(run, number, loads, passes) < BATCH_NS && passes < 1u << 20)
        passes *= 2;
    return passes;
}

static int rising(const void *a, const void *b)
{
    double x = *(const double *)a, y = *(const double *)b;
    return (x > y) - (x < y);
}

static double median(double *times, unsigned rounds)
{
    qsort(times, rounds, sizeof *times, rising);
    return times[rounds / 2];
}

/* Measures a call in all of the states, and prints its line. */
static void line(const struct call *call, const char *state, const struct load loads[STATES], unsigned rounds)
{
    static struct load of_engine[STATES], of_hand[STATES];
    static double engine[MOST_ROUNDS], hand[MOST_ROUNDS];
    memcpy(of_engine, loads, sizeof of_engine);
    memcpy(of_hand, loads, sizeof of_hand);
    unsigned by_engine = passes_of(call->engine, call->number, of_engine);
    unsigned by_hand = passes_of(call->hand, call->number, of_hand);
    for (unsigned i = 0; i < rounds; i++) {
        engine[i] = time_of(call->engine, call->number, of_engine, by_engine) / (by_engine * STATES);
        hand[i] = time_of(call->hand, call->number, of_hand, by_hand) / (by_hand * STATES);
    }
    double e = median(engine, rounds), h = median(hand, rounds);
    printf("| %s | %s | %.0f | %.0f | %.2f |\n", call->name, state, e, h, e / h);
    fflush(stdout);
}

/* The lines of receiving in the states of a filling, and with a rise, which changes a copy of them. */
static void receipts(const char *name, const struct load loads[STATES], unsigned rounds)
{
    static struct load kept[STATES];
    taking(loads, kept);
    for (unsigned k = 0; k < 2; k++)
        line(&receiving[k], name, loads, rounds);
    for (unsigned k = 0; k < 2; k++)
        line(&mending[k], name, kept, rounds);
}

/* The lines of the states of a filling. */
static void lines(const struct filling *f, const char *saved, const struct load near[STATES], const struct load far[STATES], unsigned rounds)
{
    char name[60], far_name[60];
    snprintf(name, sizeof name, "%s%s", f->name, saved);
    snprintf(far_name, sizeof far_name, "%s%s, far off", f->name, saved);
    for (unsigned c = 0; c < sizeof calls / sizeof *calls; c++) {
        line(&calls[c], name, near, rounds);
        if (c == 1)
            receipts(name, near, rounds);
        if (c == 1 && f->entries > 0)
            receipts(far_name, far, rounds);
    }
}

int main(int argc, char **argv)
{
    static struct load near[STATES], far[STATES];
    long wanted = argc > 1 ? atol(argv[1]) : 1001;
    unsigned rounds = wanted < 1 ? 1 : wanted > MOST_ROUNDS ? MOST_ROUNDS : (unsigned)wanted;
    printf("| call | state | engine ns | C ns | engine / C |\n|---|---|---|---|---|\n");
    make_loads(&fillings[0], 0, near);
    line(&set_up, "any", near, rounds);
    for (unsigned k = 0; k < 2; k++) {
        of_names(0, near);
        line(&reading[k], "one term, 1 epoch word", near, rounds);
        of_names(ALL_NAMES, near);
        line(&reading[k], "one term, 29 epoch words", near, rounds);
    }
    for (unsigned f = 0; f < sizeof fillings / sizeof *fillings; f++) {
        make_loads(&fillings[f], 0, near);
        make_loads(&fillings[f], fillings[f].entries > 0, far);
        lines(&fillings[f], "", near, far, rounds);
        save_clocks(near);
        save_clocks(far);
        lines(&fillings[f], ", 28 saved", near, far, rounds);
    }
    return 0;
}
