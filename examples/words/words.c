/* Makes the words of a radio message, to try the engine with.
 *
 *     words SENDER LEFT RIGHT TERM ...
 *
 * SENDER is a name: an identifier, 0 to 28, and behind an @ its epoch, 0 to 15, if that is not 0 (so 4, and 4@1 once it was mended). LEFT and RIGHT
 * are the ends of its interval in microseconds. Each TERM is a list of names such as 1,2: the interval may be wrong if all of them have failed; - is
 * the empty term. Terms stand in normal form: by rising masks (so 1,2 before 3), none containing another. An epoch may be given once, wherever its
 * identifier stands. It prints the words in ends form, as a `get` line of the listing takes them behind its two delays. What documents 01 and 02
 * refuse is refused here, with its number. */
#include <errno.h>
#include <inttypes.h>
#include <stdio.h>
#include <stdlib.h>

#include "monitor.h"
#include "monitor_text.h"

#define PAYLOAD ((UINT32_C(1) << 29) - 1)

struct message {
    uint64_t sender, left, right;
    uint64_t epochs[MONITOR_GREATEST_NAME + 1];
    uint32_t given; /* the identifiers whose epochs were */
    uint32_t terms[MONITOR_MOST_TERMS];
    size_t count;
};

/* Reads one decimal number, digits alone; moves *text behind it. Answers whether there was one. */
static int one_number(const char **text, uint64_t *value)
{
    char *end;
    if (**text < '0' || **text > '9')
        return 0;
    errno = 0;
    *value = strtoull(*text, &end, 10);
    *text = end;
    return errno == 0;
}

static int whole_number(const char *text, uint64_t *value)
{
    return one_number(&text, value) && *text == '\0';
}

/* Reads a name, and keeps its epoch if that stands there. Answers whether it can be so: an identifier has one epoch in a message. */
static int one_name(const char **text, struct message *m, uint64_t *name)
{
    uint64_t epoch;
    if (!one_number(text, name))
        return 0;
    if (**text != '@')
        return 1;
    ++*text;
    if (!one_number(text, &epoch))
        return 0;
    if (*name > MONITOR_GREATEST_NAME)
        return 1;
    if ((m->given >> *name & 1) != 0 && m->epochs[*name] != epoch)
        return 0;
    m->given |= UINT32_C(1) << *name;
    m->epochs[*name] = epoch;
    return 1;
}

/* Reads a term: names with commas between them, or - for none. */
static int one_term(const char *text, struct message *m, uint32_t *mask)
{
    uint64_t name;
    *mask = 0;
    if (text[0] == '-' && text[1] == '\0')
        return 1;
    for (;; text++) {
        if (!one_name(&text, m, &name) || name > MONITOR_GREATEST_NAME)
            return 0;
        *mask |= UINT32_C(1) << name;
        if (*text != ',')
            return *text == '\0';
    }
}

static int one_sender(const char *text, struct message *m)
{
    return one_name(&text, m, &m->sender) && *text == '\0';
}

/* docs/layouts.md, "A radio message": head, epochs of all identifiers, left, right, terms, and the sum of all these modulo 2^29. Answers how many
 * words these are. */
static size_t words_of(const struct message *m, uint32_t *words)
{
    size_t n = 0;
    uint32_t sum = 0, names = UINT32_C(1) << m->sender;
    for (size_t i = 0; i < m->count; i++)
        names |= m->terms[i];
    words[n++] = UINT32_C(1) << 29 | (uint32_t)m->count << 5 | (uint32_t)m->sender;
    for (uint32_t name = 0; name <= MONITOR_GREATEST_NAME; name++)
        if ((names >> name & 1) != 0)
            words[n++] = (uint32_t)m->epochs[name] << 5 | name;
    words[n++] = UINT32_C(2) << 29 | (uint32_t)(m->left >> 29);
    words[n++] = UINT32_C(2) << 29 | ((uint32_t)m->left & PAYLOAD);
    words[n++] = UINT32_C(3) << 29 | (uint32_t)(m->right >> 29);
    words[n++] = UINT32_C(3) << 29 | ((uint32_t)m->right & PAYLOAD);
    for (size_t i = 0; i < m->count; i++)
        words[n++] = UINT32_C(6) << 29 | m->terms[i];
    for (size_t i = 0; i < n; i++)
        sum += words[i];
    words[n++] = UINT32_C(7) << 29 | (sum & PAYLOAD);
    return n;
}

/* Makes the words, and has the engine read them. Answers its number: 0, or that of the refusal. */
static uint32_t made(const struct message *m, uint32_t *words, size_t *count)
{
    uint8_t bytes[MONITOR_MESSAGE_BYTES], reading[MONITOR_READING_BYTES];
    if (m->sender > MONITOR_GREATEST_NAME)
        return MONITOR_HEAD; /* it might not fit into its 5 bits */
    for (int name = 0; name <= MONITOR_GREATEST_NAME; name++)
        if (m->epochs[name] > MONITOR_GREATEST_EPOCH)
            return MONITOR_EPOCHS; /* nor this into its 4 */
    if (m->left > MONITOR_GREATEST_END || m->right > MONITOR_GREATEST_END)
        return MONITOR_INTERVAL; /* nor these into two words */
    *count = words_of(m, words);
    return monitor_message_read(bytes, monitor_put_words(bytes, words, *count), reading, sizeof reading);
}

static int refused(uint32_t number)
{
    fprintf(stderr, "words: refused %" PRIu32 ": %s\n", number, monitor_text(number));
    return 1;
}

static int usage(const char *what)
{
    fprintf(stderr, "words: not understood: %s\nusage: words SENDER LEFT RIGHT TERM ..., as in: words 3 1000000 1000200 1,2 4@1\n", what);
    return 2;
}

int main(int count, char **arguments)
{
    struct message m = {0};
    uint64_t *ends[] = {&m.left, &m.right};
    uint32_t words[MONITOR_MOST_WORDS], term;
    size_t n = 0;
    if (count < 4)
        return usage("too few numbers");
    if (!one_sender(arguments[1], &m))
        return usage(arguments[1]);
    for (int i = 2; i < 4; i++)
        if (!whole_number(arguments[i], ends[i - 2]))
            return usage(arguments[i]);
    for (int i = 4; i < count; i++) {
        if (!one_term(arguments[i], &m, &term))
            return usage(arguments[i]);
        if (m.count == MONITOR_MOST_TERMS)
            return refused(MONITOR_HEAD);
        m.terms[m.count++] = term;
    }
    uint32_t number = made(&m, words, &n);
    if (number != MONITOR_TAKEN)
        return refused(number);
    for (size_t i = 0; i < n; i++)
        printf("%" PRIu32 "%c", words[i], i + 1 < n ? ' ' : '\n');
    return fflush(stdout) != 0;
}
