/* monitor_text.h: numbers and words in bytes, at every address, and a text of its own for each refusal, with the limits that monitor.h has. */
#include <string.h>

#include "lent.h"

static const uint32_t listed[] = {0, 1, 2, 3, 10, 11, 12, 13, 14, 15, 16, 17, 18, 20, 21, 22, 23, 24, 25, 30, 31, 32, 40, 41, 42};
#define LISTED (sizeof listed / sizeof *listed)

static int is_listed(uint32_t number)
{
    for (size_t i = 0; i < LISTED; i++)
        if (listed[i] == number)
            return 1;
    return 0;
}

static void texts(void)
{
    const char *none = monitor_text(UINT32_MAX);
    for (size_t i = 0; i < LISTED; i++) {
        const char *text = monitor_text(listed[i]);
        size_t len = strlen(text);
        check(len > 10 && text[len - 1] == '.' && text[0] >= 'A' && text[0] <= 'Z', "a refusal's text is a sentence");
        check(strcmp(text, none) != 0, "and not that of numbers which no call returns");
        int own = 1;
        for (size_t j = 0; j < i; j++)
            own &= strcmp(text, monitor_text(listed[j])) != 0;
        check(own, "and no other's");
    }
    int said = 1;
    for (uint32_t number = 0; number < 1000; number++)
        said &= is_listed(number) || strcmp(monitor_text(number), none) == 0;
    check(said, "a number that no call returns says so");
}

/* The limits that texts name. */
static const struct {
    uint32_t number;
    uint64_t limit;
} limits[] = {
    {MONITOR_OWN_NAME, MONITOR_GREATEST_NAME},
    {MONITOR_DRIFT, MONITOR_GREATEST_DRIFT},
    {MONITOR_READING, MONITOR_GREATEST_READING + 1},
    {MONITOR_WORD_COUNT, MONITOR_LEAST_WORDS},
    {MONITOR_WORD_COUNT, MONITOR_MOST_WORDS},
    {MONITOR_HEAD, MONITOR_GREATEST_NAME},
    {MONITOR_HEAD, MONITOR_MOST_TERMS},
    {MONITOR_INTERVAL, MONITOR_GREATEST_END + 1},
    {MONITOR_DELAY, MONITOR_GREATEST_DELAY},
    {MONITOR_LIMIT, MONITOR_GREATEST_LIMIT},
    {MONITOR_END, MONITOR_GREATEST_END + 1},
    {MONITOR_TERM_COUNT, MONITOR_MOST_TERMS},
    {MONITOR_READINGS, MONITOR_GREATEST_CLOCK + 1},
    {MONITOR_READINGS, MONITOR_GREATEST_DRIFT},
    {MONITOR_OWN_EPOCH, MONITOR_GREATEST_EPOCH},
};

/* A number as texts write it, with commas, and a power of 2 from 2^32 on as such. */
static void write_number(char text[32], uint64_t number)
{
    if (number >> 32 != 0 && (number & (number - 1)) == 0) {
        unsigned power = 0;
        while (number >> power != 1)
            power++;
        snprintf(text, 32, "2^%u", power);
    } else if (number < 1000) {
        snprintf(text, 32, "%u", (unsigned)number);
    } else if (number < 1000000) {
        snprintf(text, 32, "%u,%03u", (unsigned)(number / 1000), (unsigned)(number % 1000));
    } else {
        snprintf(text, 32, "%u,%03u,%03u", (unsigned)(number / 1000000), (unsigned)(number / 1000 % 1000), (unsigned)(number % 1000));
    }
}

static int is_digit(char c)
{
    return c >= '0' && c <= '9';
}

/* Whether the text has the number, not within a longer one. */
static int has_number(const char *text, const char *number)
{
    for (const char *at = strstr(text, number); at != NULL; at = strstr(at + 1, number)) {
        const char *end = at + strlen(number);
        int begins = at == text || !(is_digit(at[-1]) || at[-1] == ',' || at[-1] == '^');
        if (begins && !is_digit(end[0]) && !(end[0] == ',' && is_digit(end[1])))
            return 1;
    }
    return 0;
}

static void texts_have_limits(void)
{
    char number[32];
    for (size_t i = 0; i < sizeof limits / sizeof *limits; i++) {
        write_number(number, limits[i].limit);
        int has = has_number(monitor_text(limits[i].number), number);
        check(has, "a text has the limit that monitor.h has");
        if (!has)
            printf("  %s: %s\n", number, monitor_text(limits[i].number));
    }
}

static void numbers(void)
{
    uint8_t bytes[8 + 8] = {0};
    for (size_t at = 0; at < 8; at++) {
        for (size_t i = 0; i < 8; i++)
            bytes[at + i] = (uint8_t)(0xf1 + i);
        check(monitor_number(bytes + at) == UINT64_C(0xf8f7f6f5f4f3f2f1), "8 bytes are a number, the lowest first");
        check(monitor_word(bytes + at) == 0xf4f3f2f1u, "4 bytes are a word, the lowest first");
    }
}

static void words(void)
{
    const uint32_t some[] = {0, 1, 0x80000000u, 0x01020304u, UINT32_MAX};
    struct lent b;
    for (size_t at = 0; at < 4; at++) {
        uint8_t *bytes = lend(&b, 64);
        check(monitor_put_words(bytes + at, some, 5) == 20, "five words are 20 bytes");
        for (size_t i = 0; i < 5; i++)
            check(monitor_word(bytes + at + 4 * i) == some[i], "a word is read as it was put");
        check(bytes[at + 12] == 4 && bytes[at + 15] == 1, "the lowest byte first");
        check(at == 0 ? untouched(&b, 20) : bytes[at - 1] == pattern(GUARD + at - 1) && bytes[at + 20] == pattern(GUARD + at + 20),
              "and nothing beside them is written");
    }
    check(monitor_put_words(NULL, NULL, 0) == 0, "no words are no bytes");
}

int main(void)
{
    texts();
    texts_have_limits();
    numbers();
    words();
    return report();
}
