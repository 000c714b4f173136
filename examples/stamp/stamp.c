/* Dates the lines of a visit notebook with the time engine.
 *
 *     stamp LIMIT < NOTEBOOK        LIMIT: how many monitors may have failed, 0 to MONITOR_GREATEST_LIMIT
 *
 * A notebook has the lines
 *     set OWN DRIFT READING EPOCH   the monitor's identifier, its clock's drift in parts per million, its clock, and its epoch
 *     age READING                   a later reading of its clock
 *     get LEAST GREATEST WORD ...   a radio message and the least and greatest delay of its channel
 * and between them what was written down at the pools, in any words. Each of those is printed behind the time it can have been. */
#define _POSIX_C_SOURCE 200809L
#include <errno.h>
#include <inttypes.h>
#include <stdio.h>
#include <stdlib.h>
#include <string.h>

#include "monitor.h"
#include "monitor_text.h"

/* The most numbers that a line can hold: two delays, and far more words than any message has. */
#define MOST (2 + MONITOR_MOST_WORDS + 48)

/* A buffer of exactly n bytes, so that a tool which watches memory sees every byte beyond it. */
static uint8_t *exactly(size_t n)
{
    uint8_t *bytes = malloc(n > 0 ? n : 1);
    if (bytes == NULL) {
        perror("stamp");
        exit(2);
    }
    return bytes;
}

/* Reads one decimal number, digits alone, at most `most`; moves *text behind it. Answers whether there was one. */
static int one_number(const char **text, uint64_t most, uint64_t *value)
{
    char *end;
    if (**text < '0' || **text > '9')
        return 0;
    errno = 0;
    *value = strtoull(*text, &end, 10);
    *text = end;
    return errno == 0 && *value <= most;
}

/* Reads the numbers behind a command, each behind one space. Answers how many, or -1 if the text is not so. */
static int numbers(const char *text, uint64_t *values)
{
    int n = 0;
    while (*text == ' ' && n < MOST) {
        text++;
        if (!one_number(&text, UINT64_MAX, &values[n++]))
            return -1;
    }
    return *text == '\0' ? n : -1;
}

/* Hands a message of n words to the engine. A word above 32 bits is no word. */
static int receive(uint8_t *state, const uint64_t *delays, const uint64_t *words, int n, uint32_t *number)
{
    uint8_t *message = exactly(4 * (size_t)n);
    int fit = 1;
    for (int i = 0; i < n; i++) {
        fit &= words[i] <= UINT32_MAX;
        monitor_put_word(message + 4 * i, (uint32_t)words[i]);
    }
    if (fit)
        *number = monitor_receive(state, MONITOR_STATE_BYTES, delays[0], delays[1], message, 4 * (size_t)n);
    free(message);
    return fit;
}

/* Carries out a `set`, `age` or `get` line. Answers whether it could be read; *number is then what the engine returned. */
static int command(uint8_t *state, const char *line, uint32_t *number)
{
    uint64_t values[MOST];
    int n = numbers(line + 3, values);
    if (strncmp(line, "set", 3) == 0) {
        if (n != 4 || values[0] > UINT32_MAX || values[1] > UINT32_MAX)
            return 0;
        *number = monitor_set_up(state, MONITOR_STATE_BYTES, (uint32_t)values[0], (uint32_t)values[1], values[2], values[3]);
        return 1;
    }
    if (strncmp(line, "age", 3) == 0) {
        if (n != 1)
            return 0;
        *number = monitor_age(state, MONITOR_STATE_BYTES, values[0]);
        return 1;
    }
    return n >= 2 && receive(state, values, values + 2, n - 2, number);
}

static int is_command(const char *line)
{
    return strncmp(line, "set ", 4) == 0 || strncmp(line, "age ", 4) == 0 || strncmp(line, "get ", 4) == 0;
}

/* Prints a line of the notebook behind the time that the engine gives it. */
static void date(const uint8_t *state, uint64_t limit, const char *line)
{
    uint8_t *answer = exactly(MONITOR_ANSWER_BYTES);
    uint32_t number = monitor_ask(state, MONITOR_STATE_BYTES, limit, answer, MONITOR_ANSWER_BYTES);
    if (number == MONITOR_STATE_FORM)
        printf("NO TIME, the monitor is not set up: %s\n", line);
    else if (number != MONITOR_TAKEN)
        printf("NO TIME, refused %" PRIu32 " (%s): %s\n", number, monitor_text(number), line);
    else if (monitor_number(answer) == MONITOR_BETWEEN)
        printf("%" PRIu64 " to %" PRIu64 ": %s\n", monitor_number(answer + 8), monitor_number(answer + 16), line);
    else if (monitor_number(answer) == MONITOR_OPEN)
        printf("NO TIME, it is open: what was heard says nothing if %" PRIu64 " may have failed: %s\n", limit, line);
    else
        printf("NO TIME, contradicted: more than %" PRIu64 " must have failed: %s\n", limit, line);
    free(answer);
}

static void one_line(uint8_t *state, uint64_t limit, const char *line)
{
    uint32_t number;
    if (!is_command(line))
        date(state, limit, line);
    else if (!command(state, line, &number))
        printf("not understood: %s\n", line);
    else if (number != MONITOR_TAKEN)
        printf("refused %" PRIu32 " (%s): %s\n", number, monitor_text(number), line);
}

int main(int count, char **arguments)
{
    uint64_t limit;
    const char *text = count == 2 ? arguments[1] : "";
    if (!one_number(&text, MONITOR_GREATEST_LIMIT, &limit) || *text != '\0') {
        fprintf(stderr, "usage: stamp LIMIT < NOTEBOOK, LIMIT 0 to %d\n", MONITOR_GREATEST_LIMIT);
        return 2;
    }
    uint8_t *state = exactly(MONITOR_STATE_BYTES);
    memset(state, 0xff, MONITOR_STATE_BYTES); /* out of form until a `set` is taken */
    char *line = NULL;
    size_t room = 0;
    ssize_t length;
    while ((length = getline(&line, &room, stdin)) != -1) {
        line[strcspn(line, "\n")] = '\0';
        one_line(state, limit, line);
    }
    free(line);
    free(state);
    return ferror(stdin) || fflush(stdout) != 0;
}
