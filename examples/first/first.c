/* Sets a monitor up, receives from two gateways, ages, and asks what time it can be. */
#include <inttypes.h>
#include <stdio.h>

#include "monitor.h"
#include "monitor_text.h"

#define GATEWAYS 2
#define WORDS 7

/* What the radio brought, and the own clock when it came: gateway 1 says 1,000,000,000 to 1,000,000,200 at 5 s, gateway 2 says 1,003,000,000 to
 * 1,003,000,300 at 8 s. */
static const uint64_t clock_at[GATEWAYS] = {5000000, 8000000};
static const uint32_t words[GATEWAYS][WORDS] = {
    {536870913, 1, 1073741825, 1536870912, 1610612737, 2073742024, 4147483852},
    {536870914, 2, 1073741825, 1539870912, 1610612737, 2076742124, 4153483954},
};

/* Whether a call was refused; if so, it says why. */
static int refused(const char *call, uint32_t number)
{
    if (number != MONITOR_TAKEN)
        fprintf(stderr, "%s: refused %" PRIu32 ": %s\n", call, number, monitor_text(number));
    return number != MONITOR_TAKEN;
}

int main(void)
{
    uint8_t state[MONITOR_STATE_BYTES], message[MONITOR_MESSAGE_BYTES], answer[MONITOR_ANSWER_BYTES];

    /* monitor 5; its clock drifts by up to 100 parts per million and reads 0 now; it was never mended, so its epoch is 0 */
    if (refused("set up", monitor_set_up(state, sizeof state, 5, 100, 0, 0)))
        return 1;

    for (int i = 0; i < GATEWAYS; i++) {
        /* age first: a receipt counts at the reading that the state was last aged to */
        if (refused("age", monitor_age(state, sizeof state, clock_at[i])))
            return 1;
        /* it was on its way for 0 to 50,000 microseconds; if it is refused, nothing has changed, and we go on without it */
        size_t length = monitor_put_words(message, words[i], WORDS);
        (void)refused("receive", monitor_receive(state, sizeof state, 0, 50000, message, length));
    }

    /* a minute later: age before asking too, or the answer is about 8 s */
    if (refused("age", monitor_age(state, sizeof state, 68000000)))
        return 1;
    /* what time can it be, if at most one of the others has failed? */
    if (refused("ask", monitor_ask(state, sizeof state, 1, answer, sizeof answer)))
        return 1;
    switch (monitor_number(answer)) {
    case MONITOR_BETWEEN:
        printf("between %" PRIu64 " and %" PRIu64 "\n", monitor_number(answer + 8), monitor_number(answer + 16));
        return 0;
    case MONITOR_OPEN:
        puts("open: what was heard says nothing if one may have failed");
        return 0;
    default:
        puts("contradicted: more than one must have failed");
        return 0;
    }
}
