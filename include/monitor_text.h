/** Numbers and words in bytes, and a text for each refusal: what every program that uses monitor.h would else write by hand. For C11 and C++17;
 *  all of it is inline, so there is nothing more to link. The bytes may stand anywhere, at odd addresses too. */
#ifndef MONITOR_TEXT_H
#define MONITOR_TEXT_H

#include <stddef.h>
#include <stdint.h>

#include "monitor.h"

/** The word in 4 bytes, little-endian: a word of a message. */
static inline uint32_t monitor_word(const uint8_t *bytes)
{
    return (uint32_t)bytes[0] | (uint32_t)bytes[1] << 8 | (uint32_t)bytes[2] << 16 | (uint32_t)bytes[3] << 24;
}

/** The number in 8 bytes, little-endian: a number that monitor_ask, monitor_fewest or monitor_message_read wrote. */
static inline uint64_t monitor_number(const uint8_t *bytes)
{
    return (uint64_t)monitor_word(bytes + 4) << 32 | monitor_word(bytes);
}

/** Puts a word into 4 bytes. */
static inline void monitor_put_word(uint8_t *bytes, uint32_t word)
{
    bytes[0] = (uint8_t)word;
    bytes[1] = (uint8_t)(word >> 8);
    bytes[2] = (uint8_t)(word >> 16);
    bytes[3] = (uint8_t)(word >> 24);
}

/** Puts so many words into 4 * count bytes, as a message is handed in. Answers how many bytes these are. */
static inline size_t monitor_put_words(uint8_t *bytes, const uint32_t *words, size_t count)
{
    for (size_t i = 0; i < count; i++)
        monitor_put_word(bytes + 4 * i, words[i]);
    return 4 * count;
}

/** What the number that a call returned says, as one sentence. There is a text for every number, so for one that no call returns too. */
static inline const char *monitor_text(uint32_t number)
{
    switch (number) {
    case MONITOR_TAKEN: return "The call was taken.";
    case MONITOR_OWN_NAME: return "The own identifier is above 28.";
    case MONITOR_DRIFT: return "The drift is above 1,000 parts per million.";
    case MONITOR_READING: return "The reading is 2^58 or more.";
    case MONITOR_WORD_COUNT: return "The message has fewer than 6 or more than 43 words, or a number of bytes that is not a multiple of 4.";
    case MONITOR_FORM: return "The word behind the epoch words is neither of kind 2 nor of kind 4, or there is none.";
    case MONITOR_HEAD: return "The head is not of kind 1, its sender is above 28, its term count is above 8, or its bits 10 to 28 are not zero.";
    case MONITOR_LENGTH: return "The word count is not that of head, epoch words and form.";
    case MONITOR_KIND: return "A later word is of the wrong kind.";
    case MONITOR_CHECK: return "The check word is not the sum of the earlier words.";
    case MONITOR_INTERVAL: return "The left end is above the right one, or an end is below 0 or above 2^58 - 1.";
    case MONITOR_TERMS: return "The terms are not in normal form: masks strictly rising, no term containing another.";
    case MONITOR_SENDER: return "The sender is the own identifier.";
    case MONITOR_BACKWARDS: return "The reading is below the last one.";
    case MONITOR_DELAY: return "The least delay is above the greatest, or the greatest is above 600,000,000 microseconds.";
    case MONITOR_LIMIT: return "The limit is above 4.";
    case MONITOR_POSITION: return "No datum is held at that position.";
    case MONITOR_BUFFER: return "A lent buffer is too short.";
    case MONITOR_STATE_FORM: return "The state is out of form: it is damaged, or no state.";
    case MONITOR_END: return "An end would pass 2^58 - 1.";
    case MONITOR_TERM_COUNT: return "The new predicate has more than 8 terms in normal form.";
    case MONITOR_TOO_MANY: return "There would be more than 16 data or more than 32 entries.";
    case MONITOR_READINGS: return "A clock reading or the half width is 2^43 or more (receive without readings, or set up afresh), "
                                  "or the sender's drift is above 1,000 parts per million.";
    case MONITOR_OWN_EPOCH: return "The own epoch is above 15.";
    case MONITOR_EPOCHS: return "The epoch words are not one for the sender and each identifier in the terms, rising and well formed.";
    default: return "No call returns this number.";
    }
}

#endif
