/* The engine's calls written by hand in C for speed, to measure the engine against; include/monitor.h says what each call does. */
#ifndef HAND_H
#define HAND_H

#include <stddef.h>
#include <stdint.h>

uint32_t hand_set_up(uint8_t *state, size_t state_len, uint32_t own, uint32_t drift, uint64_t reading, uint64_t epoch);
uint32_t hand_age(uint8_t *state, size_t state_len, uint64_t reading);
uint32_t hand_receive(uint8_t *state, size_t state_len, uint64_t least, uint64_t greatest, const uint8_t *message, size_t message_len);
uint32_t hand_receive_with_readings(uint8_t *state, size_t state_len, uint64_t least, uint64_t greatest, uint64_t sender_reading,
                                    uint64_t own_reading, uint64_t half_width, uint32_t sender_drift, const uint8_t *message, size_t message_len);
uint32_t hand_write(const uint8_t *state, size_t state_len, uint64_t position, uint8_t *message, size_t message_len);
uint32_t hand_ask(const uint8_t *state, size_t state_len, uint64_t limit, uint8_t *answer, size_t answer_len);
uint32_t hand_fewest(const uint8_t *state, size_t state_len, uint8_t *answer, size_t answer_len);
uint32_t hand_message_read(const uint8_t *message, size_t message_len, uint8_t *reading, size_t reading_len);
uint32_t hand_message_rewrite(const uint8_t *message, size_t message_len, uint8_t *out, size_t out_len);

#endif
