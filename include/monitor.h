/** The pool monitor's time engine, for C and C++.
 *
 *  Every call takes numbers and byte slices only and returns the number of its refusal, MONITOR_TAKEN (0) if there is none. A refused call
 *  leaves every lent byte as it was; a taken one changes just the bytes that its comment names. Any bytes and numbers may be handed in, a
 *  damaged state too, and each call returns. Slices lent to one call must not overlap. A slice of length 0 may be any pointer, NULL too, such as
 *  an empty C++ vector hands in.
 *
 *  The calls are reentrant and keep nothing between them: the archive has no data that is written, takes no memory but the stack and what is
 *  lent, and calls memcpy and memset alone. So threads may call at once, as long as none writes what another is lent.
 *
 *  Nobody writes into a state but the calls. MONITOR_STATE_FORM tells that bytes cannot be a state, and no more: it is no check sum, since a flipped
 *  bit of a stored end can leave a state in form; and a buffer of zeros is in form too, the state of monitor 0 without drift, so a program that
 *  forgets monitor_set_up is not told. A program that stores a state keeps a sum of its own beside it.
 *
 *  Readings are whole microseconds, and so are the ends in messages and answers; a state keeps each end of a held interval to the millionth of one. A
 *  monitor's name is its identifier, 0 to MONITOR_GREATEST_NAME, and its epoch, 0 to MONITOR_GREATEST_EPOCH: one that was mended comes back under the
 *  next epoch, and is another name. A state knows of each identifier the greatest epoch that it has heard. Numbers in bytes are little-endian. A radio
 *  message is handed in as its 32-bit words, four bytes each; docs/layouts.md has all layouts.
 *
 *  monitor_text.h reads and puts the numbers and has a text for each refusal. Link with libmonitor.a (x86-64 alone; ELF, the calling convention of
 *  Linux), which the package has and `./archive` writes to target/staticlib. */
#ifndef MONITOR_H
#define MONITOR_H

#include <stddef.h>
#include <stdint.h>

/** Rises by one with each change that a C program can see; CHANGELOG.md says what it was. */
#define MONITOR_VERSION 7

/** The mark of a result that must be looked at, where the compiler knows one: a refusal that nobody sees leaves a state that nobody expects. */
#if (defined(__cplusplus) && __cplusplus >= 201703L) || (defined(__STDC_VERSION__) && __STDC_VERSION__ >= 202311L)
#define MONITOR_CHECKED [[nodiscard]]
#elif defined(__GNUC__)
#define MONITOR_CHECKED __attribute__((warn_unused_result))
#else
#define MONITOR_CHECKED
#endif

#ifdef __cplusplus
extern "C" {
#endif

/** A monitor's state, which docs/layouts.md has byte by byte: each datum ends with the millionths of its ends. A lent state may be longer; the bytes
 *  beyond stay as they are. */
#define MONITOR_STATE_BYTES 5393

/** What monitor_message_read writes: sender, left, right, term count, 8 bytes each. */
#define MONITOR_READING_BYTES 32

/** What monitor_ask writes: kind of answer, left, right, 8 bytes each. */
#define MONITOR_ANSWER_BYTES 24

/** What monitor_fewest writes: count, mask, 8 bytes each. */
#define MONITOR_FEWEST_BYTES 16

/** Words of the shortest message and of the longest, and the terms that a message or a held datum has at most. */
#define MONITOR_LEAST_WORDS 6
#define MONITOR_MOST_WORDS 43
#define MONITOR_MOST_TERMS 8

/** Bytes of the longest message. An output of this size is never too short for monitor_message_rewrite or monitor_write. */
#define MONITOR_MESSAGE_BYTES (4 * MONITOR_MOST_WORDS)

/** The greatest identifier of a monitor, drift in parts per million, delay in microseconds and limit of failed monitors. */
#define MONITOR_GREATEST_NAME 28
#define MONITOR_GREATEST_DRIFT 1000
#define MONITOR_GREATEST_DELAY 600000000
#define MONITOR_GREATEST_LIMIT 4

/** The greatest epoch of a monitor, which counts how often it was mended. */
#define MONITOR_GREATEST_EPOCH 15

/** The greatest reading, and the greatest end of an interval that can be stored: one a millionth of a microsecond above it cannot. */
#define MONITOR_GREATEST_READING ((UINT64_C(1) << 58) - 1)
#define MONITOR_GREATEST_END ((UINT64_C(1) << 58) - 1)

/** The greatest clock reading and half width that monitor_receive_with_readings takes: 101 days of microseconds. Readings have one beginning as long
 *  as a state lives. After this one receive without readings, or set up afresh: counted from a later beginning on a state that goes on, they can
 *  fall below those that are saved, and then every honest clock seems to have jumped. */
#define MONITOR_GREATEST_CLOCK ((UINT64_C(1) << 43) - 1)

/** The count that monitor_fewest writes when more than MONITOR_GREATEST_LIMIT monitors must have failed. */
#define MONITOR_FEWEST_OVER (MONITOR_GREATEST_LIMIT + 1)

/** The stack that each call takes, in bytes, its return address included: a little above the greatest that tests/c/stack.c measures, on many
 *  states and on states made and climbed for depth. Measured and not proved, so leave some room. Not counted is what the loader takes if it
 *  looks memcpy or memset up at the first call (link with -z now, or statically, and it does not).
 *  It is counted to the lowest byte that a call writes. By the calling convention the 128 bytes below the stack pointer (the red zone) belong to the
 *  running function: an interrupt on the same stack must leave them. On a signal stack the kernel's frame comes first, up to 3.4 kB where this was
 *  measured (getauxval(AT_MINSIGSTKSZ) tells; with wider registers it is more): there 10,240 bytes do not suffice for receiving, and 16,384
 *  suffice for every call. */
#define MONITOR_STACK_SET_UP 64
#define MONITOR_STACK_AGE 192
#define MONITOR_STACK_RECEIVE 9472
#define MONITOR_STACK_RECEIVE_WITH_READINGS 9536
#define MONITOR_STACK_WRITE 640
#define MONITOR_STACK_ASK 5824
#define MONITOR_STACK_FEWEST 6144
#define MONITOR_STACK_MESSAGE_READ 384
#define MONITOR_STACK_MESSAGE_REWRITE 576

/** The kinds of answer that monitor_ask writes. */
enum monitor_answer {
    MONITOR_CONTRADICTED = 0,   /**< no instant counts: more monitors have failed than the limit allows */
    MONITOR_OPEN = 1,           /**< every instant counts: nothing is known of the time */
    MONITOR_BETWEEN = 2         /**< left is the least instant that counts, rounded down, right the greatest, rounded up */
};

/** The numbers that a call can return. */
enum monitor_refusal {
    MONITOR_TAKEN = 0,
    /* caused by the installer */
    MONITOR_OWN_NAME = 1,       /**< own identifier above MONITOR_GREATEST_NAME */
    MONITOR_DRIFT = 2,          /**< drift above MONITOR_GREATEST_DRIFT */
    MONITOR_READING = 3,        /**< reading above MONITOR_GREATEST_READING */
    /* caused by the sender of a message */
    MONITOR_WORD_COUNT = 10,    /**< words fewer than MONITOR_LEAST_WORDS or more than MONITOR_MOST_WORDS, or bytes not a multiple of 4 */
    MONITOR_FORM = 11,          /**< word behind the epoch words neither kind 2 nor 4, or none there */
    MONITOR_HEAD = 12,          /**< kind not 1, sender above MONITOR_GREATEST_NAME, more than MONITOR_MOST_TERMS terms, bits 10 to 28 not 0 */
    MONITOR_LENGTH = 13,        /**< word count not that of head, epoch words and form */
    MONITOR_KIND = 14,          /**< a later word of the wrong kind */
    MONITOR_CHECK = 15,         /**< check word */
    MONITOR_INTERVAL = 16,      /**< left above right, or an end below 0 or above MONITOR_GREATEST_END */
    MONITOR_TERMS = 17,         /**< terms not in normal form */
    MONITOR_SENDER = 18,        /**< sender is the own identifier, under any epoch */
    /* caused by the host program */
    MONITOR_BACKWARDS = 20,     /**< reading below the last */
    MONITOR_DELAY = 21,         /**< least delay above greatest, or greatest above MONITOR_GREATEST_DELAY */
    MONITOR_LIMIT = 22,         /**< limit above MONITOR_GREATEST_LIMIT */
    MONITOR_POSITION = 23,      /**< no held datum there */
    MONITOR_BUFFER = 24,        /**< a lent buffer is too short */
    MONITOR_STATE_FORM = 25,    /**< state out of form: the bytes cannot be a state. One in form can be damaged too, or never set up */
    /* caused by a filling site */
    MONITOR_END = 30,           /**< an end would pass MONITOR_GREATEST_END, be it by a fraction */
    MONITOR_TERM_COUNT = 31,    /**< more than MONITOR_MOST_TERMS terms in the new predicate's normal form, stored or not */
    MONITOR_TOO_MANY = 32,      /**< too many data or entries */
    /* caused by the host program, with clock readings */
    MONITOR_READINGS = 40,      /**< a clock reading or half width above MONITOR_GREATEST_CLOCK (receive without readings, or set up afresh), or a
                                 *   drift above MONITOR_GREATEST_DRIFT */
    /* caused by the installer, with epochs */
    MONITOR_OWN_EPOCH = 41,     /**< own epoch above MONITOR_GREATEST_EPOCH */
    /* caused by the sender of a message, with epochs */
    MONITOR_EPOCHS = 42         /**< epoch words missing, unordered, too many or ill formed: they are one for the sender and for each identifier in
                                 *   the terms, rising */
};

/** Sets a monitor up: it holds nothing, and knows every epoch but its own as 0.
 *  @param state      its first MONITOR_STATE_BYTES bytes become the fresh state, whatever they were
 *  @param state_len  how many bytes are lent
 *  @param own        the own identifier, 0 to MONITOR_GREATEST_NAME
 *  @param drift      the own clock's drift in parts per million, 0 to MONITOR_GREATEST_DRIFT
 *  @param reading    the own clock's reading, at most MONITOR_GREATEST_READING
 *  @param epoch      the own epoch, 0 to MONITOR_GREATEST_EPOCH: one more than before each time that this monitor was mended; no message changes it
 *  @return 0 when taken; else, tested in this order, 24, 1, 41, 2 or 3, and no byte has changed
 *  Stack: MONITOR_STACK_SET_UP bytes. */
MONITOR_CHECKED
uint32_t monitor_set_up(uint8_t *state, size_t state_len, uint32_t own, uint32_t drift, uint64_t reading, uint64_t epoch);

/** Ages the state to a reading of the own clock: every interval widens by what the drift can have made of the time passed. With d microseconds
 *  passed at r parts per million a left end gains d * (1,000,000 - r) millionths of a microsecond and a right end d * (1,000,000 + r), and nothing is
 *  rounded: ageing in two calls gives the same bytes as in one to the later reading.
 *  @param state      the monitor's bytes; those beyond MONITOR_STATE_BYTES stay as they are
 *  @param state_len  how many bytes are lent
 *  @param reading    the own clock, not below the last reading; an equal one changes nothing
 *  @return 0 when taken; else, tested in this order, 24, 25, 3, 20 or 30, and no byte has changed
 *  Stack: MONITOR_STACK_AGE bytes. */
MONITOR_CHECKED
uint32_t monitor_age(uint8_t *state, size_t state_len, uint64_t reading);

/** Receives a message at the reading the state was last aged to. The delays are counted on the own clock: the left end gains what true time
 *  advances by at least over the least delay, the right end what it advances by at most over the greatest, as monitor_age has it. Ends are compared
 *  to the millionth.
 *
 *  The message's epochs are heard first, that of the own identifier aside. One above the known one is the known one from then on, and the old name
 *  is withdrawn: it counts as failed in all held data and entries, those that are true by that go, the others are put in normal form, and what is
 *  saved of that identifier's clock goes. A name whose epoch is below the known one counts as failed in the message. Beyond what is heard, a
 *  message whose predicate is true changes nothing where it is taken; it can still be refused, with 30 for its ends too. What is saved of the
 *  sender's clock stays as it is, unless its epoch has risen.
 *  @param state        the monitor's bytes; those beyond MONITOR_STATE_BYTES stay as they are
 *  @param state_len    how many bytes are lent
 *  @param least        the channel's least delay, by the own clock
 *  @param greatest     the channel's greatest delay, by the own clock, at most MONITOR_GREATEST_DELAY
 *  @param message      the words, four bytes each; they are not changed
 *  @param message_len  how many bytes they are
 *  @return 0 when taken; else, tested in this order, 24, 25, 21, 10, 12, 11, 13, 14, 42, 15, 16, 17, 18, 30, 31 or 32, and no byte has changed
 *  Stack: MONITOR_STACK_RECEIVE bytes. */
MONITOR_CHECKED
uint32_t monitor_receive(uint8_t *state, size_t state_len, uint64_t least, uint64_t greatest, const uint8_t *message, size_t message_len);

/** Receives a message as monitor_receive does, and watches the sender's clock by readings of it and of the own one. They are tested against three
 *  that are saved of this sender: the previous ones, and those with the largest a - b + w and b - a + w, the earlier on a tie, where a is the
 *  sender's reading, b the own one and w the half width. With a1, b1, w1 saved and a2, b2, w2 new, the test is violated if
 *  ||b2 - b1| - (a2 - a1)| is above |a2 - a1| times the sum of both drifts, plus w1 + w2. A violation makes the sender's name an entry, that is,
 *  it is known from then on, until its epoch rises, that this monitor has failed; and held data that any entry explains go, not only those that this
 *  one does. The new readings are saved, violating ones too;
 *  the first of a sender are saved without a test, and so are the first under a risen epoch. All this is done for a message whose predicate is true
 *  too, but not for one whose sender's epoch is below the known one: its readings are neither tested nor saved. A sender whose clock starts again at
 *  0 is blamed, unless the half widths cover that jump or it comes back under a new epoch.
 *  @param state           the monitor's bytes; those beyond MONITOR_STATE_BYTES stay as they are
 *  @param state_len       how many bytes are lent
 *  @param least           the channel's least delay, by the own clock
 *  @param greatest        the channel's greatest delay, by the own clock, at most MONITOR_GREATEST_DELAY
 *  @param sender_reading  the sender's clock when it sent, at most MONITOR_GREATEST_CLOCK
 *  @param own_reading     the own clock at that moment, as far as is known, at most MONITOR_GREATEST_CLOCK; it is not compared with the reading
 *                         the state was last aged to
 *  @param half_width      how far off own_reading may be to either side, at most MONITOR_GREATEST_CLOCK
 *  @param sender_drift    the sender's clock's drift in parts per million, at most MONITOR_GREATEST_DRIFT
 *  @param message         the words, four bytes each; they are not changed
 *  @param message_len     how many bytes they are
 *  @return 0 when taken; else, tested in this order, 24, 25, 21, 40, 10, 12, 11, 13, 14, 42, 15, 16, 17, 18, 30, 31 or 32, and no byte has changed
 *  Stack: MONITOR_STACK_RECEIVE_WITH_READINGS bytes. */
MONITOR_CHECKED
uint32_t monitor_receive_with_readings(uint8_t *state, size_t state_len, uint64_t least, uint64_t greatest, uint64_t sender_reading,
                                       uint64_t own_reading, uint64_t half_width, uint32_t sender_drift, const uint8_t *message,
                                       size_t message_len);

/** Writes a held datum as a message in ends form, with the own identifier as sender and the epochs that are known, the own one among them. A message
 *  has whole microseconds: the left end is rounded down and the right one up, and so it reads back.
 *  @param state        the monitor's bytes; they are not changed
 *  @param state_len    how many bytes are lent
 *  @param position     which datum; 0 is the oldest
 *  @param message      the message goes to its first 4 * (6 + epoch words + term count) bytes; those beyond stay as they are. There is an epoch
 *                      word for the own identifier and for each in the terms
 *  @param message_len  how many bytes are lent; MONITOR_MESSAGE_BYTES are always enough
 *  @return 0 when taken; else, tested in this order, 24 (state), 25, 23 or 24 (message), and no byte has changed
 *  Stack: MONITOR_STACK_WRITE bytes. */
MONITOR_CHECKED
uint32_t monitor_write(const uint8_t *state, size_t state_len, uint64_t position, uint8_t *message, size_t message_len);

/** Asks what time it can be at the reading the state was last aged to. An instant counts if some set of failed monitors within the limit, the
 *  own one not among them, explains all that is known of failures, and each held interval that this set does not explain contains the instant.
 *  A name that was withdrawn counts nowhere: the mended monitor is another. An instant is a whole count of millionths of a microsecond; of those that
 *  count, the answer has the least rounded down to a microsecond and the greatest rounded up.
 *  @param state       the monitor's bytes; they are not changed
 *  @param state_len   how many bytes are lent
 *  @param limit       how many monitors may have failed, 0 to MONITOR_GREATEST_LIMIT
 *  @param answer      its kind (enum monitor_answer), left and right go to its first MONITOR_ANSWER_BYTES bytes, left and right 0 unless the
 *                     kind is MONITOR_BETWEEN; those beyond stay as they are
 *  @param answer_len  how many bytes are lent
 *  @return 0 when taken; else, tested in this order, 24 (state), 25, 22 or 24 (answer), and no byte has changed
 *  Stack: MONITOR_STACK_ASK bytes. */
MONITOR_CHECKED
uint32_t monitor_ask(const uint8_t *state, size_t state_len, uint64_t limit, uint8_t *answer, size_t answer_len);

/** Finds the fewest failures: of the sets of at most MONITOR_GREATEST_LIMIT failed monitors for which an instant counts as in monitor_ask, the
 *  smallest, and of those the one with the least mask.
 *  @param state       the monitor's bytes; they are not changed
 *  @param state_len   how many bytes are lent
 *  @param answer      the count of names and their mask, identifier n being the bit of value 2^n, go to its first MONITOR_FEWEST_BYTES bytes,
 *                     or MONITOR_FEWEST_OVER and 0 if there is no such set; those beyond stay as they are
 *  @param answer_len  how many bytes are lent
 *  @return 0 when taken; else, tested in this order, 24 (state), 25 or 24 (answer), and no byte has changed
 *  Stack: MONITOR_STACK_FEWEST bytes. */
MONITOR_CHECKED
uint32_t monitor_fewest(const uint8_t *state, size_t state_len, uint8_t *answer, size_t answer_len);

/** Reads a message. Epochs and terms are in the message itself: the words of kind 0 and of kind 6.
 *  @param message      the words, four bytes each
 *  @param message_len  how many bytes they are
 *  @param reading      sender, left, right and term count go to its first MONITOR_READING_BYTES bytes; those beyond stay as they are
 *  @param reading_len  how many bytes are lent
 *  @return 0 when taken; else, tested in this order, 10, 12, 11, 13, 14, 42, 15, 16, 17 or 24 (reading too short), and no byte has changed
 *  Stack: MONITOR_STACK_MESSAGE_READ bytes. */
MONITOR_CHECKED
uint32_t monitor_message_read(const uint8_t *message, size_t message_len, uint8_t *reading, size_t reading_len);

/** Writes a message again in ends form, with the sender, epochs, interval and terms that it has and a new check word. A message in ends form
 *  comes out as the same words.
 *  @param message      the words, four bytes each
 *  @param message_len  how many bytes they are
 *  @param out          the message goes to its first 4 * (6 + epoch words + term count) bytes; those beyond stay as they are
 *  @param out_len      how many bytes are lent; MONITOR_MESSAGE_BYTES are always enough
 *  @return 0 when taken; else, tested in this order, 10, 12, 11, 13, 14, 42, 15, 16, 17 or 24 (out too short), and no byte has changed
 *  Stack: MONITOR_STACK_MESSAGE_REWRITE bytes. */
MONITOR_CHECKED
uint32_t monitor_message_rewrite(const uint8_t *message, size_t message_len, uint8_t *out, size_t out_len);

#ifdef __cplusplus
}
#endif

#endif
