/* The situations that the random lists have to reach: each is counted, and at the end none may be missing. */
#ifndef SEEN_H
#define SEEN_H

#include "model.h"

#define SITUATIONS(X)                                                                     \
    X(ROLL_OVER, "event number from 65535 to 0")                                          \
    X(STALL, "a stall")                                                                   \
    X(STALL_ENABLE_IN, "a candidate, but Enable In low")                                  \
    X(STALL_DISARMED, "a candidate shut off by a disarmed chip")                          \
    X(LINE_IN_STALL, "a request too late for a stalled pulse")                            \
    X(RISE_AFTER_STALL, "the rise after a stall")                                         \
    X(SECOND_PULSE, "a second pulse")                                                     \
    X(FOURTH_PULSE, "a fourth pulse")                                                     \
    X(POLLED_PASSED, "a polled chip with a candidate passed by")                          \
    X(FENCE, "a request behind the fence")                                                \
    X(FENCE_OF_ANOTHER, "an answer behind a chip with channels in service")               \
    X(ROTATING, "an answer that fixed priority would not give")                           \
    X(COMMON, "an answer of another channel from level 0")                                \
    X(COMMON_LENGTH, "its length unlike that of level 0")                                 \
    X(RESET_IN_RESPONSE, "reset of the chip that responds")                               \
    X(OTHER_RESET_IN_RESPONSE, "reset of another chip meanwhile")                         \
    X(COUNT_IN_RESPONSE, "a new count meanwhile")                                         \
    X(MODE_IN_RESPONSE, "common vector switched meanwhile")                               \
    X(MEMORY_IN_RESPONSE, "a byte to come written meanwhile")                             \
    X(ENABLE_IN_RESPONSE, "Enable In low meanwhile")                                      \
    X(AUTO_CLEAR, "auto clear")                                                           \
    X(NO_AUTO_CLEAR, "the end of a response that stays in service")                       \
    X(CLEAR_HIGHEST_EMPTY, "clear highest with nothing in service")                       \
    X(CLEAR_HIGHEST_ROTATING, "clear highest where fixed priority would clear another")   \
    X(POLARITY, "a new line polarity")                                                    \
    X(LATCH_RISING, "a rising edge latched")                                              \
    X(LATCH_FALLING, "a falling edge latched")                                            \
    X(LATCH_MASKED, "an edge latched though masked")                                      \
    X(LATCH_DISARMED, "an edge latched though disarmed")                                  \
    X(LINE_AWAY, "an edge of the other sense")                                            \
    X(LINE_SAME, "the same level again")                                                  \
    X(LEVEL_FULL, "a fourth byte into a level")                                           \
    X(GINT_BEYOND_ENABLE, "GINT active with EI low")                                      \
    X(MIDDLE_REFUSAL, "a refusal in the middle of a list")                                \
    X(LIMIT_BELOW, "a limit below the listed events")                                     \
    X(LIMIT_BEFORE_REFUSAL, "a limit right before an event to refuse")                    \
    X(LIMIT_ABOVE, "a limit above the listed events")                                     \
    X(DAMAGED_REFUSED, "a damaged image refused")                                         \
    X(DAMAGED_SOUND, "a damaged image that is another sound one")

#define SEEN_NAME(name, words) SEEN_##name,
enum seen { SITUATIONS(SEEN_NAME) SEEN_SITUATIONS };

void seen(enum seen situation);
void seen_refusal(uint8_t refusal);

/* What there is to see in one event, and in the pins after it. */
void seen_event(const struct chain *before, const struct chain *after, const uint8_t event[4]);
void seen_pins(const struct chip *c, const uint8_t pins[AM9519A_PINS_SIZE]);

/* Names what is missing, and tells how much. */
int seen_missing(void);

#endif
