#include "calls.h"

#include "seen.h"

#include <stdio.h>
#include <stdlib.h>
#include <string.h>

#define GUARD 32

/* Each buffer with a guard before and behind it. Events and results come last, since a call mostly uses little of them. */
struct side {
    uint8_t image[GUARD + IMAGE_MOST + GUARD];
    uint8_t registers[GUARD + VIEW_MOST + GUARD];
    uint8_t pins[GUARD + VIEW_MOST + GUARD];
    size_t accepted[3]; /* the middle one is lent */
    uint8_t answers[8]; /* what the calls returned */
    uint8_t events[GUARD + LISTED_MOST * AM9519A_EVENT_SIZE + GUARD];
    uint8_t results[GUARD + LISTED_MOST * AM9519A_RESULT_SIZE + GUARD];
};

/* How much of the last two is in use: the guard, what is lent, or what the events would need if that is more, and the other guard. */
static size_t events_used = 2 * GUARD, results_used = 2 * GUARD;

static struct side model;
#ifndef MODEL_ALONE
static struct side library;
#endif

const char *part = "";
unsigned long list_number, list_position;
unsigned long calls, events_accepted;
uint64_t digest = UINT64_C(0xCBF29CE484222325);

/* FNV over words, and a shift so that high bits come down too. */
static void take_word(uint64_t x) {
    digest = (digest ^ x) * UINT64_C(0x100000001B3);
    digest ^= digest >> 32;
}

/* Whole words first: the image of each event passes here. Two digests can be compared if they come from the same byte order. */
static void take(const uint8_t *from, size_t length) {
    uint64_t x;
    for (; length >= sizeof x; from += sizeof x, length -= sizeof x) {
        memcpy(&x, from, sizeof x);
        take_word(x);
    }
    for (; length > 0; length--) take_word(*from++);
}

static void take_answer(uint8_t answer) {
    calls++;
    seen_refusal(answer);
    take_word(answer);
}

#ifndef MODEL_ALONE
static void differs(const char *what, const uint8_t *should, const uint8_t *is, size_t length) {
    unsigned shown = 0;
    for (size_t k = 0; k < length; k++) {
        if (should[k] == is[k]) continue;
        if (shown++ == 8) {
            printf("  and more\n");
            break;
        }
        printf("  %s byte %ld is %02X, should be %02X\n", what, (long)k - GUARD, is[k], should[k]);
    }
}

static void report_and_exit(void) {
    const uint8_t *e = model.events + GUARD;
    printf("against: difference in %s, list %lu, position %lu, call %lu, first event %u %u %u %02X\n", part, list_number, list_position,
           calls, e[0], e[1], e[2], e[3]);
    printf("  (a byte below 0, or past the length that was lent, is a guard)\n");
    for (unsigned k = 0; k < 3; k++)
        if (model.answers[k] != library.answers[k])
            printf("  returned %u, should return %u (%s)\n", library.answers[k], model.answers[k],
                   k == 0 ? "start or run" : k == 1 ? "registers" : "pins");
    for (unsigned k = 0; k < 3; k++)
        if (model.accepted[k] != library.accepted[k])
            printf("  accepted%s is %zu, should be %zu\n", k == 1 ? "" : "'s neighbour", library.accepted[k], model.accepted[k]);
    differs("image", model.image, library.image, sizeof model.image);
    differs("register view", model.registers, library.registers, sizeof model.registers);
    differs("pin view", model.pins, library.pins, sizeof model.pins);
    differs("event", model.events, library.events, events_used);
    differs("result", model.results, library.results, results_used);
    exit(1);
}
#endif

/* After each call, or each few of them. */
static void compare(void) {
#ifndef MODEL_ALONE
    if (memcmp(&model, &library, offsetof(struct side, events)) != 0 || memcmp(model.events, library.events, events_used) != 0 ||
        memcmp(model.results, library.results, results_used) != 0)
        report_and_exit();
#endif
}

/* Other noise for each call, so that no constant written by mistake can pass for it. */
static uint8_t noise(void) { return (uint8_t)(calls * 37 + 11); }

static void lend_to(struct side *to, const uint8_t *events, size_t events_length) {
    uint8_t n = noise();
    memset(to->results, n, results_used);
    memset(to->registers, n, sizeof to->registers);
    memset(to->pins, n, sizeof to->pins);
    for (unsigned k = 0; k < 3; k++) to->accepted[k] = LISTED_MOST + 1 + (size_t)n; /* more than there can be */
    memcpy(to->events + GUARD, events, events_length);
}

static void lend(const uint8_t *events, size_t events_length, size_t results_length) {
    size_t needed = events_length / AM9519A_EVENT_SIZE * AM9519A_RESULT_SIZE;
    events_used = GUARD + events_length + GUARD;
    results_used = GUARD + (results_length > needed ? results_length : needed) + GUARD;
    lend_to(&model, events, events_length);
#ifndef MODEL_ALONE
    lend_to(&library, events, events_length);
#endif
}

static void lend_image_to(struct side *to, const uint8_t image[AM9519A_IMAGE_SIZE]) {
    memset(to->image, noise(), sizeof to->image);
    memcpy(to->image + GUARD, image, AM9519A_IMAGE_SIZE);
}

void lend_image(const uint8_t image[AM9519A_IMAGE_SIZE]) {
    lend_image_to(&model, image);
#ifndef MODEL_ALONE
    lend_image_to(&library, image);
#endif
}

void lend_chain(const struct chain *s) {
    uint8_t image[AM9519A_IMAGE_SIZE];
    model_image(s, image);
    lend_image(image);
}

uint8_t step(struct chain *s, const uint8_t event[4], uint8_t chip, uint8_t result[2]) {
    lend(event, AM9519A_EVENT_SIZE, AM9519A_RESULT_SIZE);
    model.answers[0] =
        model_run(s, model.events + GUARD, AM9519A_EVENT_SIZE, 1, model.results + GUARD, AM9519A_RESULT_SIZE, &model.accepted[1]);
    model.answers[1] = model_registers(s, chip, model.registers + GUARD, AM9519A_REGISTERS_SIZE);
    model.answers[2] = model_pins(s, chip, model.pins + GUARD, AM9519A_PINS_SIZE);
    model_image(s, model.image + GUARD);
#ifndef MODEL_ALONE
    library.answers[0] = am9519a_run(library.image + GUARD, AM9519A_IMAGE_SIZE, library.events + GUARD, AM9519A_EVENT_SIZE, 1,
                                     library.results + GUARD, AM9519A_RESULT_SIZE, &library.accepted[1]);
    library.answers[1] =
        am9519a_registers(library.image + GUARD, AM9519A_IMAGE_SIZE, chip, library.registers + GUARD, AM9519A_REGISTERS_SIZE);
    library.answers[2] = am9519a_pins(library.image + GUARD, AM9519A_IMAGE_SIZE, chip, library.pins + GUARD, AM9519A_PINS_SIZE);
#endif
    for (unsigned k = 0; k < 3; k++) take_answer(model.answers[k]);
    compare();
    events_accepted += model.accepted[1];
    take(model.image + GUARD, AM9519A_IMAGE_SIZE);
    take(model.results + GUARD, AM9519A_RESULT_SIZE);
    take(model.registers + GUARD, AM9519A_REGISTERS_SIZE);
    take(model.pins + GUARD, AM9519A_PINS_SIZE);
    if (model.answers[2] == AM9519A_ACCEPTED) seen_pins(&s->chip[chip], model.pins + GUARD);
    memcpy(result, model.results + GUARD, AM9519A_RESULT_SIZE);
    return model.answers[0];
}

uint8_t start(uint8_t count, uint8_t fill, size_t image_length) {
    struct chain s;
    lend(&fill, 0, 0);
    model.answers[0] = image_length != AM9519A_IMAGE_SIZE ? AM9519A_REFUSED_CHAIN : model_start(&s, count, fill);
    if (model.answers[0] == AM9519A_ACCEPTED) model_image(&s, model.image + GUARD);
#ifndef MODEL_ALONE
    library.answers[0] = am9519a_start(count, fill, library.image + GUARD, image_length);
#endif
    take_answer(model.answers[0]);
    compare();
    take(model.image + GUARD, AM9519A_IMAGE_SIZE);
    return model.answers[0];
}

uint8_t run(size_t image_length, const uint8_t *events, size_t events_length, size_t limit, size_t results_length) {
    struct chain s;
    lend(events, events_length, results_length);
    model.answers[0] = model_read(&s, model.image + GUARD, image_length);
    if (model.answers[0] == AM9519A_ACCEPTED) {
        model.answers[0] =
            model_run(&s, model.events + GUARD, events_length, limit, model.results + GUARD, results_length, &model.accepted[1]);
        model_image(&s, model.image + GUARD);
    }
#ifndef MODEL_ALONE
    library.answers[0] = am9519a_run(library.image + GUARD, image_length, library.events + GUARD, events_length, limit,
                                     library.results + GUARD, results_length, &library.accepted[1]);
#endif
    take_answer(model.answers[0]);
    compare();
    if (model.accepted[1] <= LISTED_MOST) events_accepted += model.accepted[1];
    take_word(model.accepted[1]);
    take(model.image + GUARD, AM9519A_IMAGE_SIZE);
    take(model.results, results_used);
    return model.answers[0];
}

void views(size_t image_length, uint8_t chip, size_t registers_length, size_t pins_length) {
    struct chain s;
    lend(&chip, 0, 0);
    model.answers[1] = model.answers[2] = model_read(&s, model.image + GUARD, image_length);
    if (model.answers[1] == AM9519A_ACCEPTED) {
        model.answers[1] = model_registers(&s, chip, model.registers + GUARD, registers_length);
        model.answers[2] = model_pins(&s, chip, model.pins + GUARD, pins_length);
    }
#ifndef MODEL_ALONE
    library.answers[1] = am9519a_registers(library.image + GUARD, image_length, chip, library.registers + GUARD, registers_length);
    library.answers[2] = am9519a_pins(library.image + GUARD, image_length, chip, library.pins + GUARD, pins_length);
#endif
    take_answer(model.answers[1]);
    take_answer(model.answers[2]);
    compare();
    take(model.registers + GUARD, VIEW_MOST);
    take(model.pins + GUARD, VIEW_MOST);
}
