#include "seen.h"

#include <stdio.h>

static unsigned long times[SEEN_SITUATIONS];
static unsigned long refused[AM9519A_REFUSED_KIND + 1];
static unsigned long accepted_kind[AM9519A_KIND_RISE + 1];
static unsigned long answered_by[8], ended_length[5], read_register[4], gint_pin[2][3];

void seen(enum seen situation) { times[situation]++; }

void seen_refusal(uint8_t refusal) { refused[refusal]++; }

static unsigned in_fixed_priority(struct chip c) {
    c.mode = (uint8_t)(c.mode & ~M_ROTATING);
    return model_candidate(&c);
}

static void seen_answer(const struct chain *before, const struct response *r) {
    const struct chip *c = &before->chip[r->chip];
    answered_by[r->chip]++;
    if (in_fixed_priority(*c) != r->channel) seen(SEEN_ROTATING);
    if (r->level != r->channel) {
        seen(SEEN_COMMON);
        if (r->length != c->code[0] + 1) seen(SEEN_COMMON_LENGTH);
    }
    for (unsigned k = 0; k < r->chip; k++) {
        const struct chip *earlier = &before->chip[k];
        if (earlier->mode & M_POLLED && model_candidate(earlier) != NO_CHANNEL) seen(SEEN_POLLED_PASSED);
        if (earlier->isr != 0) seen(SEEN_FENCE_OF_ANOTHER);
    }
}

static void seen_stall(const struct chain *s) {
    seen(SEEN_STALL);
    for (unsigned k = 0; k < s->count; k++) {
        const struct chip *c = &s->chip[k];
        if (c->mode & M_ARMED && c->irr & ~(unsigned)c->imr && model_candidate(c) == NO_CHANNEL) seen(SEEN_FENCE);
        if (c->mode & M_POLLED || model_candidate(c) == NO_CHANNEL) continue;
        seen(s->enable_in ? SEEN_STALL_DISARMED : SEEN_STALL_ENABLE_IN);
    }
}

static void seen_fall(const struct chain *before, const struct chain *after) {
    if (!after->response.under_way) seen_stall(before);
    else if (!before->response.under_way) seen_answer(before, &after->response);
    if (after->response.delivered == 2) seen(SEEN_SECOND_PULSE);
    if (after->response.delivered == 4) seen(SEEN_FOURTH_PULSE);
}

static void seen_rise(const struct chain *before, const struct chain *after) {
    const struct response *r = &before->response;
    if (!r->under_way) seen(SEEN_RISE_AFTER_STALL);
    if (!r->under_way || after->response.under_way) return;
    ended_length[r->length]++;
    if (before->chip[r->chip].isr != after->chip[r->chip].isr) seen(SEEN_AUTO_CLEAR);
    else if (after->chip[r->chip].isr >> r->channel & 1) seen(SEEN_NO_AUTO_CLEAR);
}

static void seen_line(const struct chain *before, const struct chain *after, unsigned i, unsigned channel) {
    const struct chip *was = &before->chip[i], *is = &after->chip[i];
    if (was->lines == is->lines) {
        seen(SEEN_LINE_SAME);
        return;
    }
    unsigned rising = is->lines >> channel & 1;
    if (rising != (is->mode & M_RISING ? 1u : 0u)) {
        seen(SEEN_LINE_AWAY);
        return;
    }
    if (was->irr == is->irr) return;
    seen(rising ? SEEN_LATCH_RISING : SEEN_LATCH_FALLING);
    if (is->imr >> channel & 1) seen(SEEN_LATCH_MASKED);
    if (!(is->mode & M_ARMED)) seen(SEEN_LATCH_DISARMED);
    if (!after->iack && !after->response.under_way && model_enable_in(after, i) && !(is->mode & M_POLLED) && model_candidate(is) == channel)
        seen(SEEN_LINE_IN_STALL);
}

static void seen_command(const struct chain *before, const struct chain *after, unsigned i, unsigned code) {
    const struct chip *was = &before->chip[i], *is = &after->chip[i];
    const struct response *r = &before->response;
    if (r->under_way && code == 0) seen(r->chip == i ? SEEN_RESET_IN_RESPONSE : SEEN_OTHER_RESET_IN_RESPONSE);
    if (r->under_way && r->chip == i && code >= 0xE0 && is->code[r->channel] + 1 != r->length) seen(SEEN_COUNT_IN_RESPONSE);
    if (r->under_way && r->chip == i && code >= 0x80 && (was->mode ^ is->mode) & M_COMMON) seen(SEEN_MODE_IN_RESPONSE);
    if (code >= 0x80 && (was->mode ^ is->mode) & M_RISING) seen(SEEN_POLARITY);
    if (code >> 4 == 6 && was->isr == 0) seen(SEEN_CLEAR_HIGHEST_EMPTY);
    /* In fixed priority the lowest one would have gone. */
    if (code >> 4 == 6 && is->isr != (was->isr & (was->isr - 1))) seen(SEEN_CLEAR_HIGHEST_ROTATING);
}

static void seen_data(const struct chain *before, const struct chain *after, unsigned i) {
    const struct chip *was = &before->chip[i], *is = &after->chip[i];
    const struct response *r = &before->response;
    if (was->destination != AM9519A_DESTINATION_LEVEL) return;
    if (is->place == 4) seen(SEEN_LEVEL_FULL);
    if (r->under_way && r->chip == i && r->level == was->level && was->place >= r->delivered && was->place < r->length)
        seen(SEEN_MEMORY_IN_RESPONSE);
}

void seen_event(const struct chain *before, const struct chain *after, const uint8_t event[4]) {
    accepted_kind[event[0]]++;
    if (after->event_number == 0) seen(SEEN_ROLL_OVER);
    switch (event[0]) {
    case AM9519A_KIND_COMMAND: seen_command(before, after, event[1], event[3]); break;
    case AM9519A_KIND_DATA: seen_data(before, after, event[1]); break;
    case AM9519A_KIND_READ: read_register[before->chip[event[1]].mode >> 5 & 3]++; break;
    case AM9519A_KIND_LINE: seen_line(before, after, event[1], event[2]); break;
    case AM9519A_KIND_FALL:
        if (before->response.under_way && !before->enable_in) seen(SEEN_ENABLE_IN_RESPONSE);
        seen_fall(before, after);
        break;
    case AM9519A_KIND_RISE: seen_rise(before, after); break;
    }
}

void seen_pins(const struct chip *c, const uint8_t pins[AM9519A_PINS_SIZE]) {
    unsigned high = c->mode & M_GINT_HIGH ? 1 : 0, pin = pins[AM9519A_PINS_GINT];
    gint_pin[high][pin]++;
    if (pin == high && !pins[AM9519A_PINS_EI]) seen(SEEN_GINT_BEYOND_ENABLE);
}

static int missing(unsigned long n, const char *what, unsigned which) {
    if (n != 0) return 0;
    printf("against: never seen: %s %u\n", what, which);
    return 1;
}

int seen_missing(void) {
#define SEEN_WORDS(name, words) words,
    static const char *const words[] = {SITUATIONS(SEEN_WORDS)};
    int n = 0;
    for (unsigned k = 0; k < SEEN_SITUATIONS; k++) {
        if (times[k] != 0) continue;
        printf("against: never seen: %s\n", words[k]);
        n++;
    }
    for (unsigned k = 0; k <= AM9519A_REFUSED_KIND; k++) n += missing(refused[k], "number handed back", k);
    for (unsigned k = 1; k <= AM9519A_KIND_RISE; k++) n += missing(accepted_kind[k], "accepted event of kind", k);
    for (unsigned k = 0; k < 8; k++) n += missing(answered_by[k], "answer by chip", k);
    for (unsigned k = 1; k <= 4; k++) n += missing(ended_length[k], "response to its end, of length", k);
    for (unsigned k = 0; k < 4; k++) n += missing(read_register[k], "data read with M6 M5", k);
    n += missing(gint_pin[0][0], "active low GINT pin", 0) + missing(gint_pin[0][2], "active low GINT pin", 2);
    n += missing(gint_pin[1][0], "active high GINT pin", 0) + missing(gint_pin[1][1], "active high GINT pin", 1);
    return n;
}
