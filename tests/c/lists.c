#include "lists.h"

#include <string.h>

/* splitmix64. */
uint64_t next_random(struct source *r) {
    uint64_t x = r->state += UINT64_C(0x9E3779B97F4A7C15);
    x = (x ^ x >> 30) * UINT64_C(0xBF58476D1CE4E5B9);
    x = (x ^ x >> 27) * UINT64_C(0x94D049BB133111EB);
    return x ^ x >> 31;
}

unsigned below(struct source *r, unsigned n) { return (unsigned)((next_random(r) >> 32) * n >> 32); }

bool chance(struct source *r, unsigned percent) { return below(r, 100) < percent; }

static uint8_t byte(struct source *r) { return (uint8_t)(next_random(r) >> 56); }

/* The byte that is usual, or any. */
static uint8_t mostly(struct source *r, uint8_t usual, unsigned percent) {
    uint8_t other = byte(r);
    return chance(r, percent) ? usual : other;
}

/* Ones in few places. */
static uint8_t sparse(struct source *r) { return byte(r) & byte(r) & byte(r); }

/* Any byte that the form allows, sound or not. */
static void random_record(struct source *r, struct chip *c) {
    uint8_t bytes[sizeof *c];
    for (size_t k = 0; k < sizeof bytes; k++) bytes[k] = byte(r);
    memcpy(c, bytes, sizeof *c);
    c->destination = (uint8_t)below(r, 4);
    if (c->destination != AM9519A_DESTINATION_LEVEL) c->level = c->place = 0;
}

static void random_sound_chip(struct source *r, struct chip *c) {
    random_record(r, c);
    c->irr = chance(r, 50) ? sparse(r) : c->irr;
    c->isr = chance(r, 60) ? 0 : sparse(r);
    c->imr = chance(r, 60) ? sparse(r) : c->imr;
    c->acr = mostly(r, 0xFF, 30);
    if (chance(r, 80)) c->mode = (uint8_t)(c->mode | M_ARMED);
    if (chance(r, 70)) c->mode = (uint8_t)(c->mode & ~M_POLLED);
    c->pointer &= 7;
    if (c->destination == AM9519A_DESTINATION_LEVEL) {
        c->level &= 7;
        c->place = (uint8_t)below(r, 5);
    }
    for (unsigned k = 0; k < 8; k++) c->code[k] &= 3;
}

void random_chain(struct source *r, struct chain *s) {
    memset(s, 0, sizeof *s);
    s->count = (uint8_t)(1 + below(r, 8));
    s->enable_in = chance(r, 85);
    s->iack = chance(r, 60);
    s->event_number = (uint16_t)(chance(r, 50) ? 65535 - below(r, 60) : below(r, 65536));
    for (unsigned i = 0; i < 8; i++) {
        if (i < s->count) random_sound_chip(r, &s->chip[i]);
        else random_record(r, &s->chip[i]);
    }
    if (chance(r, 50)) return;
    unsigned length = 1 + below(r, 4), most = s->iack ? length - 1 : length;
    if (most == 0) return;
    s->response.under_way = 1;
    s->response.chip = (uint8_t)below(r, s->count);
    s->response.channel = (uint8_t)below(r, 8);
    s->response.level = chance(r, 80) ? s->response.channel : (uint8_t)below(r, 8);
    s->response.length = (uint8_t)length;
    s->response.delivered = (uint8_t)(1 + below(r, most));
}

/* Commands in the shares that keep a chain at work: answers need armed chips with requests, no mask and no fence before them. */
static uint8_t random_code(struct source *r) {
    uint8_t low = (uint8_t)below(r, 16);
    switch (below(r, 24)) {
    case 0: case 1: case 2: return (uint8_t)(0xA1 | (low & 0x0C));
    case 3: return (uint8_t)(0xA0 | (low & 0x0C) | (chance(r, 30) ? 2 : 0));
    case 4: case 5: return (uint8_t)(0x20 | low);
    case 6: case 7: case 8: case 9: return (uint8_t)(0x58 | (low & 7));
    case 10: return (uint8_t)(chance(r, 20) ? 0x50 | low : 0x10 | low);
    case 11: case 12: return (uint8_t)(0x60 | low);
    case 13: return (uint8_t)(0x70 | low);
    case 14: return (uint8_t)(0x80 | (low & 0x0B) | (chance(r, 50) ? 0x10 : 0));
    case 15: return (uint8_t)(0x80 | below(r, 32));
    case 16: return (uint8_t)(0x30 | low);
    case 17: return (uint8_t)(0x40 | low);
    case 18: return (uint8_t)(0xB0 | low);
    case 19: return (uint8_t)(0xC0 | low);
    case 20: case 21: return (uint8_t)(0xE0 | below(r, 32));
    case 22: return chance(r, 15) ? 0 : (uint8_t)(0xE0 | below(r, 32));
    default: return byte(r);
    }
}

static uint8_t random_chip(struct source *r, const struct chain *s) {
    return (uint8_t)(chance(r, 1) ? s->count + below(r, 256u - s->count) : below(r, s->count));
}

static void command_event(struct source *r, const struct chain *s, uint8_t event[4]) {
    event[0] = AM9519A_KIND_COMMAND;
    event[1] = random_chip(r, s);
    event[3] = random_code(r);
}

/* Whether this chip waits for data, and its level is not full. */
static bool takes_data(const struct chip *c) {
    return c->destination == AM9519A_DESTINATION_IMR || c->destination == AM9519A_DESTINATION_ACR ||
           (c->destination == AM9519A_DESTINATION_LEVEL && c->place <= c->code[c->level]);
}

/* Mostly to a chip that takes it; if there is none, mostly a command to choose a destination. */
static void data_event(struct source *r, const struct chain *s, uint8_t event[4]) {
    event[0] = AM9519A_KIND_DATA;
    event[1] = random_chip(r, s);
    if (chance(r, 10)) return;
    for (unsigned k = 0, from = below(r, 8); k < s->count; k++) {
        unsigned i = (from + k) % s->count;
        const struct chip *c = &s->chip[i];
        if (!takes_data(c) && (c->destination == AM9519A_DESTINATION_NONE || chance(r, 60))) continue;
        event[1] = (uint8_t)i;
        /* A mask of all ones or an auto clear of none would make the rest of the list idle. */
        if (c->destination == AM9519A_DESTINATION_IMR) event[3] = sparse(r);
        if (c->destination == AM9519A_DESTINATION_ACR) event[3] = mostly(r, 0xFF, 40);
        return;
    }
    event[0] = AM9519A_KIND_COMMAND;
    event[3] = (uint8_t)(0xE0 | below(r, 32));
}

/* Mostly a change, since the same level again does nothing. */
static void line_event(struct source *r, const struct chain *s, uint8_t event[4]) {
    event[0] = AM9519A_KIND_LINE;
    event[1] = random_chip(r, s);
    event[2] = mostly(r, (uint8_t)below(r, 8), 99);
    event[3] = mostly(r, (uint8_t)below(r, 2), 99);
    if (event[1] < s->count && event[2] < 8 && chance(r, 80)) event[3] = !(s->chip[event[1]].lines >> event[2] & 1);
}

static void enable_event(struct source *r, const struct chain *s, uint8_t event[4]) {
    event[0] = AM9519A_KIND_ENABLE;
    event[3] = mostly(r, s->enable_in ? chance(r, 70) : 1, 97);
}

/* What somebody would do who finds the chain idle: Enable In up, a chip armed, unmasked, and out of service. */
static void mend_event(struct source *r, const struct chain *s, uint8_t event[4]) {
    unsigned i = below(r, s->count);
    event[0] = AM9519A_KIND_COMMAND;
    for (unsigned k = 0; k < s->count && s->chip[i].mode & M_ARMED; k++) i = (i + 1) % s->count;
    const struct chip *c = &s->chip[i];
    event[1] = (uint8_t)i;
    if (!s->enable_in) {
        event[0] = AM9519A_KIND_ENABLE;
        event[3] = 1;
    } else if (!(c->mode & M_ARMED)) {
        event[3] = 0xA1;
    } else if (c->imr == 0xFF) {
        event[3] = 0x20;
    } else {
        event[3] = 0x60;
    }
}

static void any_event(struct source *r, const struct chain *s, uint8_t event[4]) {
    unsigned share = below(r, 100);
    if (share < 10) mend_event(r, s, event);
    else if (share < 32) command_event(r, s, event);
    else if (share < 50) data_event(r, s, event);
    else if (share < 72) line_event(r, s, event);
    else if (share < 88) event[0] = AM9519A_KIND_FALL;
    else if (share < 89) event[0] = AM9519A_KIND_RISE;
    else if (share < 92) enable_event(r, s, event);
    else {
        event[0] = share < 97 ? AM9519A_KIND_STATUS : AM9519A_KIND_READ;
        event[1] = random_chip(r, s);
    }
}

/* Between the pulses of a response: what may not touch it, and what ends it. */
static void between_pulses(struct source *r, const struct chain *s, uint8_t event[4]) {
    const struct response *now = &s->response;
    const struct chip *c = &s->chip[now->chip];
    unsigned share = below(r, 100);
    event[0] = AM9519A_KIND_COMMAND;
    event[1] = now->chip;
    if (takes_data(c) && share < 50) {
        event[0] = AM9519A_KIND_DATA;
    } else if (share < 12) {
        event[1] = chance(r, 70) ? now->chip : random_chip(r, s);
        event[3] = 0;
    } else if (share < 60) {
        event[3] = chance(r, 30) ? now->channel : now->level;
        event[3] = (uint8_t)(event[3] | 0xE0 | below(r, 4) << 3);
    } else if (share < 66) {
        event[3] = (uint8_t)(0x80 | ((c->mode & 0x1F) ^ M_COMMON));
    } else if (share < 72) {
        event[0] = AM9519A_KIND_ENABLE;
        event[3] = 0;
    } else {
        any_event(r, s, event);
    }
}

void random_event(struct source *r, const struct chain *s, unsigned position, uint8_t event[4]) {
    static const uint8_t setup[3] = {0x20, 0xC0, 0xA1};
    for (unsigned k = 0; k < 4; k++) event[k] = byte(r);
    unsigned share = below(r, 100);
    if (share < 1) {
        if (chance(r, 50)) event[0] &= 15;
    } else if (!s->iack) {
        if (share < 72) event[0] = AM9519A_KIND_RISE;
        else if (share < 92) line_event(r, s, event);
        else if (share < 96) enable_event(r, s, event);
        else any_event(r, s, event);
    } else if (s->response.under_way) {
        if (share < 70) event[0] = AM9519A_KIND_FALL;
        else between_pulses(r, s, event);
    } else if (position < 3u * s->count && share < 90) {
        event[0] = AM9519A_KIND_COMMAND;
        event[1] = (uint8_t)(position % s->count);
        event[3] = setup[position / s->count];
    } else {
        any_event(r, s, event);
    }
}

void refused_event(struct source *r, const struct chain *s, uint8_t event[4]) {
    struct chain copy;
    uint8_t result[2];
    do {
        for (unsigned k = 0; k < 4; k++) event[k] = byte(r);
        event[0] = (uint8_t)(event[0] % 10);
        event[1] = (uint8_t)(event[1] % (s->count + 1));
        event[2] = (uint8_t)(event[2] % 9);
        copy = *s;
    } while (model_event(&copy, event, result) == AM9519A_ACCEPTED);
}

void accepted_event(struct source *r, struct chain *s, unsigned position, uint8_t event[4]) {
    uint8_t result[2];
    do random_event(r, s, position, event);
    while (model_event(s, event, result) != AM9519A_ACCEPTED);
}
