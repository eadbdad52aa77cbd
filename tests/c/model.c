#include "model.h"

#include <string.h>

static unsigned bit(unsigned channel) { return 1u << channel; }
static void set(uint8_t *x, unsigned bits) { *x = (uint8_t)(*x | bits); }
static void clear(uint8_t *x, unsigned bits) { *x = (uint8_t)(*x & ~bits); }

/* The number of a byte's only one. */
static unsigned place_of(unsigned one) { return (one & 0xF0 ? 4u : 0) + (one & 0xCC ? 2u : 0) + (one & 0xAA ? 1u : 0); }

/* The channel that comes first in the order in force. */
static unsigned first_of(const struct chip *c) { return c->mode & M_ROTATING ? (c->pointer + 1u) & 7 : 0; }

/* The register turned so that its lowest bit is the channel that comes first: both orders then are searched from the bottom. */
static unsigned turned(unsigned x, unsigned first) { return (x | x << 8) >> first & 0xFF; }

static unsigned lowest(unsigned x) { return x & (~x + 1); }

unsigned model_candidate(const struct chip *c) {
    if (!(c->mode & M_ARMED)) return NO_CHANNEL;
    unsigned first = first_of(c);
    unsigned one = lowest(turned(c->irr & ~(unsigned)c->imr, first));
    /* 2 * one - 1 is the channel and all before it: one of them in service is the fence. */
    if (one == 0 || (turned(c->isr, first) & (2 * one - 1))) return NO_CHANNEL;
    return (place_of(one) + first) & 7;
}

static void clear_highest_isr(struct chip *c) {
    unsigned first = first_of(c);
    unsigned one = lowest(turned(c->isr, first));
    if (one != 0) clear(&c->isr, bit((place_of(one) + first) & 7));
}

static int responding(const struct chain *s, unsigned i) { return s->response.under_way && s->response.chip == i; }

/* What chip i makes of its EI. */
static unsigned enable_out(const struct chain *s, unsigned i, unsigned ei) {
    return ei && (s->chip[i].mode & M_ARMED) && !responding(s, i);
}

unsigned model_enable_in(const struct chain *s, unsigned i) {
    unsigned level = s->enable_in;
    for (unsigned k = 0; k < i; k++) level = enable_out(s, k, level);
    return level;
}

static unsigned status(const struct chain *s, unsigned i) {
    const struct chip *c = &s->chip[i];
    unsigned channel = model_candidate(c);
    return (channel == NO_CHANNEL ? 0 : 0x80 | channel) | (model_enable_in(s, i) ? 0x40u : 0) | (c->mode & M_ROTATING ? 0x20u : 0) |
           (c->mode & M_POLLED ? 0x10u : 0) | (c->mode & M_ARMED ? 0x08u : 0);
}

/* Reset keeps memory, counts and lines. */
static void reset(struct chip *c) {
    c->irr = c->isr = c->acr = c->mode = c->command = 0;
    c->imr = 0xFF;
    c->pointer = 7;
    c->destination = AM9519A_DESTINATION_NONE;
    c->level = c->place = 0;
}

static int undefined(unsigned code) { return (code >= 0x01 && code <= 0x0F) || (code & 0xF3) == 0xA3 || (code & 0xF0) == 0xD0; }

/* The codes up to 7F: bit 3 tells whether the low bits name one channel or all are meant. */
static void register_command(struct chip *c, unsigned code) {
    unsigned channels = code & 8 ? bit(code & 7) : 0xFF;
    switch (code >> 4) {
    case 1: clear(&c->irr, channels); clear(&c->imr, channels); break;
    case 2: clear(&c->imr, channels); break;
    case 3: set(&c->imr, channels); break;
    case 4: clear(&c->irr, channels); break;
    case 5: set(&c->irr, channels); break;
    case 6: clear_highest_isr(c); break;
    case 7: clear(&c->isr, channels); break;
    }
}

static void mode_command(struct chip *c, unsigned code) {
    if (code < 0xA0) {
        c->mode = (uint8_t)((c->mode & 0xE0) | (code & 0x1F));
        return;
    }
    c->mode = (uint8_t)((c->mode & ~M_READS) | (code & 0x0C) << 3);
    if (code & 1) set(&c->mode, M_ARMED);
    if (code & 2) clear(&c->mode, M_ARMED);
}

static void command(struct chain *s, unsigned i, uint8_t code) {
    struct chip *c = &s->chip[i];
    if (code == 0) {
        reset(c);
        if (responding(s, i)) s->response = (struct response){0};
        return;
    }
    c->command = code;
    c->destination = AM9519A_DESTINATION_NONE;
    c->level = c->place = 0;
    if (code < 0x80) {
        register_command(c, code);
    } else if (code < 0xB0) {
        mode_command(c, code);
    } else if (code < 0xC0) {
        c->destination = AM9519A_DESTINATION_IMR;
    } else if (code < 0xD0) {
        c->destination = AM9519A_DESTINATION_ACR;
    } else {
        c->destination = AM9519A_DESTINATION_LEVEL;
        c->level = code & 7;
        c->code[c->level] = code >> 3 & 3;
    }
}

static uint8_t data_write(struct chip *c, uint8_t value) {
    switch (c->destination) {
    case AM9519A_DESTINATION_IMR: c->imr = value; return AM9519A_ACCEPTED;
    case AM9519A_DESTINATION_ACR: c->acr = value; return AM9519A_ACCEPTED;
    case AM9519A_DESTINATION_LEVEL:
        if (c->place > c->code[c->level]) return AM9519A_REFUSED_PAST_COUNT;
        c->memory[c->level][c->place++] = value;
        return AM9519A_ACCEPTED;
    default: return AM9519A_REFUSED_NO_DESTINATION;
    }
}

static uint8_t data_read(const struct chip *c) {
    switch (c->mode & M_READS) {
    case 0x00: return c->isr;
    case 0x20: return c->imr;
    case 0x40: return c->irr;
    default: return c->acr;
    }
}

/* Only a change latches, and only in the sense of M4; mask and arming do not matter here. */
static void line(struct chip *c, unsigned channel, unsigned level) {
    unsigned was = c->lines >> channel & 1;
    if (level == was) return;
    c->lines ^= (uint8_t)bit(channel);
    if (level == (c->mode & M_RISING ? 1u : 0u)) set(&c->irr, bit(channel));
}

/* Chip i answers with its candidate. Level and length are taken once, for the whole response. */
static void answer(struct chain *s, unsigned i, unsigned channel) {
    struct chip *c = &s->chip[i];
    clear(&c->irr, bit(channel));
    set(&c->isr, bit(channel));
    c->pointer = (uint8_t)channel;
    s->response = (struct response){.under_way = 1,
                                    .chip = (uint8_t)i,
                                    .channel = (uint8_t)channel,
                                    .level = (uint8_t)(c->mode & M_COMMON ? 0 : channel),
                                    .length = (uint8_t)(c->code[channel] + 1)};
}

/* No response is under way, so EO is EI of an armed chip: a disarmed one shuts off all behind it, a polled one is passed by. */
static void first_pulse(struct chain *s) {
    unsigned level = s->enable_in;
    for (unsigned i = 0; i < s->count && level; i++) {
        const struct chip *c = &s->chip[i];
        unsigned channel = c->mode & M_POLLED ? NO_CHANNEL : model_candidate(c);
        if (channel != NO_CHANNEL) {
            answer(s, i, channel);
            return;
        }
        level = c->mode & M_ARMED;
    }
}

static void fall(struct chain *s, uint8_t result[2]) {
    struct response *r = &s->response;
    s->iack = 0;
    if (!r->under_way) first_pulse(s);
    if (!r->under_way) return; /* a stall */
    result[0] = 1;
    result[1] = s->chip[r->chip].memory[r->level][r->delivered++];
}

static void rise(struct chain *s) {
    struct response *r = &s->response;
    s->iack = 1;
    if (!r->under_way || r->delivered < r->length) return;
    struct chip *c = &s->chip[r->chip];
    clear(&c->isr, c->acr & bit(r->channel));
    *r = (struct response){0};
}

uint8_t model_event(struct chain *s, const uint8_t event[4], uint8_t result[2]) {
    uint8_t kind = event[0], i = event[1], channel = event[2], value = event[3];
    uint8_t out[2] = {0, 0}, refusal;
    if (kind < AM9519A_KIND_COMMAND || kind > AM9519A_KIND_RISE) return AM9519A_REFUSED_KIND;
    if (kind <= AM9519A_KIND_LINE && i >= s->count) return AM9519A_REFUSED_CHIP;
    if (kind <= AM9519A_KIND_READ && !s->iack) return AM9519A_REFUSED_BUS_IN_PULSE;
    switch (kind) {
    case AM9519A_KIND_COMMAND:
        if (undefined(value)) return AM9519A_REFUSED_UNDEFINED_COMMAND;
        command(s, i, value);
        break;
    case AM9519A_KIND_DATA:
        refusal = data_write(&s->chip[i], value);
        if (refusal != AM9519A_ACCEPTED) return refusal;
        break;
    case AM9519A_KIND_STATUS:
        out[0] = 1;
        out[1] = (uint8_t)status(s, i);
        break;
    case AM9519A_KIND_READ:
        out[0] = 1;
        out[1] = data_read(&s->chip[i]);
        break;
    case AM9519A_KIND_LINE:
        if (channel > 7) return AM9519A_REFUSED_CHANNEL;
        if (value > 1) return AM9519A_REFUSED_LEVEL;
        line(&s->chip[i], channel, value);
        break;
    case AM9519A_KIND_ENABLE:
        if (value > 1) return AM9519A_REFUSED_LEVEL;
        s->enable_in = value;
        break;
    case AM9519A_KIND_FALL:
        if (!s->iack) return AM9519A_REFUSED_IACK_THERE;
        fall(s, out);
        break;
    case AM9519A_KIND_RISE:
        if (s->iack) return AM9519A_REFUSED_IACK_THERE;
        rise(s);
        break;
    }
    s->event_number++;
    result[0] = out[0];
    result[1] = out[1];
    return AM9519A_ACCEPTED;
}

uint8_t model_run(struct chain *s, const uint8_t *events, size_t events_length, size_t limit, uint8_t *results, size_t results_length,
                  size_t *accepted) {
    size_t listed = events_length / 4, done = 0;
    if (events_length % 4 != 0) return AM9519A_REFUSED_EVENTS_LENGTH;
    if (results_length / 2 < listed) return AM9519A_REFUSED_ROOM;
    uint8_t refusal = AM9519A_ACCEPTED;
    while (done < listed && done < limit) {
        refusal = model_event(s, events + 4 * done, results + 2 * done);
        if (refusal != AM9519A_ACCEPTED) break;
        done++;
    }
    *accepted = done;
    return refusal;
}

static unsigned ones(unsigned x) {
    unsigned n = 0;
    for (; x != 0; x &= x - 1) n++;
    return n;
}

static void put_event_number(const struct chain *s, uint8_t *low) {
    low[0] = (uint8_t)(s->event_number & 0xFF);
    low[1] = (uint8_t)(s->event_number >> 8);
}

uint8_t model_registers(const struct chain *s, uint8_t chip, uint8_t *view, size_t view_length) {
    if (chip >= s->count) return AM9519A_REFUSED_CHIP;
    if (view_length < AM9519A_REGISTERS_SIZE) return AM9519A_REFUSED_ROOM;
    const struct chip *c = &s->chip[chip];
    put_event_number(s, view);
    view[AM9519A_REGISTERS_IRR] = c->irr;
    view[AM9519A_REGISTERS_ISR] = c->isr;
    view[AM9519A_REGISTERS_IMR] = c->imr;
    view[AM9519A_REGISTERS_ACR] = c->acr;
    view[AM9519A_REGISTERS_MODE] = c->mode;
    view[AM9519A_REGISTERS_STATUS] = (uint8_t)status(s, chip);
    view[AM9519A_REGISTERS_WAITING] = (uint8_t)ones(c->irr & ~(unsigned)c->imr);
    return AM9519A_ACCEPTED;
}

static uint8_t gint(const struct chip *c) {
    int active = !(c->mode & M_POLLED) && model_candidate(c) != NO_CHANNEL;
    if (c->mode & M_GINT_HIGH) return active ? 1 : 0;
    return active ? 0 : AM9519A_RELEASED;
}

uint8_t model_pins(const struct chain *s, uint8_t chip, uint8_t *view, size_t view_length) {
    if (chip >= s->count) return AM9519A_REFUSED_CHIP;
    if (view_length < AM9519A_PINS_SIZE) return AM9519A_REFUSED_ROOM;
    unsigned ei = model_enable_in(s, chip);
    put_event_number(s, view);
    view[AM9519A_PINS_EI] = (uint8_t)ei;
    view[AM9519A_PINS_EO] = (uint8_t)enable_out(s, chip, ei);
    view[AM9519A_PINS_GINT] = gint(&s->chip[chip]);
    view[AM9519A_PINS_RIP] = !s->response.under_way;
    view[AM9519A_PINS_PAUSE] = s->iack || s->response.under_way;
    view[AM9519A_PINS_IACK] = s->iack;
    return AM9519A_ACCEPTED;
}

uint8_t model_start(struct chain *s, uint8_t count, uint8_t fill) {
    if (count < 1 || count > 8) return AM9519A_REFUSED_CHAIN;
    struct chip power_up;
    reset(&power_up);
    power_up.lines = 0xFF;
    memset(power_up.code, fill % 4, sizeof power_up.code);
    memset(power_up.memory, fill, sizeof power_up.memory);
    *s = (struct chain){.count = count, .enable_in = 1, .iack = 1};
    for (unsigned i = 0; i < 8; i++) s->chip[i] = power_up;
    return AM9519A_ACCEPTED;
}
