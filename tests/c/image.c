/* The model's chain and the 528 bytes of its image. */
#include "model.h"

#include <string.h>

static void put_chip(const struct chip *c, uint8_t *record) {
    memset(record, 0, AM9519A_RECORD_SIZE);
    record[AM9519A_CHIP_IRR] = c->irr;
    record[AM9519A_CHIP_ISR] = c->isr;
    record[AM9519A_CHIP_IMR] = c->imr;
    record[AM9519A_CHIP_ACR] = c->acr;
    record[AM9519A_CHIP_MODE] = c->mode;
    record[AM9519A_CHIP_COMMAND] = c->command;
    record[AM9519A_CHIP_LINES] = c->lines;
    record[AM9519A_CHIP_POINTER] = c->pointer;
    record[AM9519A_CHIP_DESTINATION] = c->destination;
    record[AM9519A_CHIP_LEVEL] = c->level;
    record[AM9519A_CHIP_PLACE] = c->place;
    memcpy(record + AM9519A_CHIP_CODES, c->code, sizeof c->code);
    memcpy(record + AM9519A_CHIP_MEMORY, c->memory, sizeof c->memory);
}

void model_image(const struct chain *s, uint8_t image[AM9519A_IMAGE_SIZE]) {
    memset(image, 0, AM9519A_HEAD_SIZE);
    image[AM9519A_IMAGE_COUNT] = s->count;
    image[AM9519A_IMAGE_ENABLE_IN] = s->enable_in;
    image[AM9519A_IMAGE_IACK] = s->iack;
    image[AM9519A_IMAGE_EVENT] = (uint8_t)(s->event_number & 0xFF);
    image[AM9519A_IMAGE_EVENT + 1] = (uint8_t)(s->event_number >> 8);
    image[AM9519A_IMAGE_RESPONSE] = s->response.under_way;
    image[AM9519A_IMAGE_RESPONSE_CHIP] = s->response.chip;
    image[AM9519A_IMAGE_RESPONSE_CHANNEL] = s->response.channel;
    image[AM9519A_IMAGE_RESPONSE_LEVEL] = s->response.level;
    image[AM9519A_IMAGE_RESPONSE_LENGTH] = s->response.length;
    image[AM9519A_IMAGE_RESPONSE_DELIVERED] = s->response.delivered;
    for (unsigned i = 0; i < 8; i++) put_chip(&s->chip[i], image + AM9519A_CHIP(i));
}

static int all_zero(const uint8_t *from, const uint8_t *end) {
    unsigned any = 0;
    while (from < end) any |= *from++;
    return any == 0;
}

/* Whether the record is of the form; a code, pointer, level or place too large for a chip is of the form and left to the next check. */
static int get_chip(struct chip *c, const uint8_t *record) {
    c->irr = record[AM9519A_CHIP_IRR];
    c->isr = record[AM9519A_CHIP_ISR];
    c->imr = record[AM9519A_CHIP_IMR];
    c->acr = record[AM9519A_CHIP_ACR];
    c->mode = record[AM9519A_CHIP_MODE];
    c->command = record[AM9519A_CHIP_COMMAND];
    c->lines = record[AM9519A_CHIP_LINES];
    c->pointer = record[AM9519A_CHIP_POINTER];
    c->destination = record[AM9519A_CHIP_DESTINATION];
    c->level = record[AM9519A_CHIP_LEVEL];
    c->place = record[AM9519A_CHIP_PLACE];
    memcpy(c->code, record + AM9519A_CHIP_CODES, sizeof c->code);
    memcpy(c->memory, record + AM9519A_CHIP_MEMORY, sizeof c->memory);
    if (c->destination > AM9519A_DESTINATION_LEVEL) return 0;
    if (c->destination != AM9519A_DESTINATION_LEVEL && (c->level || c->place)) return 0;
    return all_zero(record + AM9519A_CHIP_PLACE + 1, record + AM9519A_CHIP_CODES) &&
           all_zero(record + AM9519A_CHIP_CODES + 8, record + AM9519A_CHIP_MEMORY);
}

static int sound_chip(const struct chip *c) {
    for (unsigned k = 0; k < 8; k++)
        if (c->code[k] > 3) return 0;
    return c->pointer <= 7 && c->level <= 7 && c->place <= 4;
}

static int sound_response(const struct chain *s) {
    const struct response *r = &s->response;
    if (!r->under_way) return 1;
    if (r->chip >= s->count || r->channel > 7 || r->level > 7) return 0;
    if (r->length < 1 || r->length > 4 || r->delivered < 1) return 0;
    /* The rise after the last byte ends a response, so with IACK high there is a byte to come. */
    return s->iack ? r->delivered < r->length : r->delivered <= r->length;
}

uint8_t model_read(struct chain *s, const uint8_t *image, size_t image_length) {
    struct chain got;
    if (image_length != AM9519A_IMAGE_SIZE) return AM9519A_REFUSED_CHAIN;
    got.count = image[AM9519A_IMAGE_COUNT];
    got.enable_in = image[AM9519A_IMAGE_ENABLE_IN];
    got.iack = image[AM9519A_IMAGE_IACK];
    got.event_number = (uint16_t)(image[AM9519A_IMAGE_EVENT] | image[AM9519A_IMAGE_EVENT + 1] << 8);
    got.response.under_way = image[AM9519A_IMAGE_RESPONSE];
    got.response.chip = image[AM9519A_IMAGE_RESPONSE_CHIP];
    got.response.channel = image[AM9519A_IMAGE_RESPONSE_CHANNEL];
    got.response.level = image[AM9519A_IMAGE_RESPONSE_LEVEL];
    got.response.length = image[AM9519A_IMAGE_RESPONSE_LENGTH];
    got.response.delivered = image[AM9519A_IMAGE_RESPONSE_DELIVERED];
    if (got.enable_in > 1 || got.iack > 1 || got.response.under_way > 1) return AM9519A_REFUSED_CHAIN;
    if (!got.response.under_way && !all_zero(image + AM9519A_IMAGE_RESPONSE_CHIP, image + AM9519A_HEAD_SIZE)) return AM9519A_REFUSED_CHAIN;
    if (!all_zero(image + AM9519A_IMAGE_RESPONSE_DELIVERED + 1, image + AM9519A_HEAD_SIZE)) return AM9519A_REFUSED_CHAIN;
    for (unsigned i = 0; i < 8; i++)
        if (!get_chip(&got.chip[i], image + AM9519A_CHIP(i))) return AM9519A_REFUSED_CHAIN;

    if (got.count < 1 || got.count > 8 || !sound_response(&got)) return AM9519A_REFUSED_CHAIN;
    for (unsigned i = 0; i < got.count; i++)
        if (!sound_chip(&got.chip[i])) return AM9519A_REFUSED_CHAIN;
    *s = got;
    return AM9519A_ACCEPTED;
}
