/*
 * A chain of 1 to 8 Am9519A chips in plain C, written from the rules paper and, for the command codes, Figure 4 of the sheet. The state changes
 * where it stands, as a C programmer would have it. It shares nothing with the proved library but the constants of am9519a.h.
 *
 * A struct chain is always sound: it comes from model_start or model_read, which make no other, and no event makes one unsound.
 */
#ifndef MODEL_H
#define MODEL_H

#include "am9519a.h"

#include <stddef.h>
#include <stdint.h>

/* The mode register's bits. */
#define M_ROTATING 0x01u
#define M_COMMON 0x02u
#define M_POLLED 0x04u
#define M_GINT_HIGH 0x08u
#define M_RISING 0x10u
#define M_READS 0x60u
#define M_ARMED 0x80u

#define NO_CHANNEL 8u

struct chip {
    uint8_t irr, isr, imr, acr, mode, command;
    uint8_t lines;        /* bit k: the level of IREQk */
    uint8_t pointer;      /* the channel answered last */
    uint8_t destination;  /* of data writes, AM9519A_DESTINATION_ */
    uint8_t level, place; /* of that destination, 0 unless it is a level */
    uint8_t code[8];      /* the byte count less one, by level */
    uint8_t memory[8][4];
};

struct response {
    uint8_t under_way; /* 0: no response, and the rest is 0 */
    uint8_t chip, channel, level, length, delivered;
};

struct chain {
    uint8_t count, enable_in, iack;
    uint16_t event_number;
    struct response response;
    struct chip chip[8]; /* those past the count are kept as they are, and never looked at */
};

/* Each call below hands back the refusal's number, 0 if there is none; a refused one writes nothing. */

uint8_t model_start(struct chain *s, uint8_t count, uint8_t fill);

/* One event of four bytes. The result gets 1 and the byte driven or read, or 0 and 0. */
uint8_t model_event(struct chain *s, const uint8_t event[4], uint8_t result[2]);

/* Events up to the limit, the end or the first refusal, which keeps what was accepted before it. */
uint8_t model_run(struct chain *s, const uint8_t *events, size_t events_length, size_t limit, uint8_t *results, size_t results_length,
                  size_t *accepted);

uint8_t model_registers(const struct chain *s, uint8_t chip, uint8_t *view, size_t view_length);
uint8_t model_pins(const struct chain *s, uint8_t chip, uint8_t *view, size_t view_length);

/* The chain from its image: refused if it has another length or form, or is not sound. */
uint8_t model_read(struct chain *s, const uint8_t *image, size_t image_length);

void model_image(const struct chain *s, uint8_t image[AM9519A_IMAGE_SIZE]);

/* The chip's candidate, NO_CHANNEL if it has none; the EI level of chip i. */
unsigned model_candidate(const struct chip *c);
unsigned model_enable_in(const struct chain *s, unsigned i);

#endif
