/*
 * The library's calls, each made on two sides: the model's memory and the library's, filled alike before. Afterwards the two must be alike
 * again, to the last byte, guards included: so what a call must not write is checked by the same comparison as what it must.
 *
 * With MODEL_ALONE there is no library, and only the model's side is worked on.
 */
#ifndef CALLS_H
#define CALLS_H

#include "model.h"

#define LISTED_MOST 512 /* events in one call */
#define IMAGE_MOST (AM9519A_IMAGE_SIZE + 16)
#define VIEW_MOST 16

/* Where the driver is, for the report of a difference. */
extern const char *part;
extern unsigned long list_number, list_position;

/* Calls made, events accepted in them, and a digest of everything that the model gave. */
extern unsigned long calls, events_accepted;
extern uint64_t digest;

/* Puts an image into both sides; the bytes past it become noise. */
void lend_image(const uint8_t image[AM9519A_IMAGE_SIZE]);
void lend_chain(const struct chain *s);

/* One event on the lent image, whose chain is s, and both views of a chip after it. */
uint8_t step(struct chain *s, const uint8_t event[4], uint8_t chip, uint8_t result[2]);

/* The calls themselves, on the lent image as far as image_length says. */
uint8_t start(uint8_t count, uint8_t fill, size_t image_length);
uint8_t run(size_t image_length, const uint8_t *events, size_t events_length, size_t limit, size_t results_length);
void views(size_t image_length, uint8_t chip, size_t registers_length, size_t pins_length);

#endif
