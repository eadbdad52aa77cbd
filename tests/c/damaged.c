/* Images with one byte changed, and images too short or too long: refused as a whole, or the sound chain that they then hold. */
#include "calls.h"
#include "damaged.h"
#include "lists.h"
#include "seen.h"

#define WHOLE 2 /* this many images have each byte changed to all other values, the rest to a few: first one without a response, then one with */

/* A chain some events away from where random_chain or a start puts it. */
static void worked_chain(struct source *r, struct chain *s) {
    uint8_t count = (uint8_t)(1 + below(r, 8));
    if (chance(r, 50)) random_chain(r, s);
    else model_start(s, count, (uint8_t)below(r, 256));
    for (unsigned k = 0; k < 60; k++) {
        uint8_t event[4], result[2];
        random_event(r, s, k, event);
        model_event(s, event, result);
    }
}

/* What all calls make of these bytes. A start does not read them. */
static void try_image(struct source *r, const uint8_t image[AM9519A_IMAGE_SIZE], const uint8_t events[8]) {
    struct chain s;
    seen(model_read(&s, image, AM9519A_IMAGE_SIZE) == AM9519A_ACCEPTED ? SEEN_DAMAGED_SOUND : SEEN_DAMAGED_REFUSED);
    lend_image(image);
    views(AM9519A_IMAGE_SIZE, (uint8_t)below(r, 9), AM9519A_REGISTERS_SIZE, AM9519A_PINS_SIZE);
    run(AM9519A_IMAGE_SIZE, events, 8, SIZE_MAX, 4);
}

static void other_lengths(const uint8_t image[AM9519A_IMAGE_SIZE], const uint8_t events[8]) {
    static const size_t lengths[] = {0,   1,   2,   15,  16,  17,  79,  80,  81,  263, 264, 463, 464, 511,
                                     512, 520, 524, 525, 526, 527, 529, 530, 531, 532, 536, 540, 543, 544};
    lend_image(image);
    for (unsigned k = 0; k < sizeof lengths / sizeof *lengths; k++) {
        list_position = lengths[k];
        views(lengths[k], 0, AM9519A_REGISTERS_SIZE, AM9519A_PINS_SIZE);
        run(lengths[k], events, 8, SIZE_MAX, 4);
    }
    start(1, 0, 0);
}

void damaged_images(struct source *r, unsigned images) {
    part = "damaged images, the position being the byte or the length";
    for (list_number = 0; list_number < images; list_number++) {
        struct chain s;
        uint8_t image[AM9519A_IMAGE_SIZE], events[8];
        do worked_chain(r, &s);
        while (list_number < WHOLE && s.response.under_way != list_number);
        model_image(&s, image);
        accepted_event(r, &s, 99, events);
        accepted_event(r, &s, 99, events + 4);
        other_lengths(image, events);
        for (list_position = 0; list_position < AM9519A_IMAGE_SIZE; list_position++) {
            uint8_t good = image[list_position];
            unsigned tries = list_number < WHOLE ? 255 : 4;
            for (unsigned k = 0; k < tries; k++) {
                /* A few changes: to both neighbours, since bounds are there, and to any two. */
                unsigned change = k < 2 ? 1 + 254 * k : 1 + below(r, 255);
                image[list_position] = (uint8_t)(good + (list_number < WHOLE ? k + 1 : change));
                try_image(r, image, events);
            }
            image[list_position] = good;
        }
    }
}
