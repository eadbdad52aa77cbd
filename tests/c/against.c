/*
 * The proved chain against the plain C model, over random lists of events from a fixed seed.
 *
 * Starts of every fill; lists event by event, with the whole image, the result and the views of all chips compared after each; lists in one call, with
 * limits and lengths that fit and do not; damaged images. The argument, if there is one, is the number of events.
 *
 * Compiled with MODEL_ALONE it makes the same lists and gives the same digest without the library.
 */
#include "calls.h"
#include "damaged.h"
#include "lists.h"
#include "seen.h"

#include <stdio.h>
#include <stdlib.h>

#define EVENTS 2000000

#ifdef MODEL_ALONE
#define FOUND "nothing compared"
#else
#define FOUND "no difference"
#endif

static void starts(void) {
    static const uint8_t counts[] = {0, 1, 2, 3, 4, 5, 6, 7, 8, 9, 16, 128, 255};
    static const size_t lengths[] = {0, 1, 16, AM9519A_IMAGE_SIZE - 1, AM9519A_IMAGE_SIZE + 1, IMAGE_MOST};
    static const uint8_t before[AM9519A_IMAGE_SIZE];
    part = "starts";
    lend_image(before);
    for (list_number = 0; list_number < 256; list_number++) {
        uint8_t fill = (uint8_t)list_number;
        for (list_position = 0; list_position < sizeof counts; list_position++) {
            uint8_t count = counts[list_position];
            if (start(count, fill, AM9519A_IMAGE_SIZE) != AM9519A_ACCEPTED) continue;
            for (unsigned i = 0; i <= count; i++) views(AM9519A_IMAGE_SIZE, (uint8_t)i, AM9519A_REGISTERS_SIZE, AM9519A_PINS_SIZE);
        }
        for (unsigned k = 0; k < sizeof lengths / sizeof *lengths; k++) start(counts[list_number % sizeof counts], fill, lengths[k]);
    }
}

/* A chain to begin a list with, lent to both sides. */
static void begin(struct source *r, struct chain *s) {
    if (chance(r, 60)) {
        uint8_t count = (uint8_t)(1 + below(r, 8)), fill = (uint8_t)list_number;
        start(count, fill, AM9519A_IMAGE_SIZE);
        model_start(s, count, fill);
    } else {
        random_chain(r, s);
        lend_chain(s);
    }
}

/* After each step all chips are shown, and the first one that is not there is asked for. */
static unsigned long event_by_event(struct source *r, unsigned long events) {
    unsigned long done = 0;
    part = "events one by one";
    for (list_number = 0; done < events; list_number++) {
        struct chain s;
        begin(r, &s);
        unsigned long listed = 60 + below(r, 200);
        for (list_position = 0; list_position < listed; list_position++, done++) {
            uint8_t event[4], result[2];
            struct chain before = s;
            random_event(r, &s, (unsigned)list_position, event);
            if (step(&s, event, (uint8_t)(list_position % s.count), result) == AM9519A_ACCEPTED) seen_event(&before, &s, event);
            for (unsigned i = 0; i <= s.count; i++) views(AM9519A_IMAGE_SIZE, (uint8_t)i, AM9519A_REGISTERS_SIZE, AM9519A_PINS_SIZE);
        }
    }
    return done;
}

/* The list on a fresh copy of the chain, and what the run must say by itself. */
static void run_list(const struct chain *from, const uint8_t *events, size_t listed, size_t refused_at, size_t limit) {
    lend_chain(from);
    uint8_t refusal = run(AM9519A_IMAGE_SIZE, events, 4 * listed, limit, 2 * listed);
    if ((refusal != AM9519A_ACCEPTED) != (refused_at < listed && refused_at < limit)) {
        printf("against: list %lu: the model returns %u\n", list_number, refusal);
        exit(1);
    }
    if (refusal != AM9519A_ACCEPTED && refused_at > 0) seen(SEEN_MIDDLE_REFUSAL);
    if (limit < listed) seen(SEEN_LIMIT_BELOW);
    if (limit > listed) seen(SEEN_LIMIT_ABOVE);
    if (limit == refused_at) seen(SEEN_LIMIT_BEFORE_REFUSAL);
}

/* Lists and buffers that are refused before any event: nothing may change, and one image does for all. */
static void refused_lists(struct source *r, const struct chain *from, const uint8_t *events, size_t listed) {
    lend_chain(from);
    size_t odd = 4 * listed + 1 + below(r, 3);
    run(AM9519A_IMAGE_SIZE, events, odd, SIZE_MAX, 2 * listed + 2);
    run(AM9519A_IMAGE_SIZE, events, odd, 0, 0);
    run(AM9519A_IMAGE_SIZE - 1, events, odd, SIZE_MAX, 0);
    run(AM9519A_IMAGE_SIZE + 1, events, 4 * listed, SIZE_MAX, 2 * listed);
    if (listed == 0) return;
    run(AM9519A_IMAGE_SIZE, events, 4 * listed, SIZE_MAX, 2 * listed - 1);
    run(AM9519A_IMAGE_SIZE, events, 4 * listed, 0, 2 * listed - 1);
    run(AM9519A_IMAGE_SIZE, events, 4 * listed, listed / 2, listed);
    run(AM9519A_IMAGE_SIZE, events, 4 * listed, SIZE_MAX, 0);
}

static void view_lengths(struct source *r, const struct chain *from) {
    lend_chain(from);
    for (size_t length = 0; length <= VIEW_MOST; length++) views(AM9519A_IMAGE_SIZE, (uint8_t)below(r, from->count), length, length);
    views(AM9519A_IMAGE_SIZE, from->count, 0, 0);
    views(AM9519A_IMAGE_SIZE, 255, VIEW_MOST, VIEW_MOST);
    views(AM9519A_IMAGE_SIZE - 1, 255, 0, 0);
}

static void lists_in_one_call(struct source *r, unsigned long lists) {
    part = "lists in one call";
    list_position = 0;
    for (list_number = 0; list_number < lists; list_number++) {
        uint8_t events[4 * LISTED_MOST];
        unsigned most = chance(r, 50) ? 16 : LISTED_MOST;
        size_t listed = below(r, most), refused_at = chance(r, 50) ? below(r, most) : LISTED_MOST;
        struct chain from, s;
        begin(r, &from);
        s = from;
        for (size_t k = 0; k <= listed; k++) {
            if (k == refused_at) refused_event(r, &s, events + 4 * k);
            else accepted_event(r, &s, (unsigned)k, events + 4 * k);
        }
        size_t limits[] = {0, 1, below(r, most), refused_at, refused_at + 1, listed, listed + 1, SIZE_MAX};
        for (unsigned k = 0; k < sizeof limits / sizeof *limits; k++) run_list(&from, events, listed, refused_at, limits[k]);
        lend_chain(&from);
        run(AM9519A_IMAGE_SIZE, events, 4 * listed, SIZE_MAX, 2 * listed + 1 + below(r, 2)); /* more room than needed */
        refused_lists(r, &from, events, listed);
        view_lengths(r, &from);
    }
}

int main(int argc, char **argv) {
    struct source r = {9519};
    unsigned long events = argc > 1 ? strtoul(argv[1], NULL, 10) : EVENTS;
    unsigned long lists = events / 100 + 1;
    unsigned images = (unsigned)(events / 50000) + 2;
    starts();
    events = event_by_event(&r, events);
    lists_in_one_call(&r, lists);
    damaged_images(&r, images);
    if (seen_missing() != 0) return 1;
    printf("against: %lu calls: %lu events one by one, %lu lists in one call, every byte of %u images damaged, %lu events accepted: " FOUND
           "\n",
           calls, events, lists, images, events_accepted);
    printf("digest %016llx\n", (unsigned long long)digest);
    return 0;
}
