/*
 * One event as one call, am9519a_event, over random lists from a fixed seed: against the C model, against am9519a_run over a list of the one
 * event, and against one am9519a_run over all that were accepted. Image and result lie between guard bytes, which are compared too. Then
 * each number that the call can give, asked for by itself.
 *
 * Compiled with MODEL_ALONE there is no library, and the model stands in for its run: so the sanitizers see the header's own lines on a
 * processor whose programs cannot be linked with the archive.
 */
#include "lists.h"

#include <stdio.h>
#include <stdlib.h>
#include <string.h>

#define GUARD 32
#define LISTS 1000
#define LISTED_MOST 200

struct lent {
    uint8_t image[GUARD + AM9519A_IMAGE_SIZE + GUARD];
    uint8_t result[GUARD + AM9519A_RESULT_SIZE + GUARD];
};

static unsigned long calls, gave[256];

#ifdef MODEL_ALONE
#define FOUND "the model alone"
uint8_t am9519a_run(uint8_t *image, size_t image_length, const uint8_t *events, size_t events_length, size_t limit, uint8_t *results,
                    size_t results_length, size_t *accepted) {
    struct chain s;
    uint8_t number = model_read(&s, image, image_length);
    if (number != AM9519A_ACCEPTED) return number;
    number = model_run(&s, events, events_length, limit, results, results_length, accepted);
    model_image(&s, image);
    return number;
}
#else
#define FOUND "no difference"
#endif

static void fail(const char *what, const uint8_t event[4], unsigned number) {
    printf("event: call %lu, event %u %u %u %02X, number %u: %s\n", calls, event[0], event[1], event[2], event[3], number, what);
    exit(1);
}

/* Other noise for each call, so that no constant written by mistake can pass for it. */
static void lend(struct lent *to, const uint8_t image[AM9519A_IMAGE_SIZE]) {
    memset(to, (int)(calls * 37 + 11) & 0xFF, sizeof *to);
    memcpy(to->image + GUARD, image, AM9519A_IMAGE_SIZE);
}

/*
 * One event on an image of any bytes, with the result wanted or not. The image becomes what the call leaves, and so does the result, if it
 * is wanted.
 */
static uint8_t once(uint8_t image[AM9519A_IMAGE_SIZE], size_t image_length, const uint8_t event[4], bool wanted, uint8_t result[2]) {
    struct lent should, is, run;
    struct chain s;
    uint8_t driven[AM9519A_RESULT_SIZE];
    size_t accepted = 2;

    lend(&should, image);
    is = run = should;
    uint8_t number = model_read(&s, image, image_length);
    if (number == AM9519A_ACCEPTED) number = model_event(&s, event, driven);
    if (number == AM9519A_ACCEPTED) {
        model_image(&s, should.image + GUARD);
        memcpy(should.result + GUARD, driven, sizeof driven);
    }

    uint8_t by_run = am9519a_run(run.image + GUARD, image_length, event, AM9519A_EVENT_SIZE, SIZE_MAX, run.result + GUARD,
                                 AM9519A_RESULT_SIZE, &accepted);
    uint8_t by_event =
        am9519a_event(is.image + GUARD, image_length, event[0], event[1], event[2], event[3], wanted ? is.result + GUARD : NULL);
    calls++;
    gave[by_event]++;
    if (by_event != number) fail("the model gives another number", event, by_event);
    if (by_event != by_run) fail("am9519a_run gives another number", event, by_event);
    if (memcmp(&run, &should, sizeof run) != 0) fail("am9519a_run leaves other bytes than the model", event, number);
    /* A result that is not wanted is written nowhere. */
    if (!wanted) memset(should.result, should.result[0], sizeof should.result);
    if (memcmp(is.image, should.image, sizeof is.image) != 0) fail("image or guards differ", event, number);
    if (memcmp(is.result, should.result, sizeof is.result) != 0) fail("result or guards differ", event, number);
    memcpy(image, is.image + GUARD, AM9519A_IMAGE_SIZE);
    if (wanted) memcpy(result, is.result + GUARD, AM9519A_RESULT_SIZE);
    return number;
}

/* Some bytes of an image that must not be so: what all calls refuse by 1, whatever the event. */
static void damaged(const uint8_t image[AM9519A_IMAGE_SIZE], const uint8_t event[4]) {
    static const struct {
        size_t at;
        uint8_t value;
    } bytes[] = {{AM9519A_IMAGE_COUNT, 0},
                 {AM9519A_IMAGE_COUNT, 9},
                 {AM9519A_IMAGE_IACK, 2},
                 {AM9519A_HEAD_SIZE - 1, 1},
                 {AM9519A_CHIP(0) + AM9519A_CHIP_POINTER, 8},
                 {AM9519A_CHIP(7) + AM9519A_CHIP_MEMORY - 1, 1}};
    static const size_t lengths[] = {0, 1, AM9519A_IMAGE_SIZE - 1, AM9519A_IMAGE_SIZE + 1};
    uint8_t copy[AM9519A_IMAGE_SIZE], result[2];
    for (unsigned k = 0; k < sizeof bytes / sizeof *bytes; k++) {
        memcpy(copy, image, sizeof copy);
        copy[bytes[k].at] = bytes[k].value;
        if (once(copy, sizeof copy, event, k % 2 == 0, result) != AM9519A_REFUSED_CHAIN) fail("a damaged image was accepted", event, 0);
    }
    for (unsigned k = 0; k < sizeof lengths / sizeof *lengths; k++) {
        memcpy(copy, image, sizeof copy);
        if (once(copy, lengths[k], event, k % 2 == 0, result) != AM9519A_REFUSED_CHAIN) fail("a wrong length was accepted", event, 0);
    }
}

static void lists(struct source *r) {
    for (unsigned list = 0; list < LISTS; list++) {
        struct chain s;
        uint8_t image[AM9519A_IMAGE_SIZE], from[AM9519A_IMAGE_SIZE], events[LISTED_MOST * AM9519A_EVENT_SIZE];
        uint8_t results[LISTED_MOST * AM9519A_RESULT_SIZE], at_once[LISTED_MOST * AM9519A_RESULT_SIZE];
        size_t done = 0, accepted = 0;
        if (chance(r, 50)) random_chain(r, &s);
        else model_start(&s, (uint8_t)(1 + below(r, 8)), (uint8_t)below(r, 256));
        model_image(&s, image);
        memcpy(from, image, sizeof from);
        for (unsigned k = 0; k < LISTED_MOST; k++) {
            uint8_t *event = events + AM9519A_EVENT_SIZE * done, *result = results + AM9519A_RESULT_SIZE * done;
            uint8_t unused[2];
            random_event(r, &s, k, event);
            if (k == 0) damaged(image, event);
            /* Every third result is not wanted; the model then tells what it would have been. */
            bool wanted = k % 3 != 2;
            uint8_t number = once(image, sizeof image, event, wanted, result);
            if (number == AM9519A_ACCEPTED) {
                model_event(&s, event, wanted ? unused : result);
                done++;
            }
        }
        const uint8_t *last = events + AM9519A_EVENT_SIZE * (done > 0 ? done - 1 : 0);
        uint8_t number = am9519a_run(from, sizeof from, events, AM9519A_EVENT_SIZE * done, SIZE_MAX, at_once, sizeof at_once, &accepted);
        if (number != AM9519A_ACCEPTED || accepted != done) fail("one run over the accepted events was refused", last, number);
        if (memcmp(from, image, sizeof from) != 0) fail("one run over the accepted events leaves another image", last, number);
        if (memcmp(results, at_once, AM9519A_RESULT_SIZE * done) != 0) fail("one run over them gives other results", last, number);
    }
}

/* In this order on one chain of two chips: each event with the number that the table of the rules gives it, of several the first. */
static void each_number(void) {
    static const struct {
        uint8_t event[4], number;
    } asked[] = {
        {{0, 255, 255, 255}, AM9519A_REFUSED_KIND},
        {{9, 0, 0, 0}, AM9519A_REFUSED_KIND},
        {{AM9519A_KIND_COMMAND, 2, 0, 0xD0}, AM9519A_REFUSED_CHIP},
        {{AM9519A_KIND_LINE, 2, 8, 2}, AM9519A_REFUSED_CHIP},
        {{AM9519A_KIND_LINE, 1, 8, 2}, AM9519A_REFUSED_CHANNEL},
        {{AM9519A_KIND_LINE, 1, 7, 2}, AM9519A_REFUSED_LEVEL},
        {{AM9519A_KIND_ENABLE, 255, 255, 2}, AM9519A_REFUSED_LEVEL},
        {{AM9519A_KIND_RISE, 255, 255, 255}, AM9519A_REFUSED_IACK_THERE},
        {{AM9519A_KIND_COMMAND, 1, 0, 0x01}, AM9519A_REFUSED_UNDEFINED_COMMAND},
        {{AM9519A_KIND_COMMAND, 1, 0, 0xAF}, AM9519A_REFUSED_UNDEFINED_COMMAND},
        {{AM9519A_KIND_DATA, 1, 0, 0x55}, AM9519A_REFUSED_NO_DESTINATION},
        {{AM9519A_KIND_COMMAND, 1, 0, 0xE3}, AM9519A_ACCEPTED},
        /* An undefined command and a refused write leave the destination, as reads, lines, pulses and other chips' commands do. */
        {{AM9519A_KIND_COMMAND, 1, 0, 0xD0}, AM9519A_REFUSED_UNDEFINED_COMMAND},
        {{AM9519A_KIND_DATA, 1, 0, 0x55}, AM9519A_ACCEPTED},
        {{AM9519A_KIND_STATUS, 1, 0, 0}, AM9519A_ACCEPTED},
        {{AM9519A_KIND_READ, 1, 0, 0}, AM9519A_ACCEPTED},
        {{AM9519A_KIND_LINE, 1, 3, 0}, AM9519A_ACCEPTED},
        {{AM9519A_KIND_COMMAND, 0, 0, 0x00}, AM9519A_ACCEPTED},
        {{AM9519A_KIND_FALL, 0, 0, 0}, AM9519A_ACCEPTED},
        {{AM9519A_KIND_FALL, 0, 0, 0}, AM9519A_REFUSED_IACK_THERE},
        {{AM9519A_KIND_COMMAND, 1, 0, 0xD0}, AM9519A_REFUSED_BUS_IN_PULSE},
        {{AM9519A_KIND_DATA, 0, 0, 0}, AM9519A_REFUSED_BUS_IN_PULSE},
        {{AM9519A_KIND_RISE, 0, 0, 0}, AM9519A_ACCEPTED},
        {{AM9519A_KIND_DATA, 1, 0, 0x66}, AM9519A_REFUSED_PAST_COUNT},
        {{AM9519A_KIND_DATA, 1, 0, 0x66}, AM9519A_REFUSED_PAST_COUNT},
        {{AM9519A_KIND_COMMAND, 1, 0, 0xB0}, AM9519A_ACCEPTED},
        {{AM9519A_KIND_DATA, 1, 0, 0xF7}, AM9519A_ACCEPTED},
        {{AM9519A_KIND_DATA, 1, 0, 0xFF}, AM9519A_ACCEPTED},
        /* Any other command ends it. */
        {{AM9519A_KIND_COMMAND, 1, 0, 0x60}, AM9519A_ACCEPTED},
        {{AM9519A_KIND_DATA, 1, 0, 0xFF}, AM9519A_REFUSED_NO_DESTINATION},
    };
    uint8_t image[AM9519A_IMAGE_SIZE], result[2];
    struct chain s;
    model_start(&s, 2, 0);
    model_image(&s, image);
    for (unsigned k = 0; k < sizeof asked / sizeof *asked; k++) {
        uint8_t number = once(image, sizeof image, asked[k].event, k % 2 == 0, result);
        if (number != asked[k].number) fail("this number was not expected", asked[k].event, number);
    }
}

int main(void) {
    struct source r = {1951};
    lists(&r);
    each_number();
    for (unsigned n = 0; n < 256; n++) {
        bool can = n <= AM9519A_REFUSED_PAST_COUNT || n == AM9519A_REFUSED_KIND;
        if (can != (gave[n] != 0)) {
            printf("event: the number %u was given %lu times\n", n, gave[n]);
            return 1;
        }
    }
    printf("event: %lu calls, each number that there can be: " FOUND "\n", calls);
    return 0;
}
