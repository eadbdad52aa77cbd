/*
 * The proved run and the C model's run over the same long list of events, in turns within one process.
 *
 * Both do the same job: the image is looked through, every event gets its verdict and its two result bytes, and the image is then that of the
 * chain after the last event: the model writes it back, the proved run has changed it where it lies.
 * Times are per event and the median of the rounds. The argument, if there is one, is the number of rounds.
 */
#include "lists.h"

#include <stdio.h>
#include <stdlib.h>
#include <string.h>
#include <time.h>

#define LISTED 200000u
#define ROUNDS_MOST 99u

static uint8_t events[LISTED * AM9519A_EVENT_SIZE];

struct side {
    uint8_t image[AM9519A_IMAGE_SIZE];
    uint8_t results[LISTED * AM9519A_RESULT_SIZE];
    size_t accepted;
    uint8_t answer;
    double time[ROUNDS_MOST]; /* ns per event */
};
static struct side proved, model;

static void make(uint8_t event[4], unsigned kind, unsigned chip, unsigned channel, unsigned value) {
    event[0] = (uint8_t)kind;
    event[1] = (uint8_t)chip;
    event[2] = (uint8_t)channel;
    event[3] = (uint8_t)value;
}

/* Each chip: mode, auto clear of half the channels, a response of its own for each level, unmasked, armed. */
static unsigned set_up(struct source *r, unsigned chips, uint8_t *list) {
    unsigned n = 0;
    for (unsigned i = 0; i < chips; i++) {
        make(list + 4 * n++, AM9519A_KIND_COMMAND, i, 0, 0x80 | (i & 1)); /* every other chip rotates */
        make(list + 4 * n++, AM9519A_KIND_COMMAND, i, 0, 0xC0);
        make(list + 4 * n++, AM9519A_KIND_DATA, i, 0, 0xAA);
        for (unsigned level = 0; level < 8; level++) {
            unsigned code = level & 3;
            make(list + 4 * n++, AM9519A_KIND_COMMAND, i, 0, 0xE0 | code << 3 | level);
            for (unsigned place = 0; place <= code; place++) make(list + 4 * n++, AM9519A_KIND_DATA, i, 0, below(r, 256));
        }
        make(list + 4 * n++, AM9519A_KIND_COMMAND, i, 0, 0x20);
        make(list + 4 * n++, AM9519A_KIND_COMMAND, i, 0, 0xA1);
    }
    return n;
}

/* Whether a chip asks for a pulse. */
static bool asks(const struct chain *s) {
    for (unsigned i = 0; i < s->count; i++)
        if (model_candidate(&s->chip[i]) != NO_CHANNEL) return true;
    return false;
}

/* A board at work: lines move, requests are answered to the end, services end, and now and then a mask or Enable In changes. */
static void work(struct source *r, const struct chain *s, uint8_t event[4]) {
    unsigned share = below(r, 100), i = below(r, s->count), channel = below(r, 8);
    const struct chip *c = &s->chip[i];
    if (!s->iack && share < 90) make(event, AM9519A_KIND_RISE, 0, 0, 0);
    else if (s->iack && s->response.under_way) make(event, AM9519A_KIND_FALL, 0, 0, 0);
    else if (!s->iack || share < 40) make(event, AM9519A_KIND_LINE, i, channel, ~(unsigned)c->lines >> channel & 1);
    else if (!s->enable_in) make(event, AM9519A_KIND_ENABLE, 0, 0, 1);
    else if (share < 41) make(event, AM9519A_KIND_ENABLE, 0, 0, 0);
    else if (share < 70 && asks(s)) make(event, AM9519A_KIND_FALL, 0, 0, 0);
    else if (share < 74 && c->destination == AM9519A_DESTINATION_IMR) make(event, AM9519A_KIND_DATA, i, 0, 1u << channel);
    else if (share < 74) make(event, AM9519A_KIND_COMMAND, i, 0, 0xB0); /* a new mask is to follow */
    else if (share < 80) make(event, AM9519A_KIND_STATUS, i, 0, 0);
    else if (share < 86) make(event, AM9519A_KIND_READ, i, 0, 0);
    else if (share < 96) make(event, AM9519A_KIND_COMMAND, i, 0, 0x60); /* the service is over */
    else make(event, AM9519A_KIND_COMMAND, i, 0, (channel & 1 ? 0x28 : 0x38) | channel);
}

/* The list for so many chips; the model vouches that nothing in it is refused, and that every kind occurs. */
static int make_list(unsigned chips) {
    struct source r = {chips};
    struct chain s;
    unsigned kinds[AM9519A_KIND_RISE + 1] = {0}, n = set_up(&r, chips, events);
    uint8_t result[2];
    if (model_start(&s, (uint8_t)chips, 0) != AM9519A_ACCEPTED) return 1;
    for (unsigned k = 0; k < LISTED; k++) {
        uint8_t *event = events + 4 * k;
        if (k >= n) work(&r, &s, event);
        if (model_event(&s, event, result) != AM9519A_ACCEPTED) return 1;
        kinds[event[0]]++;
    }
    for (unsigned k = AM9519A_KIND_COMMAND; k <= AM9519A_KIND_RISE; k++)
        if (kinds[k] == 0) return 1;
    return 0;
}

static uint8_t model_call(struct side *m) {
    struct chain s;
    uint8_t refusal = model_read(&s, m->image, sizeof m->image);
    if (refusal != AM9519A_ACCEPTED) return refusal;
    refusal = model_run(&s, events, sizeof events, SIZE_MAX, m->results, sizeof m->results, &m->accepted);
    model_image(&s, m->image);
    return refusal;
}

static uint8_t proved_call(struct side *p) {
    return am9519a_run(p->image, sizeof p->image, events, sizeof events, SIZE_MAX, p->results, sizeof p->results, &p->accepted);
}

static double now(void) {
    struct timespec t;
    timespec_get(&t, TIME_UTC);
    return (double)t.tv_sec * 1e9 + (double)t.tv_nsec;
}

static void timed(struct side *side, uint8_t (*call)(struct side *), unsigned chips, unsigned round) {
    am9519a_start((uint8_t)chips, 0, side->image, sizeof side->image);
    double from = now();
    side->answer = call(side);
    side->time[round] = (now() - from) / LISTED;
}

static int ascending(const void *a, const void *b) {
    double x = *(const double *)a, y = *(const double *)b;
    return (x > y) - (x < y);
}

static double median(double *time, unsigned rounds) {
    qsort(time, rounds, sizeof *time, ascending);
    return time[rounds / 2];
}

static bool same_outcome(void) {
    return proved.answer == AM9519A_ACCEPTED && model.answer == AM9519A_ACCEPTED && proved.accepted == LISTED && model.accepted == LISTED &&
           memcmp(proved.image, model.image, sizeof model.image) == 0 && memcmp(proved.results, model.results, sizeof model.results) == 0;
}

int main(int argc, char **argv) {
    static const unsigned chains[] = {1, 3, 8};
    unsigned long rounds = argc > 1 ? strtoul(argv[1], NULL, 10) : 11;
    if (rounds < 1 || rounds > ROUNDS_MOST) {
        printf("bench: the number of rounds is 1 to %u\n", ROUNDS_MOST);
        return 1;
    }
    for (unsigned c = 0; c < sizeof chains / sizeof *chains; c++) {
        unsigned chips = chains[c];
        if (make_list(chips) != 0) {
            printf("%u chips: no list without a refusal\n", chips);
            return 1;
        }
        for (unsigned round = 0; round < rounds; round++) {
            /* They take turns at going first. */
            if (round % 2 == 0) timed(&proved, proved_call, chips, round);
            timed(&model, model_call, chips, round);
            if (round % 2 == 1) timed(&proved, proved_call, chips, round);
            if (!same_outcome()) {
                printf("%u chips: the two differ\n", chips);
                return 1;
            }
        }
        double p = median(proved.time, (unsigned)rounds), m = median(model.time, (unsigned)rounds);
        printf("%u chips: proved %.1f ns/event, C model %.1f ns/event, ratio %.2f\n", chips, p, m, p / m);
    }
    return 0;
}
