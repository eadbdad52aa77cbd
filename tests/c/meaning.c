/*
 * The sentence of each number, am9519a_meaning: every number 0 to 255 with every room from 0 to 200 bytes, between guard bytes and over noise,
 * so that what must not be written is seen too.
 *
 * What the sentences say is not told here. With the argument "sentences" they are printed, a line each of number, tab and sentence, the last
 * line for the numbers that nobody hands back: tests/c/run looks for them in the documents.
 */
#include "am9519a.h"

#include <stdio.h>
#include <stdlib.h>
#include <string.h>

#define GUARD 32
#define ROOM_MOST 200

#define KNOWN (AM9519A_REFUSED_KIND + 1) /* 0 to 12 */

struct sentence {
    char text[AM9519A_MEANING_SIZE];
    size_t length;
};

static unsigned long calls;

static void fail(unsigned number, size_t room, const char *what) {
    printf("meaning: number %u, room %zu: %s\n", number, room, what);
    exit(1);
}

/* The sentence in room for all of it. */
static struct sentence whole(unsigned number) {
    struct sentence s = {{0}, 0};
    s.length = am9519a_meaning((uint8_t)number, s.text, sizeof s.text);
    calls++;
    if (s.length == 0) fail(number, sizeof s.text, "no sentence");
    if (s.length > sizeof s.text) fail(number, sizeof s.text, "the sentence is longer than AM9519A_MEANING_SIZE");
    for (size_t k = 0; k < s.length; k++)
        if (s.text[k] < ' ' || s.text[k] > '~') fail(number, sizeof s.text, "not printable ASCII");
    return s;
}

/* The same sentence in so much room: its beginning, its whole length, and nothing else written. */
static void in_room(unsigned number, const struct sentence *s, size_t room, char noise) {
    char should[GUARD + ROOM_MOST + GUARD], is[sizeof should];
    memset(should, noise, sizeof should);
    memset(is, noise, sizeof is);
    memcpy(should + GUARD, s->text, room < s->length ? room : s->length);
    size_t length = am9519a_meaning((uint8_t)number, is + GUARD, room);
    calls++;
    if (length != s->length) fail(number, room, "another length");
    if (memcmp(should, is, sizeof is) != 0) fail(number, room, "not the sentence's beginning, or bytes that are not the sentence's written");
}

static int same(const struct sentence *a, const struct sentence *b) {
    return a->length == b->length && memcmp(a->text, b->text, a->length) == 0;
}

int main(int argc, char **argv) {
    static struct sentence sentences[256];
    for (unsigned n = 0; n < 256; n++) {
        sentences[n] = whole(n);
        /* Two noises, neither of them a byte of a sentence, nor 0, so that a NUL would be seen. */
        for (size_t room = 0; room <= ROOM_MOST; room++) {
            in_room(n, &sentences[n], room, '\x01');
            in_room(n, &sentences[n], room, '\x7F');
        }
    }
    for (unsigned n = 0; n < KNOWN; n++)
        for (unsigned k = n + 1; k <= KNOWN; k++)
            if (same(&sentences[n], &sentences[k])) fail(k, ROOM_MOST, "the sentence of another number");
    for (unsigned n = KNOWN; n < 256; n++)
        if (!same(&sentences[n], &sentences[KNOWN])) fail(n, ROOM_MOST, "not the sentence of all numbers above 12");

    if (argc > 1 && strcmp(argv[1], "sentences") == 0) {
        for (unsigned n = 0; n < KNOWN; n++) printf("%u\t%.*s\n", n, (int)sentences[n].length, sentences[n].text);
        printf("%u to 255\t%.*s\n", KNOWN, (int)sentences[KNOWN].length, sentences[KNOWN].text);
        return 0;
    }
    printf("meaning: %lu calls, no difference\n", calls);
    return 0;
}
