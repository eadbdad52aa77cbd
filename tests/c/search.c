/*
 * The proved candidate search against a plain C computation, written from the rules paper and not from the definitions.
 *
 * First every pointer 0 to 255 with every IRR, and 1,024 choices of IMR, ISR and mode for each pair, so spread that all 16,777,216 choices
 * are used, four times each. Then the pointers 0 to 7 of an armed chip in both orders, with every IRR, IMR and ISR.
 */
#include "am9519a.h"

#include <stdint.h>
#include <stdio.h>

/* Channel k stands in this register. */
static int has(unsigned x, int k) { return (x >> k & 1) != 0; }

/* Walks the priority order once: a request before the first in-service channel is the candidate. */
static unsigned expected(unsigned irr, unsigned imr, unsigned isr, unsigned mode, unsigned pointer) {
    if (pointer > 7) return AM9519A_POINTER_ABOVE_7;
    if (!has(mode, 7)) return AM9519A_NO_CANDIDATE;
    int first = has(mode, 0) ? (int)pointer + 1 : 0;
    for (int i = 0; i < 8; i++) {
        int k = (first + i) % 8;
        if (has(isr, k)) return AM9519A_NO_CANDIDATE;
        if (has(irr, k) && !has(imr, k)) return (unsigned)k;
    }
    return AM9519A_NO_CANDIDATE;
}

/* How many calls gave each answer, and how many were made. */
static unsigned long gave[256], calls;

static int differs(unsigned irr, unsigned imr, unsigned isr, unsigned mode, unsigned pointer) {
    unsigned want = expected(irr, imr, isr, mode, pointer);
    unsigned got = am9519a_candidate((uint8_t)irr, (uint8_t)imr, (uint8_t)isr, (uint8_t)mode, (uint8_t)pointer);
    calls++;
    gave[got]++;
    if (got == want) return 0;
    printf("search: IRR %02X IMR %02X ISR %02X mode %02X pointer %u: %u, should be %u\n", irr, imr, isr, mode, pointer, got, want);
    return 1;
}

int main(void) {
    /* The header's examples. */
    if (am9519a_candidate(0x25, 0x01, 0x20, 0x80, 7) != 2 || am9519a_candidate(0x25, 0x01, 0x20, 0x81, 2) != 255 ||
        am9519a_candidate(0x25, 0x01, 0x20, 0x80, 8) != 254) {
        printf("search: an example of the header does not hold\n");
        return 1;
    }
    for (uint32_t k = 0; k < UINT32_C(1) << 26; k++) {
        uint32_t pair = k >> 10, rest = k * UINT32_C(0x9E3779B1) & 0xFFFFFF;
        if (differs(pair & 0xFF, rest & 0xFF, rest >> 8 & 0xFF, rest >> 16, pair >> 8)) return 1;
    }
    for (uint32_t k = 0; k < UINT32_C(1) << 28; k++) {
        uint32_t rotating = k >> 24 & 1, others = k * UINT32_C(0x9E3779B1) >> 25 & 0x7E;
        if (differs(k & 0xFF, k >> 8 & 0xFF, k >> 16 & 0xFF, 0x80 | others | rotating, k >> 25)) return 1;
    }
    /* Every answer was seen. */
    for (unsigned a = 0; a < 256; a++) {
        if ((gave[a] != 0) != (a < 8 || a == AM9519A_POINTER_ABOVE_7 || a == AM9519A_NO_CANDIDATE)) {
            printf("search: the answer %u was given %lu times\n", a, gave[a]);
            return 1;
        }
    }
    printf("search: %lu calls, no difference\n", calls);
    return 0;
}
