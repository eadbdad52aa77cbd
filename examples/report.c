/*
 * The picture and the table of one state, for a chain of two chips.
 *
 * Chip 1 has its channel 5 requested and unmasked, and drives the first byte of its response: IACK is low, RIP is low. A status read is
 * then refused, and what is printed says why.
 */
#include "am9519a.h"

#include <stdint.h>
#include <stdio.h>

#define CHIPS 2

static const uint8_t events[] = {
    /* kind, chip, channel, value */
    AM9519A_KIND_COMMAND, 0, 0, 0xA1, /* arm chip 0: it lets Enable In pass */
    AM9519A_KIND_COMMAND, 1, 0, 0xFD, /* chip 1: channel 5 answers with four bytes */
    AM9519A_KIND_DATA,    1, 0, 0xCD, /* the first of them */
    AM9519A_KIND_COMMAND, 1, 0, 0x2D, /* unmask channel 5 */
    AM9519A_KIND_COMMAND, 1, 0, 0xA1, /* arm chip 1 */
    AM9519A_KIND_LINE,    1, 5, 0,    /* IREQ5 falls: a request */
    AM9519A_KIND_FALL,    0, 0, 0,    /* the first pulse */
};
#define LISTED (sizeof events / AM9519A_EVENT_SIZE)

/* Tells of a refusal, in words too, and whether there was one. */
static int refused(const char *call, uint8_t number) {
    char text[AM9519A_MEANING_SIZE];
    if (number == AM9519A_ACCEPTED) return 0;
    size_t length = am9519a_meaning(number, text, sizeof text);
    printf("%s refused %u: %.*s\n", call, number, (int)length, text);
    return 1;
}

static unsigned number_at(const uint8_t *low) { return low[0] + 256u * low[1]; }

static int print_pins(const uint8_t *image, uint8_t chip) {
    uint8_t pins[AM9519A_PINS_SIZE];
    if (refused("pins", am9519a_pins(image, AM9519A_IMAGE_SIZE, chip, pins, sizeof pins))) return 1;
    printf("pins %u chip %u EI %u EO %u GINT %c RIP %u PAUSE %u IACK %u\n", number_at(pins + AM9519A_PINS_EVENT), chip,
           pins[AM9519A_PINS_EI], pins[AM9519A_PINS_EO], "01z"[pins[AM9519A_PINS_GINT]], pins[AM9519A_PINS_RIP],
           pins[AM9519A_PINS_PAUSE], pins[AM9519A_PINS_IACK]);
    return 0;
}

static int print_registers(const uint8_t *image, uint8_t chip) {
    uint8_t view[AM9519A_REGISTERS_SIZE];
    if (refused("registers", am9519a_registers(image, AM9519A_IMAGE_SIZE, chip, view, sizeof view))) return 1;
    printf("registers %u chip %u IRR %02X ISR %02X IMR %02X ACR %02X MODE %02X STATUS %02X WAITING %u\n",
           number_at(view + AM9519A_REGISTERS_EVENT), chip, view[AM9519A_REGISTERS_IRR], view[AM9519A_REGISTERS_ISR],
           view[AM9519A_REGISTERS_IMR], view[AM9519A_REGISTERS_ACR], view[AM9519A_REGISTERS_MODE], view[AM9519A_REGISTERS_STATUS],
           view[AM9519A_REGISTERS_WAITING]);
    return 0;
}

int main(void) {
    uint8_t image[AM9519A_IMAGE_SIZE], results[LISTED * AM9519A_RESULT_SIZE];
    /* A refusal of the image, the lengths or the room comes before any event, and leaves this as it is. */
    size_t accepted = 0;

    if (refused("start", am9519a_start(CHIPS, 0, image, sizeof image))) return 1;
    if (refused("run", am9519a_run(image, sizeof image, events, sizeof events, SIZE_MAX, results, sizeof results, &accepted))) {
        printf("%zu events were accepted\n", accepted);
        return 1;
    }
    for (size_t k = 0; k < accepted; k++)
        if (results[2 * k]) printf("event %zu byte %02X\n", k + 1, results[2 * k + 1]);
    for (uint8_t chip = 0; chip < CHIPS; chip++)
        if (print_pins(image, chip) || print_registers(image, chip)) return 1;
    /* One event as one call: no bus access while IACK is low. Image and result stay as they were. */
    uint8_t status[AM9519A_RESULT_SIZE];
    if (!refused("status", am9519a_event(image, sizeof image, AM9519A_KIND_STATUS, 1, 0, 0, status))) return 1;
    return 0;
}
