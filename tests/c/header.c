/*
 * The header by itself, and twice, in each language that it is for: tests/c/run compiles this as C and as C++ with all warnings as errors.
 * There is nothing to run.
 */
#include "am9519a.h"
#include "am9519a.h"

/* Head and records are the whole image: otherwise this array has no size. */
typedef char whole[AM9519A_CHIP(8) == AM9519A_IMAGE_SIZE ? 1 : -1];

size_t each_call(uint8_t *image, char *text);

size_t each_call(uint8_t *image, char *text) {
    static const uint8_t events[2 * AM9519A_EVENT_SIZE] = {AM9519A_KIND_ENABLE, 0, 0, 1, AM9519A_KIND_FALL, 0, 0, 0};
    uint8_t results[2 * AM9519A_RESULT_SIZE], registers[AM9519A_REGISTERS_SIZE], pins[AM9519A_PINS_SIZE];
    size_t accepted = 0;
    uint8_t number = am9519a_start(8, 0, image, AM9519A_IMAGE_SIZE);
    if (number != AM9519A_ACCEPTED) return am9519a_meaning(number, text, AM9519A_MEANING_SIZE);
    number = am9519a_run(image, AM9519A_IMAGE_SIZE, events, sizeof events, SIZE_MAX, results, sizeof results, &accepted);
    if (number == AM9519A_ACCEPTED) number = am9519a_event(image, AM9519A_IMAGE_SIZE, AM9519A_KIND_RISE, 0, 0, 0, NULL);
    if (number == AM9519A_ACCEPTED) number = am9519a_event(image, AM9519A_IMAGE_SIZE, AM9519A_KIND_STATUS, 7, 0, 0, results);
    if (number == AM9519A_ACCEPTED) number = am9519a_registers(image, AM9519A_IMAGE_SIZE, 0, registers, sizeof registers);
    if (number == AM9519A_ACCEPTED) number = am9519a_pins(image, AM9519A_IMAGE_SIZE, 0, pins, sizeof pins);
    if (number != AM9519A_ACCEPTED) return am9519a_meaning(number, text, AM9519A_MEANING_SIZE);
    return am9519a_candidate(registers[AM9519A_REGISTERS_IRR], registers[AM9519A_REGISTERS_IMR], registers[AM9519A_REGISTERS_ISR],
                             registers[AM9519A_REGISTERS_MODE], image[AM9519A_CHIP(0) + AM9519A_CHIP_POINTER]);
}
