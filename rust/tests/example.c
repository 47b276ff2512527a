/* A store is set up; a picture is leased, put back and handed over; no more is wanted; a bad call is turned down. */
#include <stdio.h>

#include "picman.h"

static picman_machine machine; /* all zero: the new machine */

static void print(const uint8_t line[PICMAN_ANSWER]) {
    for (int i = 0; i < PICMAN_ANSWER; i++) printf("%02x", line[i]);
    printf("\n");
}

/* As an answer line shows it: call, status, buffer, value, and a check byte that makes the sum 0. */
static void show(uint8_t call, picman_answer answer) {
    uint32_t value = PICMAN_VALUE(answer);
    uint8_t line[PICMAN_ANSWER] = {call, PICMAN_STATUS(answer), PICMAN_BUFFER(answer), (uint8_t)(value >> 24),
                                   (uint8_t)(value >> 16), (uint8_t)(value >> 8), (uint8_t)value, 0};
    for (int i = 0; i < 7; i++) line[7] = (uint8_t)(line[7] - line[i]);
    print(line);
}

int main(void) {
    const uint8_t bad[] = {0};
    uint8_t line[PICMAN_ANSWER];
    show(1, picman_init(&machine, 4, 2));
    show(2, picman_get(&machine));
    show(3, picman_put(&machine, PICMAN_IDR | PICMAN_WANTED | PICMAN_REFERENCE, 0, 0, 0));
    show(4, picman_out(&machine));
    show(4, picman_out(&machine));
    if (picman_call_bytes(&machine, bad, sizeof bad, line) == PICMAN_BAD) print(line);
    return 0;
}
