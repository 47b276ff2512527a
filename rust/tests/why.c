/* Two pictures are put; which of them P at 3 takes is asked of the machine and of its image. */
#include <stdio.h>

#include "picman.h"

static picman_machine machine;
static uint8_t image[PICMAN_IMAGE];

int main(void) {
    const uint8_t lists[] = {5, PICMAN_SLICE_P, 0, 0, 0, 3, 0, 0, 0, 0, 0, 2, 0xf4};
    picman_init(&machine, 4, 2);
    for (uint32_t number = 0; number < 8; number += 4) {
        picman_get(&machine);
        picman_put(&machine, PICMAN_REFERENCE, number, 0, 0);
    }
    if (picman_save(&machine, image) != PICMAN_DONE) return 1;
    for (uint8_t slot = 0; slot < 3; slot++) {
        uint8_t reason[PICMAN_REASON] = {0xff, 0xff};
        uint8_t same[PICMAN_REASON] = {0xff, 0xff};
        uint8_t status = picman_why_bytes(&machine, lists, sizeof lists, slot, reason);
        if (picman_image_why(image, lists, sizeof lists, slot, same) != status) return 1;
        if (same[0] != reason[0] || same[1] != reason[1]) return 1;
        printf("%u %u %u %u\n", slot, status, reason[0], reason[1]);
    }
    return 0;
}
