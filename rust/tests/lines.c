/* A get is written into enough room and into too little; then a buffer of answer lines is read to its end. */
#include <stdio.h>
#include <string.h>

#include "picman.h"

static void write_get(size_t room) {
    const uint8_t get[] = {2};
    uint8_t line[PICMAN_LONGEST_LINE] = {0};
    picman_written written = picman_write_call(get, sizeof get, line, room);
    printf("%u %u ", PICMAN_STATUS(written), (unsigned)PICMAN_LENGTH(written));
    fwrite(line, 1, PICMAN_LENGTH(written), stdout);
    if (PICMAN_LENGTH(written) == 0) printf("\n");
}

static uint64_t next_place(const uint8_t record[PICMAN_READ]) {
    uint64_t place = 0;
    for (int i = 7; i < PICMAN_READ; i++) place = place << 8 | record[i];
    return place;
}

static void read_all(const char *lines) {
    uint64_t at = 0;
    uint8_t record[PICMAN_READ];
    uint8_t status;
    do {
        status = picman_read((const uint8_t *)lines, strlen(lines), at, record);
        printf("%u at %u: call %u\n", status, (unsigned)at, record[0]);
        at = next_place(record);
    } while (status != PICMAN_NO_MORE);
}

int main(void) {
    write_get(5);
    write_get(4);
    read_all("0100ff0000000000\nx\n04000000000000fc");
    return 0;
}
