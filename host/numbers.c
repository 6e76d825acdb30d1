#include "numbers.h"

enum { BITS_PER_BYTE = 8 };

uint32_t number_at(const uint8_t *bytes) {
    uint32_t number = 0;
    for (int i = 0; i < NUMBER_SIZE; i++) {
        number |= (uint32_t)bytes[i] << BITS_PER_BYTE * i;
    }
    return number;
}

bool number_add(struct bytes *bytes, uint32_t number) {
    uint8_t added[NUMBER_SIZE];
    for (int i = 0; i < NUMBER_SIZE; i++) {
        added[i] = (uint8_t)(number >> BITS_PER_BYTE * i);
    }
    return bytes_add(bytes, added, sizeof added);
}
