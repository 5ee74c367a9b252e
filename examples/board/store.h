/* Images in the flash of a board: two slots, of which the newer sound one counts. */
#ifndef STORE_H
#define STORE_H
#include <stdbool.h>
#include <stdint.h>

/* CRC-32 of these bytes, as zip files have it. */
uint32_t crc32(const uint8_t *bytes, uint32_t size);

/* The saved image that was saved last, or the one before it; NULL if there is none. Puts its size into SIZE. */
const uint8_t *store_image(bool is_last, uint32_t *size);

/* Writes a part of an image that is being saved, in whole pages. The part at 0 begins, in the slot that has not the last image. */
bool store_write(uint32_t at, const uint8_t *bytes, uint32_t size);

/* Ends with an image of so many bytes with this checksum: from now on it is the last one. */
bool store_end(uint32_t size, uint32_t sum);

#endif
