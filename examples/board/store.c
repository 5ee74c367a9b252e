/* Images in the flash of a board. A slot begins with a page that says which image it has; that is written last, so a save that is cut off
 * leaves the image that was saved before. */
#include "store.h"
#include "board.h"

#include <string.h>

enum { SLOTS = 2, MOST = SLOT - FLASH_PAGE };

/* What a slot begins with. */
typedef struct head {
    uint8_t magic[8];
    uint32_t age; /* of two images the one with the greater age was saved later */
    uint32_t size;
    uint32_t sum;
} head;

static const uint8_t magic[8] = "FORTHIMG";
static unsigned writing = SLOTS; /* the slot that is written; SLOTS if none is */

uint32_t crc32(const uint8_t *bytes, uint32_t size)
{
    static const uint32_t table[16] = {0x00000000, 0x1DB71064, 0x3B6E20C8, 0x26D930AC, 0x76DC4190, 0x6B6B51F4, 0x4DB26158, 0x5005713C,
                                       0xEDB88320, 0xF00F9344, 0xD6D6A3E8, 0xCB61B38C, 0x9B64C2B0, 0x86D3D2D4, 0xA00AE278, 0xBDBDF21C};
    uint32_t sum = 0xFFFFFFFF;
    for (uint32_t i = 0; i < size; i++) {
        sum = (sum >> 4) ^ table[(sum ^ bytes[i]) & 15];
        sum = (sum >> 4) ^ table[(sum ^ bytes[i] >> 4) & 15];
    }
    return ~sum;
}

/* Whether the slot has a sound image, and what it says of it. */
static bool has_image(unsigned slot, head *found)
{
    memcpy(found, flash_slot(slot), sizeof *found);
    return memcmp(found->magic, magic, sizeof magic) == 0 && found->size <= MOST &&
           crc32(flash_slot(slot) + FLASH_PAGE, found->size) == found->sum;
}

/* The slot with the last image; SLOTS if there is none. */
static unsigned last_slot(void)
{
    head one, other;
    bool has_one = has_image(0, &one), has_other = has_image(1, &other);
    if (has_one && has_other)
        return (int32_t)(one.age - other.age) > 0 ? 0 : 1;
    return has_one ? 0 : has_other ? 1 : SLOTS;
}

const uint8_t *store_image(bool is_last, uint32_t *size)
{
    head found;
    unsigned slot = last_slot();
    if (slot == SLOTS || !has_image(is_last ? slot : 1 - slot, &found))
        return NULL;
    *size = found.size;
    return flash_slot(is_last ? slot : 1 - slot) + FLASH_PAGE;
}

bool store_write(uint32_t at, const uint8_t *bytes, uint32_t size)
{
    if (at == 0) {
        writing = last_slot() == 0 ? 1 : 0;
        if (!flash_erase(writing))
            writing = SLOTS;
    }
    if (writing == SLOTS || at % FLASH_PAGE != 0 || size % FLASH_PAGE != 0 || size > MOST || at > MOST - size)
        return false;
    return flash_write(writing, FLASH_PAGE + at, bytes, size);
}

bool store_end(uint32_t size, uint32_t sum)
{
    uint8_t page[FLASH_PAGE];
    head before, now = {.age = 1, .size = size, .sum = sum};
    unsigned slot = writing, last = last_slot();
    writing = SLOTS;
    if (slot == SLOTS || size > MOST || crc32(flash_slot(slot) + FLASH_PAGE, size) != sum)
        return false;
    if (last != SLOTS && has_image(last, &before))
        now.age = before.age + 1;
    memcpy(now.magic, magic, sizeof magic);
    memset(page, 0xFF, sizeof page);
    memcpy(page, &now, sizeof now);
    return flash_write(slot, 0, page, sizeof page) && last_slot() == slot;
}
