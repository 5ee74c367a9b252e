/* What board.c wants of a board: six functions, a list of services, and how large its flash is cut. README.md, "Another board", says more. */
#ifndef BOARD_H
#define BOARD_H
#include "forth83.h"

#include <stdbool.h>
#include <stdint.h>

/* The flash has two slots of SLOT bytes for images: one is written while the other one has the image that was saved before. It is written in
 * whole pages of FLASH_PAGE bytes. */
enum { SLOT = 65536, FLASH_PAGE = 256 };

extern const char board_name[];

void put_byte(uint8_t byte);  /* sends a byte */
int get_byte(void);           /* the next byte that has come, or -1; called all the time, so that it may feed a watchdog */
uint32_t milliseconds(void);  /* a clock that goes forward, and begins again at 0 after FFFFFFFF */

const uint8_t *flash_slot(unsigned slot); /* where slot 0 or 1 can be read */
bool flash_erase(unsigned slot);          /* every byte of the slot is FF then; whether that worked */
bool flash_write(unsigned slot, uint32_t at, const uint8_t *bytes, uint32_t size); /* AT and SIZE are whole pages, which are erased */

/* A service for programs: the word CALL-HOST with this number, or PORT@ and PORT!, calls the function. It finds the program's numbers on the
 * data stack, where it leaves them, puts up to two results into the cells 58 and 60, and answers 0, or the fault that the word takes. */
typedef struct board_service {
    uint16_t number;
    uint8_t (*serve)(forth83 *machine);
} board_service;
enum { PORT_FETCH = 48, PORT_STORE = 49, OWN_SERVICES = 100, RESULT = 58, RESULT_2 = 60, NO_SUCH_PORT = 17 };

extern const board_service board_services[]; /* number 0 ends them; numbers of one's own are OWN_SERVICES or more */

/* The number on the data stack that so many others are above; 0 if there is none. */
static inline uint16_t board_number(const forth83 *machine, unsigned above)
{
    return above < forth83_depth(machine) ? machine->values[machine->values_top + above] : 0;
}

#endif
