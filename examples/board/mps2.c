/* The board mps2-an385, which QEMU has: its start, its serial line, its clock, its flash, and its heap. The second RAM of the board stands for
 * flash: QEMU keeps it over a reset. The heap grows from the end of what is static up to STACK bytes below the end of RAM, where the stack
 * begins. Nothing guards the stack: give it what docs/EMBEDDING.md says. */
#include "board.h"

#include <errno.h>
#include <stddef.h>
#include <string.h>

#ifndef STACK
#define STACK 90112
#endif
enum { RING = 1024, CLOCK_RATE = 25000000, BAUD = 115200, FULL = 1, HAS_BYTE = 2, UART_ON = 3, ON_BYTE = 8, TICKING = 7 };
#define UART ((volatile uint32_t *)0x40004000) /* data, state, control, interrupts, divider */
#define SYSTICK ((volatile uint32_t *)0xE000E010)
#define INTERRUPTS_ON (*(volatile uint32_t *)0xE000E100)
#define FLASH ((uint8_t *)0x20000000)
#define PINS ((volatile uint32_t *)0x40028000) /* lamps, nothing, buttons, nothing, and counters of seconds and of hundredths */

extern uint8_t stack_begins, bss_begins, bss_ends, data_begins, data_ends, heap_begins;
extern const uint8_t data_in_flash;
const char board_name[] = "mps2-an385 in QEMU";
static volatile uint8_t ring[RING]; /* bytes that have come */
static volatile uint32_t come, taken, now;
int main(void);
void *_sbrk(ptrdiff_t more);
void reset(void);

static void on_byte(void)
{
    UART[3] = HAS_BYTE;
    while (UART[1] & HAS_BYTE)
        ring[come++ % RING] = (uint8_t)UART[0];
}

static void on_millisecond(void)
{
    now++;
}

void put_byte(uint8_t byte)
{
    while (UART[1] & FULL)
        ;
    UART[0] = byte;
}

int get_byte(void)
{
    return taken == come ? -1 : ring[taken++ % RING];
}

uint32_t milliseconds(void)
{
    return now;
}

const uint8_t *flash_slot(unsigned slot)
{
    return FLASH + SLOT * slot;
}

bool flash_erase(unsigned slot)
{
    memset(FLASH + SLOT * slot, 0xFF, SLOT);
    return true;
}

bool flash_write(unsigned slot, uint32_t at, const uint8_t *bytes, uint32_t size)
{
    for (uint32_t i = 0; i < size; i++)
        FLASH[SLOT * slot + at + i] &= bytes[i];
    return true;
}

void *_sbrk(ptrdiff_t more)
{
    static uint8_t *top = &heap_begins;
    uint8_t *before = top;
    if (more > (ptrdiff_t)((uintptr_t)&stack_begins - STACK - (uintptr_t)top)) {
        errno = ENOMEM;
        return (void *)-1;
    }
    top += more;
    return before;
}

/* PORT@ and PORT! with the numbers of PINS: `1 0 PORT!` lights a lamp, and `5 PORT@` is the time in hundredths of a second. */
static uint8_t fetch(forth83 *machine)
{
    uint16_t port = board_number(machine, 0);
    if (port > 5)
        return NO_SUCH_PORT;
    forth83_set_cell(machine, RESULT, (uint16_t)PINS[port]);
    return 0;
}

static uint8_t store(forth83 *machine)
{
    if (board_number(machine, 0) != 0)
        return NO_SUCH_PORT;
    PINS[0] = board_number(machine, 1);
    return 0;
}

const board_service board_services[] = {{PORT_FETCH, fetch}, {PORT_STORE, store}, {0, NULL}};

/* A fault of the processor: the board begins again. */
static void restart(void)
{
    *(volatile uint32_t *)0xE000ED0C = 0x05FA0004;
    for (;;)
        ;
}

void reset(void)
{
    const uint8_t *from = &data_in_flash;
    for (uint8_t *at = &data_begins; at < &data_ends; at++)
        *at = *from++;
    for (uint8_t *at = &bss_begins; at < &bss_ends; at++)
        *at = 0;
    UART[4] = CLOCK_RATE / BAUD;
    UART[2] = UART_ON | ON_BYTE;
    INTERRUPTS_ON = 1;
    SYSTICK[1] = CLOCK_RATE / 1000 - 1;
    SYSTICK[0] = TICKING;
    main();
    restart();
}

__attribute__((section(".vectors"), used)) static void *const vectors[17] = {
    &stack_begins, (void *)reset, (void *)restart, (void *)restart, (void *)restart, (void *)restart, (void *)restart,
    [15] = (void *)on_millisecond, [16] = (void *)on_byte};
