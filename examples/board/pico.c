/* The RP2040, as on a Raspberry Pi Pico, NOT TRIED ON HARDWARE: it was compiled, and written by the data sheet. Its serial line is UART0, GP0 (out)
 * and GP1 (in), at 115,200 bits a second: connect a USB adapter of 3.3 volts. The clock is 125 MHz of a crystal of 12. The watchdog starts the
 * board again if the loop of board.c takes no byte for four seconds. Of the flash of 2 MB the last 128 KB are the two slots. */
#include "board.h"

#include <errno.h>
#include <stddef.h>

#ifndef STACK
#define STACK 90112
#endif
#define REGISTER(address) (*(volatile uint32_t *)(address))
#define RESETS 0x4000C000
#define CLOCKS 0x40008000
#define XOSC 0x40024000
#define PLL 0x40028000
#define PINS 0x40014000
#define UART 0x40034000
#define TIMER 0x40054000
#define WATCHDOG 0x40058000
#define SIO 0xD0000000
enum {
    FLASH = 0x10000000, SLOTS_AT = 0x1E0000, SECTOR = 4096, BLOCK_SIZE = 65536, ERASE_BLOCK = 0xD8, RING = 1024, UART_IRQ = 20, LAST_PIN = 29,
    PINS_USED = 2, /* by the serial line */
    IO_BANK = 1 << 5, PADS_BANK = 1 << 8, PLL_SYS = 1 << 12, TIMER_UNIT = 1 << 21, UART_UNIT = 1 << 22, ON_AT_START = 1u << 31,
    RX_EMPTY = 1 << 4, TX_FULL = 1 << 5, RX_INTERRUPTS = 1 << 4 | 1 << 6, FUNCTION_UART = 2, FUNCTION_SIO = 5, FOUR_SECONDS = 8000000,
};

extern uint8_t stack_begins, bss_begins, bss_ends, data_begins, data_ends, heap_begins;
extern const uint8_t data_in_flash;
const char board_name[] = "RP2040";
static volatile uint8_t ring[RING]; /* bytes that have come */
static volatile uint32_t come, taken;
int main(void);
void *_sbrk(ptrdiff_t more);
void reset(void);

/* The line */

static void on_byte(void)
{
    while (!(REGISTER(UART + 0x18) & RX_EMPTY))
        ring[come++ % RING] = (uint8_t)REGISTER(UART);
    REGISTER(UART + 0x44) = RX_INTERRUPTS;
}

void put_byte(uint8_t byte)
{
    while (REGISTER(UART + 0x18) & TX_FULL)
        ;
    REGISTER(UART) = byte;
}

static void feed_watchdog(void)
{
    REGISTER(WATCHDOG + 4) = FOUR_SECONDS; /* it counts two a microsecond */
}

int get_byte(void)
{
    feed_watchdog();
    return taken == come ? -1 : ring[taken++ % RING];
}

uint32_t milliseconds(void)
{
    uint32_t high, low;
    do {
        high = REGISTER(TIMER + 0x24);
        low = REGISTER(TIMER + 0x28);
    } while (high != REGISTER(TIMER + 0x24));
    return (uint32_t)(((uint64_t)high << 32 | low) / 1000);
}

/* The flash, by the functions of the ROM: while it is written nothing may be read from it, so these two functions are in RAM. */

typedef void rom_function(void);
typedef void rom_erase(uint32_t at, uint32_t size, uint32_t block_size, uint8_t command);
typedef void rom_program(uint32_t at, const uint8_t *bytes, uint32_t size);
static struct {
    rom_function *connect, *leave_xip, *flush, *enter_xip;
    rom_erase *erase;
    rom_program *program;
} rom;

static void *in_rom(char first, char second)
{
    typedef void *look_up(const uint16_t *table, uint32_t code);
    uintptr_t places = 0x14; /* where the ROM says where its table is, and then where the function is that searches it */
    __asm__("" : "+r"(places)); /* a compiler takes such an address for a mistake */
    look_up *find = (look_up *)(uintptr_t)((const volatile uint16_t *)places)[2];
    return find((const uint16_t *)(uintptr_t)((const volatile uint16_t *)places)[0], (uint32_t)first | (uint32_t)second << 8);
}

static void find_rom(void)
{
    rom.connect = (rom_function *)in_rom('I', 'F');
    rom.leave_xip = (rom_function *)in_rom('E', 'X');
    rom.flush = (rom_function *)in_rom('F', 'C');
    rom.enter_xip = (rom_function *)in_rom('C', 'X');
    rom.erase = (rom_erase *)in_rom('R', 'E');
    rom.program = (rom_program *)in_rom('R', 'P');
}

/* Erases the sector AT, or with bytes writes a page there. */
__attribute__((noinline, long_call, section(".in_ram"))) static void change_flash(uint32_t at, const uint8_t *bytes)
{
    __asm__ volatile("cpsid i" ::: "memory");
    rom.connect();
    rom.leave_xip();
    if (bytes == NULL)
        rom.erase(at, SECTOR, BLOCK_SIZE, ERASE_BLOCK);
    else
        rom.program(at, bytes, FLASH_PAGE);
    rom.flush();
    rom.enter_xip();
    __asm__ volatile("cpsie i" ::: "memory");
}

const uint8_t *flash_slot(unsigned slot)
{
    return (const uint8_t *)(FLASH + SLOTS_AT + SLOT * slot);
}

bool flash_erase(unsigned slot)
{
    for (uint32_t at = 0; at < SLOT; at += SECTOR) {
        feed_watchdog();
        change_flash(SLOTS_AT + SLOT * slot + at, NULL);
    }
    return flash_slot(slot)[0] == 0xFF;
}

bool flash_write(unsigned slot, uint32_t at, const uint8_t *bytes, uint32_t size)
{
    uint8_t page[FLASH_PAGE]; /* bytes may lie in flash */
    for (uint32_t done = 0; done < size; done += FLASH_PAGE) {
        for (unsigned i = 0; i < FLASH_PAGE; i++)
            page[i] = bytes[done + i];
        change_flash(SLOTS_AT + SLOT * slot + at + done, page);
    }
    return true;
}

/* PORT@ and PORT!: the pins GP2 to GP29. A pin that is written is an output from then on. */

static uint8_t fetch(forth83 *machine)
{
    uint16_t pin = board_number(machine, 0);
    if (pin < PINS_USED || pin > LAST_PIN)
        return NO_SUCH_PORT;
    REGISTER(PINS + 8u * pin + 4) = FUNCTION_SIO;
    forth83_set_cell(machine, RESULT, (uint16_t)(REGISTER(SIO + 4) >> pin & 1));
    return 0;
}

static uint8_t store(forth83 *machine)
{
    uint16_t pin = board_number(machine, 0);
    if (pin < PINS_USED || pin > LAST_PIN)
        return NO_SUCH_PORT;
    REGISTER(board_number(machine, 1) ? SIO + 0x14 : SIO + 0x18) = 1u << pin;
    REGISTER(SIO + 0x24) = 1u << pin;
    REGISTER(PINS + 8u * pin + 4) = FUNCTION_SIO;
    return 0;
}

const board_service board_services[] = {{PORT_FETCH, fetch}, {PORT_STORE, store}, {0, NULL}};

/* The start */

void *_sbrk(ptrdiff_t more)
{
    static uint8_t *top = &heap_begins;
    uint8_t *before = top;
    if (more > (ptrdiff_t)((uintptr_t)&stack_begins - STACK - (uintptr_t)top)) {
        errno = ENOMEM;
        return (void *)-1;
    }
    top += more;
    return before;
}

static void take_out_of_reset(uint32_t units)
{
    REGISTER(RESETS + 0x3000) = units; /* clears bits */
    while ((REGISTER(RESETS + 8) & units) != units)
        ;
}

static void start_clocks(void)
{
    REGISTER(XOSC + 0x0C) = 47; /* a millisecond */
    REGISTER(XOSC) = 0xFABAA0;
    while (!(REGISTER(XOSC + 4) & ON_AT_START))
        ;
    REGISTER(CLOCKS + 0x3C) = 0; /* the system by the reference, while the PLL starts */
    while (REGISTER(CLOCKS + 0x44) != 1)
        ;
    REGISTER(CLOCKS + 0x30) = 2; /* the reference is the crystal */
    while (REGISTER(CLOCKS + 0x38) != 4)
        ;
    REGISTER(RESETS + 0x2000) = PLL_SYS; /* sets bits */
    take_out_of_reset(PLL_SYS);
    REGISTER(PLL) = 1;
    REGISTER(PLL + 8) = 125; /* 12 MHz times 125, by 6 and 2 */
    REGISTER(PLL + 0x3004) = 1 << 0 | 1 << 5;
    while (!(REGISTER(PLL) & ON_AT_START))
        ;
    REGISTER(PLL + 0x0C) = 6 << 16 | 2 << 12;
    REGISTER(PLL + 0x3004) = 1 << 3;
    REGISTER(CLOCKS + 0x3C) = 1; /* the system by the PLL */
    while (REGISTER(CLOCKS + 0x44) != 2)
        ;
    REGISTER(CLOCKS + 0x48) = 1 << 11;         /* the UART by the system's clock */
    REGISTER(WATCHDOG + 0x2C) = 1 << 9 | 12;   /* a tick of the timer is a microsecond */
}

static void start_line(void)
{
    REGISTER(PINS + 4) = REGISTER(PINS + 12) = FUNCTION_UART;
    REGISTER(UART + 0x24) = 67; /* 125 MHz by 16 * 115,200 is 67 and 52/64 */
    REGISTER(UART + 0x28) = 52;
    REGISTER(UART + 0x2C) = 0x70;
    REGISTER(UART + 0x30) = 0x301;
    REGISTER(UART + 0x38) = RX_INTERRUPTS;
    REGISTER(0xE000E100) = 1u << UART_IRQ;
}

static void restart(void)
{
    REGISTER(0xE000ED0C) = 0x05FA0004;
    for (;;)
        ;
}

void reset(void)
{
    const uint8_t *from = &data_in_flash;
    for (uint8_t *at = &data_begins; at < &data_ends; at++)
        *at = *from++;
    for (uint8_t *at = &bss_begins; at < &bss_ends; at++)
        *at = 0;
    start_clocks();
    take_out_of_reset(IO_BANK | PADS_BANK | TIMER_UNIT | UART_UNIT);
    start_line();
    find_rom();
    REGISTER(0x40010008) = 0x1FFFC; /* the watchdog resets all but the oscillators */
    feed_watchdog();
    REGISTER(WATCHDOG) = 1 << 30;
    main();
    restart();
}

__attribute__((section(".vectors"), used)) static void *const vectors[16 + UART_IRQ + 1] = {
    &stack_begins, (void *)reset, (void *)restart, (void *)restart, [11] = (void *)restart, [14] = (void *)restart, [15] = (void *)restart,
    [16 + UART_IRQ] = (void *)on_byte};
