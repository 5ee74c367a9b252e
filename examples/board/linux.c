/* A board that is a process on Linux, to try hosts and programs: its serial line is a pseudo terminal, whose name it prints, and its flash is a
 * file.
 *
 *   board-linux FLASH
 *
 * SIGHUP is its reset. */
#define _GNU_SOURCE
#include "board.h"

#include <fcntl.h>
#include <poll.h>
#include <signal.h>
#include <stdio.h>
#include <stdlib.h>
#include <string.h>
#include <termios.h>
#include <time.h>
#include <unistd.h>

enum { SLOTS = 2, PATIENCE = 100, PORTS = 8 };

const char board_name[] = "a process on Linux";
static int terminal, flash;
static uint8_t slots[SLOTS][SLOT];
static volatile sig_atomic_t is_reset;
static char **words;

/* Eight ports, which are read as they were written. */
static uint16_t ports[PORTS];

static uint8_t fetch(forth83 *machine)
{
    uint16_t port = board_number(machine, 0);
    if (port >= PORTS)
        return NO_SUCH_PORT;
    forth83_set_cell(machine, RESULT, ports[port]);
    return 0;
}

static uint8_t store(forth83 *machine)
{
    uint16_t port = board_number(machine, 0);
    if (port >= PORTS)
        return NO_SUCH_PORT;
    ports[port] = board_number(machine, 1);
    return 0;
}

const board_service board_services[] = {{PORT_FETCH, fetch}, {PORT_STORE, store}, {0, NULL}};

static void fail(const char *what)
{
    perror(what);
    exit(1);
}

static void on_reset(int number)
{
    (void)number;
    is_reset = 1;
}

/* The pseudo terminal. The board has its other end open, too, so that hosts may come and go. */
static void open_terminal(void)
{
    struct termios settings;
    int other = -1;
    terminal = posix_openpt(O_RDWR | O_NOCTTY);
    if (terminal < 0 || grantpt(terminal) || unlockpt(terminal) || (other = open(ptsname(terminal), O_RDWR | O_NOCTTY)) < 0)
        fail("pseudo terminal");
    tcgetattr(other, &settings);
    cfmakeraw(&settings);
    tcsetattr(other, TCSANOW, &settings);
    printf("%s\n", ptsname(terminal));
    fflush(stdout);
}

/* Comes before main. After a reset the terminal is what it was. */
__attribute__((constructor)) static void power_up(int count, char **given)
{
    words = given;
    if (count < 2 || (flash = open(given[1], O_RDWR | O_CREAT | O_CLOEXEC, 0666)) < 0)
        fail("usage: board-linux FLASH");
    memset(slots, 0xFF, sizeof slots);
    if (pread(flash, slots, sizeof slots, 0) < 0)
        fail(given[1]);
    signal(SIGHUP, on_reset);
    if (count > 2)
        terminal = atoi(given[2]);
    else
        open_terminal();
}

static void reset(void)
{
    char number[12];
    snprintf(number, sizeof number, "%d", terminal);
    execl("/proc/self/exe", words[0], words[1], number, (char *)NULL);
    fail("reset");
}

void put_byte(uint8_t byte)
{
    struct pollfd line = {terminal, POLLOUT, 0};
    if (poll(&line, 1, PATIENCE) > 0 && write(terminal, &byte, 1) != 1)
        fail("line");
}

int get_byte(void)
{
    uint8_t byte;
    struct pollfd line = {terminal, POLLIN, 0};
    if (is_reset)
        reset();
    return poll(&line, 1, 1) > 0 && read(terminal, &byte, 1) == 1 ? byte : -1;
}

uint32_t milliseconds(void)
{
    struct timespec now;
    clock_gettime(CLOCK_MONOTONIC, &now);
    return (uint32_t)(now.tv_sec * 1000 + now.tv_nsec / 1000000);
}

const uint8_t *flash_slot(unsigned slot)
{
    return slots[slot];
}

static bool keep(unsigned slot, uint32_t at, uint32_t size)
{
    return pwrite(flash, slots[slot] + at, size, (off_t)slot * SLOT + at) == (ssize_t)size;
}

bool flash_erase(unsigned slot)
{
    memset(slots[slot], 0xFF, SLOT);
    return keep(slot, 0, SLOT);
}

bool flash_write(unsigned slot, uint32_t at, const uint8_t *bytes, uint32_t size)
{
    for (uint32_t i = 0; i < size; i++)
        slots[slot][at + i] &= bytes[i];
    return keep(slot, at, size);
}
