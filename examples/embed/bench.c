/* A test bench: a Forth in a program of C, over an instrument of which the registers are a block.
 *
 *   bench IMAGE [WORD] < LINES
 *
 * The word, where one is named, comes in place of the image's own first one: a test plan that ends by QUIT, say. Each line is
 * typed at the Forth, and what it shows goes to standard output. Block 1 is the instrument: reading it takes a measurement, once in
 * each line, and writing it sets the outputs. Other blocks, up to 15, are kept in memory. A line may take a million ticks; one that takes more is
 * interrupted, and all is as it was before that line. */
#include "forth83.h"

#include <stdbool.h>
#include <stdio.h>
#include <stdlib.h>
#include <string.h>

enum { BLOCKS = 16, INSTRUMENT = 1, TICKS = 1000000 };

static uint8_t blocks[BLOCKS][FORTH83_PAGE];
static unsigned measured;

/* The instrument: its first cell counts the measurements, its second is twice the output that was set in the third. */
static void measure(uint8_t *page)
{
    unsigned output = page[4] + 256u * page[5];
    unsigned value = 2 * output;
    measured++;
    page[0] = (uint8_t)measured;
    page[1] = (uint8_t)(measured / 256);
    page[2] = (uint8_t)value;
    page[3] = (uint8_t)(value / 256);
}

static void must(uint32_t status, const char *what)
{
    if (status != FORTH83_DONE) {
        fprintf(stderr, "bench: %s: status %u: %s\n", what, (unsigned)status, forth83_status_text(status));
        exit(1);
    }
}

/* Enters the word of that name. */
static void enter(forth83 *machine, const char *name)
{
    uint16_t word;
    must(forth83_find(machine, (const uint8_t *)name, strlen(name), &word), name);
    must(forth83_enter(machine, word), name);
}

/* Serves the block that the machine asks. */
static void serve(forth83 *machine)
{
    uint16_t block = machine->asked;
    if (block >= BLOCKS) {
        must(forth83_failed(machine), "a block that does not exist");
    } else if (machine->asks == FORTH83_ASKS_READ) {
        if (block == INSTRUMENT)
            measure(blocks[block]);
        must(forth83_read(machine, blocks[block], FORTH83_PAGE), "a block's bytes");
    } else {
        must(forth83_page(machine, blocks[block], FORTH83_PAGE), "a block to be kept");
        must(forth83_written(machine), "a block that is kept");
    }
}

/* Types a line; what it shows goes to standard output. Whether the machine goes on. */
static bool type(forth83 *machine, const uint8_t *line, size_t size)
{
    static uint8_t shown[FORTH83_ROOM];
    static forth83 before;
    uint64_t left = TICKS;
    forth83_drop_block(machine, INSTRUMENT);
    memcpy(&before, machine, sizeof before);
    for (;;) {
        forth83_end end;
        must(forth83_run(machine, line, size, shown, sizeof shown, left, &end), "a line");
        fwrite(shown, 1, end.shown, stdout);
        line += end.read;
        size -= end.read;
        left = end.left;
        switch (end.stop) {
        case FORTH83_STOP_BLOCK:
            serve(machine);
            break;
        case FORTH83_STOP_ROOM:
            break;
        case FORTH83_STOP_TYPED:
            return true;
        case FORTH83_STOP_LIMIT:
            printf("\n(interrupted)\n");
            memcpy(machine, &before, sizeof before);
            return true;
        default:
            return false;
        }
    }
}

int main(int count, char **arguments)
{
    static forth83 machine;
    static uint8_t image[70000];
    char line[256];
    if (count != 2 && count != 3) {
        fprintf(stderr, "usage: bench IMAGE [WORD] < LINES\n");
        return 2;
    }
    FILE *file = fopen(arguments[1], "rb");
    if (file == NULL) {
        perror(arguments[1]);
        return 1;
    }
    size_t size = fread(image, 1, sizeof image, file);
    fclose(file);
    must(forth83_load(image, size, BLOCKS, &machine), arguments[1]);
    if (count == 3)
        enter(&machine, arguments[2]);
    while (fgets(line, sizeof line, stdin) != NULL)
        if (!type(&machine, (const uint8_t *)line, strlen(line)))
            break;
    return 0;
}
