/* Types scripts at machines of the library, in pieces, and prints a digest of all that each call leaves:
 *
 *   trial IMAGE SCRIPTS RECORDS        a line for each script: its digest; the last record of each goes to the file RECORDS
 *   trial IMAGE --record RECORD TEXT   continues the record of a file with the lines of TEXT until it halts, and shows what it shows
 *   trial IMAGE --measure TICKS        how deep the stack gets, and how many ticks a second an endless loop makes
 *
 * SCRIPTS has scripts, each with a byte 0 after it. All choices are made by a generator of its own, so that two builds make the same.
 * tests/targets/check-targets runs this on each target. With BARE, as WebAssembly, there is no C library: the host calls the functions below. */
#include "forth83.h"
#ifdef BARE
#define memset __builtin_memset
#else
#include <stdio.h>
#include <stdlib.h>
#include <string.h>
#include <time.h>
#endif

enum { BLOCKS = 16 };
static uint8_t blocks[BLOCKS][FORTH83_PAGE], shown[FORTH83_ROOM];
static forth83 machine;
static uint64_t digest;
static uint32_t dice;

static void mix(const void *bytes, size_t size)
{
    const uint8_t *at = bytes;
    for (size_t i = 0; i < size; i++)
        digest = (digest ^ at[i]) * 1099511628211u;
}

static void must(uint32_t status, const char *what)
{
    if (status != FORTH83_DONE) {
#ifdef BARE
        (void)what;
        __builtin_trap();
#else
        printf("trial: %s: status %u\n", what, (unsigned)status);
        exit(1);
#endif
    }
}

static uint32_t roll(uint32_t n)
{
    dice = dice * 1664525u + 1013904223u;
    return (dice >> 8) % n;
}

static void serve(void)
{
    unsigned block = machine.asked;
    if (block >= BLOCKS) {
        must(forth83_failed(&machine), "failed");
    } else if (machine.asks == FORTH83_ASKS_READ) {
        must(forth83_read(&machine, blocks[block], FORTH83_PAGE), "read");
    } else {
        must(forth83_page(&machine, blocks[block], FORTH83_PAGE), "page");
        must(forth83_written(&machine), "written");
    }
}

static void mix_span(void *unused, const uint8_t *bytes, uint64_t size)
{
    (void)unused;
    mix(bytes, (size_t)size);
}

/* Half of the scripts get room for a few bytes only, so that longer pieces are taken from memory. */
static uint32_t room_of_script(void)
{
    return roll(2) ? (uint32_t)sizeof shown : 1 + roll(100);
}

static void script(const uint8_t *image, size_t image_size, const uint8_t *text, size_t size)
{
    size_t at = 0, given = 0;
    uint32_t room = room_of_script();
    memset(&machine, 0, sizeof machine);
    memset(blocks, 0, sizeof blocks);
    must(forth83_load(image, image_size, BLOCKS, &machine), "load");
    for (;;) {
        forth83_end end;
        memset(&end, 0, sizeof end);
        must(forth83_run(&machine, text + at, given - at, shown, room, roll(4) ? 1000000 : roll(500), &end), "run");
        mix(shown, (size_t)end.shown);
        forth83_take_span(&machine, &end, mix_span, NULL);
        mix(&machine, sizeof machine);
        mix(&end, sizeof end);
        at += (size_t)end.read;
        if (end.stop == FORTH83_STOP_HALTED)
            break;
        if (end.stop == FORTH83_STOP_TYPED && given == size)
            must(forth83_ended(&machine), "ended");
        if (end.stop == FORTH83_STOP_TYPED)
            given += 1 + roll(40);
        if (given > size)
            given = size;
        if (end.stop == FORTH83_STOP_BLOCK)
            serve();
    }
    mix(blocks, sizeof blocks);
}

static void start(uint32_t at)
{
    digest = 14695981039346656037u;
    dice = at;
}

/* Continues the machine's record with these bytes, after which it must be halted: how many bytes it shows. */
static uint32_t continued(const uint8_t *text, size_t size)
{
    forth83_end end;
    must(forth83_run(&machine, text, size, shown, sizeof shown, 1000000, &end), "run");
    must(end.stop == FORTH83_STOP_HALTED ? FORTH83_DONE : FORTH83_WAITING, "halt");
    return (uint32_t)end.shown;
}

#ifdef BARE
/* The digest of one script, and where its last record is. */
uint64_t trial_digest(const uint8_t *image, uint32_t image_size, const uint8_t *text, uint32_t size, uint32_t at)
{
    start(at);
    script(image, image_size, text, size);
    return digest;
}

forth83 *trial_record(void) { return &machine; }

/* The host has put the record there. */
uint32_t trial_continue(const uint8_t *text, uint32_t size) { return continued(text, size); }

uint8_t *trial_shown(void) { return shown; }
#else

/* How deep the stack gets below here, at most DEPTH bytes: it is painted first. */
#ifndef DEPTH
#define DEPTH 700000
#endif
static uintptr_t painted;
static __attribute__((noinline)) void paint(void)
{
    volatile uint8_t room[DEPTH];
    for (size_t i = 0; i < DEPTH; i++)
        room[i] = 0xa5;
    painted = (uintptr_t)room;
}

static __attribute__((noinline)) unsigned long depth(void)
{
    size_t i = 0;
    while (i < DEPTH && ((volatile uint8_t *)painted)[i] == 0xa5)
        i++;
    return (unsigned long)(DEPTH - i);
}

/* The depth of a run of these lines. */
static unsigned long depth_of(const char *lines)
{
    forth83_end end;
    paint();
    must(forth83_run(&machine, (const uint8_t *)lines, strlen(lines), shown, sizeof shown, 100000, &end), "run");
    return depth();
}

/* The stack of a load; of a line; of FORGET; and of a name that wraps around the end of memory. */
static void measure(const uint8_t *image, size_t image_size, uint64_t ticks)
{
    forth83_end end;
    clock_t before;
    paint();
    must(forth83_load(image, image_size, BLOCKS, &machine), "load");
    printf("stack %lu", depth());
    printf(" %lu", depth_of(": IN 1000 0 DO I DROP LOOP ; : T BEGIN IN 0 UNTIL ; 12 DUP * .\n"));
    printf(" %lu", depth_of(": LONGNAME ; FORGET LONGNAME\n"));
    printf(" %lu\n", depth_of("4 65533 C! 65 65534 C! 65 65535 C! 65533 FIND . .\n"));
    depth_of("T\n");
    before = clock();
    must(forth83_run(&machine, (const uint8_t *)"", 0, shown, sizeof shown, ticks, &end), "run");
    printf("ticks %.1f\n", (double)ticks / ((double)(clock() - before) / CLOCKS_PER_SEC + 1e-9) / 1e6);
}

static size_t contents(const char *name, uint8_t *into, size_t room)
{
    FILE *file = fopen(name, "rb");
    if (file == NULL) {
        perror(name);
        exit(1);
    }
    size_t size = fread(into, 1, room, file);
    fclose(file);
    return size;
}

/* Runs all scripts. */
static void run_all(const uint8_t *image, size_t image_size, const uint8_t *texts, size_t size, const char *records_name)
{
    FILE *records = fopen(records_name, "wb");
    if (records == NULL) {
        perror(records_name);
        exit(1);
    }
    for (size_t at = 0; at < size; at += strlen((const char *)texts + at) + 1) {
        start((uint32_t)at);
        script(image, image_size, texts + at, strlen((const char *)texts + at));
        printf("%08lx%08lx\n", (unsigned long)(digest >> 32), (unsigned long)(digest & 0xffffffffu));
        fwrite(&machine, 1, sizeof machine, records);
    }
    fclose(records);
}

int main(int count, char **arguments)
{
    static uint8_t image[70000], texts[1 << 20];
    if (count < 4)
        return 2;
    size_t image_size = contents(arguments[1], image, sizeof image);
    if (strcmp(arguments[2], "--measure") == 0) {
        measure(image, image_size, strtoull(arguments[3], NULL, 10));
    } else if (strcmp(arguments[2], "--record") == 0 && count == 5) {
        contents(arguments[3], (uint8_t *)&machine, sizeof machine);
        size_t size = contents(arguments[4], texts, sizeof texts);
        fwrite(shown, 1, continued(texts, size), stdout);
    } else {
        run_all(image, image_size, texts, contents(arguments[2], texts, sizeof texts), arguments[3]);
    }
    return 0;
}
#endif
