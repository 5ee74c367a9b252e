/* Many machines in one program: a hundred test stations, each with a Forth of its own, in turn.
 *
 *   many IMAGE
 *
 * Each station types the same plan with its own number. No station can hold up the others: each has at most SLICE ticks in its turn. Station 13
 * divides by zero, and its record counts the fault. Station 42 never ends; after ROUNDS rounds it is put back to what it was before its plan
 * and asked for something else. The results go to standard output, one line a station. */
#include "forth83.h"

#include <stdio.h>
#include <stdlib.h>
#include <string.h>

enum { STATIONS = 100, SLICE = 5000, ROUNDS = 40, FAULTY = 13, ENDLESS = 42, ROOM = 4096 };

typedef struct station {
    forth83 machine;
    char plan[96];
    size_t at;      /* how many bytes of the plan are read */
    char shown[256];
    size_t size;    /* how many bytes it has shown; what comes after them is dropped */
    int is_done;
} station;

static void must(uint32_t status, const char *what)
{
    if (status != FORTH83_DONE) {
        fprintf(stderr, "many: %s: %s\n", what, forth83_status_text(status));
        exit(1);
    }
}

/* Keeps what a station shows. */
static void show(void *host, const uint8_t *bytes, uint64_t size)
{
    station *it = host;
    size_t left = sizeof it->shown - it->size;
    size_t taken = size < left ? (size_t)size : left;
    memcpy(it->shown + it->size, bytes, taken);
    it->size += taken;
}

/* A station's turn: so many ticks, or less if it waits for more to be typed. */
static void turn(station *it)
{
    static uint8_t room[ROOM];
    uint64_t left = SLICE;
    while (!it->is_done && left > 0) {
        forth83_end end;
        const char *rest = it->plan + it->at;
        must(forth83_run(&it->machine, (const uint8_t *)rest, strlen(rest), room, sizeof room, left, &end), "a turn");
        show(it, room, end.shown);
        forth83_take_span(&it->machine, &end, show, it);
        it->at += end.read;
        left = end.left;
        if (end.stop == FORTH83_STOP_BLOCK)
            must(forth83_failed(&it->machine), "a block");
        it->is_done = end.stop == FORTH83_STOP_TYPED || end.stop == FORTH83_STOP_HALTED;
        if (end.stop == FORTH83_STOP_LIMIT)
            return;
    }
}

static void plan(station *it, int number)
{
    if (number == FAULTY)
        snprintf(it->plan, sizeof it->plan, "1 0 /\n");
    else if (number == ENDLESS)
        snprintf(it->plan, sizeof it->plan, ": LP BEGIN AGAIN ; LP\n");
    else
        snprintf(it->plan, sizeof it->plan, ": SQ DUP * ; %d SQ .\n", number);
}

/* A station's faults, and the first line that it has shown. */
static void report(const station *it, int number)
{
    size_t size = 0;
    while (size < it->size && it->shown[size] != '\n')
        size++;
    printf("%d: %u faults, ", number, (unsigned)it->machine.faults.count);
    if (it->machine.faults.count > 0)
        printf("the last one %u\n", (unsigned)it->machine.faults.last);
    else
        printf("%.*s\n", (int)size, it->shown);
}

int main(int count, char **arguments)
{
    static station stations[STATIONS];
    static uint8_t image[70000];
    static forth83 before;
    FILE *file = count == 2 ? fopen(arguments[1], "rb") : NULL;
    if (file == NULL) {
        fprintf(stderr, "usage: many IMAGE\n");
        return 2;
    }
    size_t size = fread(image, 1, sizeof image, file);
    fclose(file);
    for (int i = 0; i < STATIONS; i++) {
        must(forth83_load(image, size, 0, &stations[i].machine), arguments[1]);
        plan(&stations[i], i);
    }
    before = stations[ENDLESS].machine;
    for (int round = 0; round < ROUNDS; round++)
        for (int i = 0; i < STATIONS; i++)
            turn(&stations[i]);
    stations[ENDLESS].machine = before;
    stations[ENDLESS].at = stations[ENDLESS].size = 0;
    snprintf(stations[ENDLESS].plan, sizeof stations[ENDLESS].plan, "77 .\n");
    for (int round = 0; round < ROUNDS; round++)
        turn(&stations[ENDLESS]);
    for (int i = 0; i < STATIONS; i++)
        report(&stations[i], i);
    return 0;
}
