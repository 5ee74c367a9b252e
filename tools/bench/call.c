/* A host whose calls tools/bench/call measures:
 *
 *   call IMAGE lines COUNT     types 12 SQUARE . so often, a call each time: nanoseconds a call, the least of thousands
 *   call IMAGE calls COUNT     calls SQUARE so often: forth83_call, a push, a run, a pop and forth83_resume
 *   call IMAGE ticks COUNT     makes so many ticks of a loop in one call
 *   call IMAGE heap            the most bytes that each call has from malloc at one time
 *
 * It is linked with --wrap=malloc and --wrap=free, so that it sees the library's calls. */
#include "forth83.h"

#include <stdio.h>
#include <stdlib.h>
#include <string.h>
#include <time.h>

enum { HEAD = 16, SLICE = 1000 };

static forth83 machine;
static uint8_t image[70000], shown[FORTH83_ROOM], page[FORTH83_PAGE];
static size_t held, most;

void *__real_malloc(size_t size);
void __real_free(void *at);

void *__wrap_malloc(size_t size)
{
    uint8_t *at = __real_malloc(size + HEAD);
    if (at == NULL)
        return NULL;
    memcpy(at, &size, sizeof size);
    held += size;
    if (held > most)
        most = held;
    return at + HEAD;
}

void __wrap_free(void *at)
{
    if (at == NULL)
        return;
    size_t size;
    memcpy(&size, (uint8_t *)at - HEAD, sizeof size);
    held -= size;
    __real_free((uint8_t *)at - HEAD);
}

static void must(uint32_t status, const char *what)
{
    if (status != FORTH83_DONE) {
        fprintf(stderr, "call: %s: status %u\n", what, (unsigned)status);
        exit(1);
    }
}

/* Types a line, of which the call reads all, and which ends for this reason. */
static void types(const char *line, uint64_t ticks, uint32_t stop)
{
    forth83_end end;
    must(forth83_run(&machine, (const uint8_t *)line, strlen(line), shown, sizeof shown, ticks, &end), line);
    if (end.read != strlen(line) || end.stop != stop) {
        fprintf(stderr, "call: %s: stop %u\n", line, (unsigned)end.stop);
        exit(1);
    }
}

static uint64_t now(void)
{
    struct timespec at;
    clock_gettime(CLOCK_MONOTONIC, &at);
    return (uint64_t)at.tv_sec * 1000000000u + (uint64_t)at.tv_nsec;
}

static void time_lines(unsigned long count)
{
    uint64_t least = UINT64_MAX;
    types(": SQUARE DUP * ;\n", 1000000, FORTH83_STOP_TYPED);
    for (unsigned long done = 0; done < count; done += SLICE) {
        uint64_t before = now(), took;
        for (unsigned i = 0; i < SLICE; i++)
            types("12 SQUARE .\n", 1000000, FORTH83_STOP_TYPED);
        took = now() - before;
        least = took < least ? took : least;
    }
    printf("%.0f\n", (double)least / SLICE);
}

/* Calls the word at an address so often, each time with an argument that is pushed and a result that is popped. */
static void make_calls(unsigned long count)
{
    uint16_t word, x;
    types(": SQUARE DUP * ;\n", 1000000, FORTH83_STOP_TYPED);
    must(forth83_find(&machine, (const uint8_t *)"SQUARE", 6, &word), "SQUARE");
    for (unsigned long done = 0; done < count; done++) {
        must(forth83_call(&machine, word), "call");
        must(forth83_push(&machine, 12), "push");
        types("", 1000, FORTH83_STOP_RETURNED);
        must(forth83_pop(&machine, &x), "pop");
        must(forth83_resume(&machine), "resume");
    }
}

static void show_most(const char *what, uint32_t status)
{
    must(status, what);
    printf("%s %zu\n", what, most);
    most = 0;
}

static void measure_heap(size_t size)
{
    static uint8_t file[70000];
    uint64_t file_size;
    uint16_t word, x;
    must(forth83_load(image, size, 8, &machine), "load");
    printf("image %zu\nload %zu\n", size, most);
    most = 0;
    types("", 1000000, FORTH83_STOP_TYPED);
    show_most("run", 0);
    show_most("find", forth83_find(&machine, (const uint8_t *)"DUP", 3, &word));
    types(": L BEGIN AGAIN ; L\n", 10000, FORTH83_STOP_LIMIT);
    most = 0;
    show_most("push", forth83_push(&machine, 7));
    show_most("pop", forth83_pop(&machine, &x));
    show_most("save", forth83_save(&machine, word, file, sizeof file, &file_size));
    printf("file %zu\n", (size_t)file_size);
    must(forth83_find(&machine, (const uint8_t *)"QUIT", 4, &word), "QUIT");
    show_most("enter", forth83_enter(&machine, word));
    types("3 BLOCK DROP UPDATE FLUSH\n", 1000000, FORTH83_STOP_BLOCK);
    most = 0;
    show_most("read", forth83_read(&machine, page, sizeof page));
    types("", 1000000, FORTH83_STOP_BLOCK);
    most = 0;
    show_most("page", forth83_page(&machine, page, sizeof page));
    show_most("written", forth83_written(&machine));
    types("", 1000000, FORTH83_STOP_TYPED);
    most = 0;
    show_most("ended", forth83_ended(&machine));
}

int main(int count, char **arguments)
{
    FILE *file = count > 2 ? fopen(arguments[1], "rb") : NULL;
    if (file == NULL)
        return 2;
    size_t size = fread(image, 1, sizeof image, file);
    fclose(file);
    if (strcmp(arguments[2], "heap") == 0) {
        measure_heap(size);
        return 0;
    }
    if (count != 4)
        return 2;
    must(forth83_load(image, size, 8, &machine), "load");
    if (strcmp(arguments[2], "lines") == 0) {
        time_lines(strtoul(arguments[3], NULL, 10));
    } else if (strcmp(arguments[2], "calls") == 0) {
        make_calls(strtoul(arguments[3], NULL, 10));
    } else {
        types(": IN 1000 0 DO I DROP LOOP ; : T BEGIN IN 0 UNTIL ;\n", 1000000, FORTH83_STOP_TYPED);
        types("T\n", strtoull(arguments[3], NULL, 10), FORTH83_STOP_LIMIT);
    }
    return 0;
}
