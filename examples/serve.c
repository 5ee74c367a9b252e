/* A server over the C library: a host drives an image by frames, as it drives `forth83 serve IMAGE [BLOCKS]`.
 *
 *   serve [serve] IMAGE [BLOCKS]
 *   serve advise CASE                as `forth83 advise`; CASE is a file, or /dev/stdin
 *
 * Requests come on standard input, and replies go to standard output; docs/FORMATS.md has the frames. forth83_serve obeys each request. What
 * a server with a file of blocks adds is here: between two calls it answers for the blocks of its file, and it writes the updated buffers at `b`,
 * at `q`, and when the frames end. The replies are those of `forth83 serve`, byte for byte.
 *
 *   cc -O2 -I library/include serve.c library/lib/libforth83.a -o serve */
#include "forth83.h"

#include <stdbool.h>
#include <stdio.h>
#include <stdlib.h>
#include <string.h>
#ifdef _WIN32
#include <fcntl.h>
#include <io.h>
#include <share.h>
#else
#include <sys/file.h>
#endif

enum { MOST_BLOCKS = 65536, MOST_SHOWN = 2048, MOST_TEXT = 1 << 20, END_SIZE = 10, FAILED_END = 5 };

static forth83 machine, before;
static uint8_t body[65536], *reply;
static uint64_t room = FORTH83_SERVE_ROOM, size;
static FILE *block_file;
static uint32_t block_count;

static void refuse(const char *what, const char *name)
{
    printf("%s%s\n", what, name);
    exit(1);
}

/* Obeys a request: its reply is in `reply`, and has `size` bytes. Only a look has a reply that is longer than the room; it is asked again. */
static void obey(uint8_t kind, const uint8_t *bytes, uint64_t count)
{
    uint32_t status = FORTH83_LONG_REPLY;
    while (reply == NULL || (status = forth83_serve(&machine, kind, bytes, count, reply, room, &size)) == FORTH83_LONG_REPLY) {
        if (reply != NULL)
            room = size;
        free(reply);
        if ((reply = malloc((size_t)room)) == NULL)
            refuse("out of memory", "");
    }
    if (status != FORTH83_DONE)
        refuse("serve: ", forth83_status_text(status));
}

static void send_bytes(const uint8_t *bytes, uint64_t count)
{
    if (fwrite(bytes, 1, (size_t)count, stdout) != (size_t)count)
        exit(FAILED_END);
}

/* The last frame of a reply: `e`, the ticks that were done, what the machine does now, and the number of that. */
static const uint8_t *end_of_reply(void)
{
    return reply + size - END_SIZE;
}

static uint32_t long_at(const uint8_t *bytes)
{
    return bytes[0] + 256u * bytes[1] + 65536u * bytes[2] + 16777216u * bytes[3];
}

static void put_long(uint8_t *bytes, uint32_t number)
{
    for (int i = 0; i < 4; i++, number /= 256)
        bytes[i] = (uint8_t)number;
}

/* How many bytes the reply shows, in its frames before the last one. */
static uint64_t shown_in_reply(void)
{
    uint64_t at = 0, shown = 0;
    for (uint32_t count; at + END_SIZE < size; at += 3 + count, shown += count)
        count = reply[at + 1] + 256u * reply[at + 2];
    return shown;
}

static void run_for(uint32_t limit)
{
    uint8_t bytes[4];
    put_long(bytes, limit);
    obey('r', bytes, sizeof bytes);
}

/* Runs from where the machine is: for at most so many ticks, and up to the tick after which at least so many bytes were shown. */
static void run_up_to(uint32_t limit, uint64_t shown)
{
    uint32_t least = 1, most;
    before = machine;
    run_for(limit);
    if (shown_in_reply() < shown || shown == MOST_SHOWN)
        return;
    for (most = long_at(end_of_reply() + 3); least < most;) {
        uint32_t middle = least + (most - least) / 2;
        machine = before;
        run_for(middle);
        if (shown_in_reply() < shown)
            least = middle + 1;
        else
            most = middle;
    }
    machine = before;
    run_for(most);
}

static bool move_block(uint16_t block, uint8_t *page, bool is_write)
{
    if (fseek(block_file, (long)block * FORTH83_PAGE, SEEK_SET) != 0)
        return false;
    return (is_write ? fwrite(page, 1, FORTH83_PAGE, block_file) : fread(page, 1, FORTH83_PAGE, block_file)) == FORTH83_PAGE;
}

/* Answers the request for a block that the file has; whether there was one. */
static bool answer_block(void)
{
    uint8_t page[FORTH83_PAGE];
    bool is_write = machine.asks == FORTH83_ASKS_WRITE;
    if (machine.halts != FORTH83_RUNS || machine.asks < FORTH83_ASKS_READ || machine.asked >= block_count)
        return false;
    if (is_write)
        forth83_page(&machine, page, sizeof page);
    if (!move_block(machine.asked, page, is_write))
        obey(is_write ? 'g' : 'f', page, 0);
    else if (is_write)
        obey('w', page, 0);
    else
        obey('p', page, sizeof page);
    return true;
}

/* A run, with the answers for the blocks of the file between its parts. */
static void run(uint32_t limit)
{
    uint8_t end[END_SIZE];
    uint32_t done = 0;
    uint64_t shown = 0;
    bool goes_on = true;
    while (goes_on) {
        run_up_to(limit - done, MOST_SHOWN - shown);
        done += long_at(end_of_reply() + 3);
        shown += shown_in_reply();
        send_bytes(reply, size - END_SIZE);
        goes_on = answer_block() && end_of_reply()[7] == '-' && done < limit && shown < MOST_SHOWN;
    }
    memcpy(end, end_of_reply(), END_SIZE);
    put_long(end + 3, done);
    send_bytes(end, END_SIZE);
}

/* Writes the updated buffers of blocks that the file has; how many could not be written. They are at the end of memory, by their slots. */
static unsigned save(void)
{
    uint32_t limit = 65536u - 1024u * machine.buffer_count;
    unsigned lost = 0;
    for (unsigned i = 0; i < machine.buffer_count; i++) {
        const forth83_buffer *it = &machine.buffers[i];
        if (it->has_block && it->updated && it->block < block_count)
            lost += !move_block(it->block, &machine.memory[limit + 1024u * it->slot], true);
    }
    return lost;
}

/* Serves the request of a frame; whether requests may come after it. */
static bool serve(uint8_t kind, size_t count)
{
    if (kind == 'r' && count == 4) {
        run(long_at(body));
    } else if ((kind == 'b' || kind == 'q') && count == 0) {
        uint8_t saved[5] = {kind, 2, 0, (uint8_t)save(), 0};
        send_bytes(saved, sizeof saved);
    } else {
        obey(kind, body, count);
        send_bytes(reply, size);
    }
    if (fflush(stdout) != 0)
        exit(FAILED_END);
    return kind != 'q' || count != 0;
}

/* Serves frames until one says so, or none comes; whether all updated buffers were written. */
static bool serve_all(void)
{
    uint8_t head[3];
    while (fread(head, 1, sizeof head, stdin) == sizeof head) {
        size_t count = head[1] + 256u * head[2];
        if (fread(body, 1, count, stdin) != count)
            break;
        if (!serve(head[0], count))
            return true;
    }
    return save() == 0;
}

/* The file of blocks, which no other run has meanwhile. */
static void open_blocks(const char *name)
{
    long bytes;
#ifdef _WIN32
    block_file = _fsopen(name, "r+b", _SH_DENYRW);
#else
    block_file = fopen(name, "r+b");
#endif
    if (block_file == NULL || setvbuf(block_file, NULL, _IONBF, 0) != 0 || fseek(block_file, 0, SEEK_END) != 0 || (bytes = ftell(block_file)) < 0)
        refuse("cannot open ", name);
#ifndef _WIN32
    if (flock(fileno(block_file), LOCK_EX | LOCK_NB) != 0)
        refuse(name, " is in use by another run; end that first, or take a copy");
#endif
    block_count = bytes / FORTH83_PAGE > MOST_BLOCKS ? MOST_BLOCKS : (uint32_t)(bytes / FORTH83_PAGE);
}

static void load(const char *name)
{
    static uint8_t image[70000];
    FILE *file = fopen(name, "rb");
    if (file == NULL)
        refuse("cannot open ", name);
    uint32_t status = forth83_load(image, fread(image, 1, sizeof image, file), MOST_BLOCKS, &machine);
    fclose(file);
    if (status != FORTH83_DONE)
        refuse("image: ", forth83_status_text(status));
}

/* Shows what is said of a case. */
static int advise(const char *name)
{
    static uint8_t text[MOST_TEXT];
    FILE *file = strcmp(name, "/dev/stdin") == 0 ? stdin : fopen(name, "rb");
    uint32_t status = FORTH83_SHORT_ROOM;
    if (file == NULL)
        refuse("cannot open ", name);
    uint64_t count = fread(text, 1, sizeof text, file);
    if (count == sizeof text)
        refuse(name, " is too long for a case");
    for (size = FORTH83_PAGE; status == FORTH83_SHORT_ROOM;) {
        room = size;
        free(reply);
        if ((reply = malloc((size_t)room)) == NULL)
            refuse("out of memory", "");
        status = forth83_advise(text, count, reply, room, &size);
    }
    if (status != FORTH83_DONE)
        refuse("case: ", forth83_status_text(status));
    send_bytes(reply, size);
    send_bytes((const uint8_t *)"\n", 1);
    return fflush(stdout) == 0 ? 0 : FAILED_END;
}

int main(int count, char **words)
{
#ifdef _WIN32
    _setmode(_fileno(stdin), _O_BINARY);
    _setmode(_fileno(stdout), _O_BINARY);
#endif
    if (count > 2 && strcmp(words[1], "advise") == 0)
        return advise(words[count - 1]);
    if (count > 1 && strcmp(words[1], "serve") == 0) { /* as hosts of forth83 call it */
        count--;
        words++;
    }
    if (count < 2 || count > 3) {
        fprintf(stderr, "usage: serve IMAGE [BLOCKS], or serve advise CASE\n");
        return 2;
    }
    load(words[1]);
    if (count == 3)
        open_blocks(words[2]);
    return serve_all() ? 0 : 1;
}
