/* A Forth on a board. What belongs to one board is in the six functions of board.h.
 *
 * At reset the board starts the image that was saved last in its flash, or the one that it was built with, and runs it alone. What it shows is
 * sent as it is. When a host begins to speak (./forth --target DEVICE), the machine rests, and does from then on only what the host asks, until
 * the host leaves. The host's frames come in packets (line.c), and go to forth83_serve; those of docs/FORMATS.md, "A board", are answered here.
 *
 * A board that is alone has no blocks and nobody who types: a program that asks for a key or a line waits for a host. After a fault, and after
 * BYE, the board starts its image again. */
#include "board.h"
#include "forth83.h"
#include "line.h"
#include "store.h"

#include <string.h>

#ifndef ROOM
#define ROOM 8192 /* bytes of a reply: what one step shows must fit into 2,048 less */
#endif
enum { VERSION = 1, SLICE = 2000, HEAD = 3, MOST_FRAME = 2048, END_SIZE = 10, MOST_SHOWN = 2048, CUT_SIZE = 4 };
enum { SERVICE = 56, FIRST = 58, SECOND = 60, MARK = 62, HOST = 83 }; /* the cells of the door */
enum { PROMPT = 1, BYE_WITH = 13, EMPTY = 14, MS = 22, IS_KEY = 23, CLOCK = 46, SAID = 17 };
enum { NO_REQUEST = 3, NO_MEMORY = 11, NOT_POSSIBLE = 12 }; /* causes of a refusal */

extern const uint8_t image_begins[], image_ends[];
static forth83 machine;
static line_state line;
static uint8_t frame[HEAD + MOST_FRAME], reply[ROOM];
static uint32_t frame_size, reply_size, reply_sent;
static uint16_t acts;   /* how many services the board did */
static bool sleeps;     /* MS waits */
static uint32_t wakes;  /* until then */
static bool has_failed; /* there was a fault since the board is alone */

static uint32_t number_at(const uint8_t *bytes, unsigned size)
{
    uint32_t number = 0;
    while (size > 0)
        number = 256 * number + bytes[--size];
    return number;
}

static void put_number(uint8_t *bytes, unsigned size, uint32_t number)
{
    for (unsigned i = 0; i < size; i++, number >>= 8)
        bytes[i] = (uint8_t)number;
}

/* Starts the image that was saved last, the one that was saved before, or the one that is built in. */
static void start(void)
{
    uint32_t size;
    const uint8_t *last = store_image(true, &size);
    bool is_loaded = last && forth83_load(last, size, 65536, &machine) == FORTH83_DONE;
    const uint8_t *before = is_loaded ? NULL : store_image(false, &size);
    is_loaded = is_loaded || (before && forth83_load(before, size, 65536, &machine) == FORTH83_DONE);
    if (!is_loaded)
        forth83_load(image_begins, (uint64_t)(image_ends - image_begins), 65536, &machine);
    forth83_set_cell(&machine, MARK, HOST);
    sleeps = has_failed = false;
}

/* Replies */

static void put_frame(uint32_t at, uint8_t kind, uint32_t size)
{
    reply[at] = kind;
    put_number(reply + at + 1, 2, size);
    reply_size = at + HEAD + size;
}

static void put_cell(uint8_t kind, uint16_t cell)
{
    put_frame(0, kind, 2);
    put_number(reply + HEAD, 2, cell);
}

static void refuse(uint32_t at, uint8_t cause)
{
    put_frame(at, '!', 1);
    reply[at + HEAD] = cause;
}

/* A reply did not fit: the front of what it shows stays, and a refusal says that the rest is missing. */
static void cut_reply(void)
{
    uint32_t at = 0, room = ROOM - CUT_SIZE;
    while (at + HEAD <= room && at + HEAD + number_at(reply + at + 1, 2) <= room)
        at += HEAD + number_at(reply + at + 1, 2);
    if (at + HEAD <= room) {
        put_number(reply + at + 1, 2, room - at - HEAD);
        at = room;
    }
    refuse(at, NO_MEMORY);
}

/* Has the request obeyed, with its reply from AT on; whether the room had all of that. */
static bool serve(uint32_t at, uint8_t kind, const uint8_t *body, uint32_t size)
{
    uint64_t replied = 0;
    uint32_t status = forth83_serve(&machine, kind, body, size, reply + at, ROOM - CUT_SIZE - at, &replied);
    reply_size = at + (uint32_t)replied;
    if (status == FORTH83_LONG_REPLY)
        cut_reply();
    else if (status != FORTH83_DONE)
        refuse(at, NOT_POSSIBLE);
    return status == FORTH83_DONE;
}

/* The service of the board that the machine asks for; NULL if it asks for none. */
static const board_service *asked_service(void)
{
    uint16_t number = forth83_cell(&machine, SERVICE);
    const board_service *it = board_services;
    if (machine.halts != FORTH83_RUNS || machine.asks != FORTH83_ASKS_KEY || number == 0)
        return NULL;
    while (it->number != 0 && it->number != number)
        it++;
    return it->number != 0 ? it : NULL;
}

/* Answers a service that the machine asks for: with a fault, or 0. */
static void answer_service(uint32_t at, uint8_t fault)
{
    forth83_set_cell(&machine, SERVICE, 0);
    serve(at, 'k', &fault, 1);
}

/* Runs for at most so many ticks; services of the board are done meanwhile. */
static void run(uint32_t ticks)
{
    uint8_t body[4];
    uint32_t done = 0;
    reply_size = END_SIZE;
    for (;;) {
        uint32_t at = reply_size - END_SIZE;
        put_number(body, sizeof body, at < MOST_SHOWN ? ticks - done : 0);
        if (!serve(at, 'r', body, sizeof body))
            return;
        at = reply_size - END_SIZE;
        done += number_at(reply + at + HEAD, 4);
        put_number(reply + at + HEAD, 4, done);
        const board_service *service = asked_service();
        if (service == NULL)
            return;
        acts++;
        answer_service(at, service->serve(&machine));
    }
}

/* What a host asks */

/* The checksums of COUNT pieces of memory: S address, size, count. */
static void sum_pieces(const uint8_t *body, uint32_t size)
{
    uint32_t at = number_at(body, 2), piece = number_at(body + 2, 2), count = number_at(body + 4, 2);
    if (size != 6 || count > 16 || at + piece * count > 65536) {
        refuse(0, NO_REQUEST);
        return;
    }
    put_frame(0, 'S', 4 * count);
    for (uint32_t i = 0; i < count; i++)
        put_number(reply + HEAD + 4 * i, 4, crc32(machine.memory + at + piece * i, piece));
}

/* A part of an image for the flash: F place, bytes. The end of one: E size, checksum. */
static void save_image(uint8_t kind, const uint8_t *body, uint32_t size)
{
    bool is_done = false;
    if (kind == 'F' && size > 2)
        is_done = store_write(number_at(body, 2), body + 2, size - 2);
    if (kind == 'E' && size == 6)
        is_done = store_end(number_at(body, 2), number_at(body + 2, 4));
    if (is_done)
        put_frame(0, kind, 0);
    else
        refuse(0, NOT_POSSIBLE);
}

/* The bytes of a block that is read, without the blanks at its end: B bytes. */
static void answer_block(uint8_t *body, uint32_t size)
{
    if (size > FORTH83_PAGE) {
        refuse(0, NO_REQUEST);
        return;
    }
    memset(body + size, ' ', FORTH83_PAGE - size);
    serve(0, 'p', body, FORTH83_PAGE);
}

/* The frame that has come whole. */
static void obey(void)
{
    uint8_t kind = frame[0], *body = frame + HEAD;
    uint32_t size = number_at(frame + 1, 2);
    reply_sent = 0;
    if (kind == 'r' || kind == 'F' || kind == 'E')
        line_works(&line, put_byte);
    if (size > MOST_FRAME)
        refuse(0, NO_REQUEST);
    else if (kind == 'r' && size == 4)
        run(number_at(body, 4));
    else if (kind == 'B')
        answer_block(body, size);
    else if (kind == 'S')
        sum_pieces(body, size);
    else if (kind == 'F' || kind == 'E')
        save_image(kind, body, size);
    else if (kind == 'X')
        put_frame(0, 'X', 0);
    else if (kind == 'U')
        put_cell('U', acts);
    else
        serve(0, kind, body, size);
}

static void take_frame_byte(uint8_t byte)
{
    if (frame_size < sizeof frame)
        frame[frame_size] = byte;
    frame_size++;
    if (frame_size >= HEAD && frame_size == HEAD + number_at(frame + 1, 2)) {
        obey();
        frame_size = 0;
    }
}

static void answer(void)
{
    uint32_t left = reply_size - reply_sent, size = left < LINE_MOST ? left : LINE_MOST;
    line_answer(&line, reply + reply_sent, size, put_byte);
    reply_sent += size;
    if (size > 0 && reply[0] == 'X')
        line.is_open = false;
}

static void begin(void)
{
    frame_size = reply_sent = 0;
    sleeps = has_failed = false; /* the host is asked for the time */
    reply[0] = VERSION;
    reply_size = 1 + (uint32_t)strlen(board_name);
    memcpy(reply + 1, board_name, strlen(board_name));
    answer();
}

/* A byte has come from the line. */
static void take_byte(uint8_t byte)
{
    enum line_news news = line_come(&line, byte, put_byte);
    if (news == LINE_BEGINS)
        begin();
    if (news != LINE_NEXT)
        return;
    for (unsigned i = 0; i < line.packet.bytes[2]; i++)
        take_frame_byte(line.packet.bytes[3 + i]);
    answer();
}

/* Alone */

static void show(const char *text)
{
    while (*text)
        put_byte((uint8_t)*text++);
}

/* Sends what a run has shown: the frames s of its reply. */
static void show_reply(void)
{
    for (uint32_t at = 0; at + HEAD <= reply_size; at += HEAD + number_at(reply + at + 1, 2))
        for (uint32_t i = 0; reply[at] == 's' && i < number_at(reply + at + 1, 2); i++)
            put_byte(reply[at + HEAD + i]);
}

/* A program asks for a service, as cell 56 says, of a host that is not there. */
static void serve_alone(uint16_t service)
{
    uint32_t now = milliseconds();
    if (service == MS) {
        sleeps = true;
        wakes = now + machine.values[machine.values_top];
        return;
    }
    forth83_set_cell(&machine, FIRST, service == CLOCK ? (uint16_t)now : 0);
    forth83_set_cell(&machine, SECOND, service == CLOCK ? (uint16_t)(now >> 16) : 0);
    answer_service(0, service == CLOCK || service == IS_KEY || service == EMPTY || service == BYE_WITH ? 0 : SAID);
}

/* A stretch of the program that no host drives. */
static void go_on_alone(void)
{
    uint16_t service = forth83_cell(&machine, SERVICE);
    if (sleeps && (int32_t)(milliseconds() - wakes) < 0)
        return;
    if (sleeps) {
        sleeps = false;
        answer_service(0, 0);
    } else if (machine.halts != FORTH83_RUNS || (machine.asks == FORTH83_ASKS_LINE && service == PROMPT && has_failed)) {
        show("\r\nthe program has ended; it starts again\r\n");
        start();
    } else if (machine.asks == FORTH83_ASKS_READ || machine.asks == FORTH83_ASKS_WRITE) {
        serve(0, machine.asks == FORTH83_ASKS_READ ? 'f' : 'g', frame, 0);
    } else if (machine.asks == FORTH83_ASKS_KEY && service != 0 && asked_service() == NULL) {
        serve_alone(service);
    } else if (machine.asks == FORTH83_ASKS_NOTHING || asked_service() != NULL) {
        run(SLICE);
        has_failed = has_failed || reply[reply_size - 3] == 'f'; /* the letter of the reply's end */
        show_reply();
    }
}

int main(void)
{
    start();
    for (;;) {
        int byte = get_byte();
        if (byte >= 0)
            take_byte((uint8_t)byte);
        else if (!line.is_open)
            go_on_alone();
    }
}
