/* Packets on a serial line that loses, adds and changes bytes: the board's side. The host asks, and repeats what is not answered. */
#include "line.h"

enum { FLAG = 0x7E, ESCAPE = 0x7D, FLIP = 0x20, KIND = 0, NUMBER = 1, SIZE = 2, BYTES = 3, OPEN = 'O', DATA = 'D', WORKS = 'W', AGAIN = 'N', CLOSED = 'C' };

/* CRC-16 with the polynomial 1021, from FFFF on. */
static uint16_t checksum(const uint8_t *bytes, unsigned size)
{
    uint16_t sum = 0xFFFF;
    for (unsigned bit = 0; bit < 8 * size; bit++) {
        unsigned out = (sum >> 15) ^ (bytes[bit / 8] >> (7 - bit % 8) & 1);
        sum = (uint16_t)((sum << 1) ^ (out ? 0x1021 : 0));
    }
    return sum;
}

static bool is_sound(const line_packet *packet)
{
    const uint8_t *bytes = packet->bytes;
    unsigned size = packet->size;
    if (packet->is_damaged || packet->is_escaped || size < BYTES + 2 || size != bytes[SIZE] + BYTES + 2u)
        return false;
    return checksum(bytes, size - 2) == bytes[size - 2] + 256u * bytes[size - 1];
}

enum line_came line_take(line_packet *packet, uint8_t byte)
{
    enum line_came came = LINE_MIDDLE;
    if (byte == FLAG) {
        if (packet->size > 0 || packet->is_escaped)
            came = is_sound(packet) ? LINE_PACKET : LINE_DAMAGED;
        packet->size = 0;
        packet->is_escaped = packet->is_damaged = false;
    } else if (packet->size == LINE_WHOLE) {
        packet->is_damaged = true;
    } else if (byte == ESCAPE && !packet->is_escaped) {
        packet->is_escaped = true;
    } else {
        packet->bytes[packet->size++] = packet->is_escaped ? byte ^ FLIP : byte;
        packet->is_escaped = false;
    }
    return came;
}

static unsigned put_escaped(uint8_t byte, uint8_t *wire)
{
    if (byte != FLAG && byte != ESCAPE) {
        wire[0] = byte;
        return 1;
    }
    wire[0] = ESCAPE;
    wire[1] = byte ^ FLIP;
    return 2;
}

unsigned line_put(uint8_t kind, uint8_t number, const uint8_t *bytes, unsigned size, uint8_t wire[LINE_WIRE])
{
    uint8_t whole[LINE_WHOLE] = {kind, number, (uint8_t)size};
    unsigned at = 1;
    for (unsigned i = 0; i < size; i++)
        whole[BYTES + i] = bytes[i];
    uint16_t sum = checksum(whole, BYTES + size);
    whole[BYTES + size] = (uint8_t)sum;
    whole[BYTES + size + 1] = (uint8_t)(sum >> 8);
    wire[0] = FLAG;
    for (unsigned i = 0; i < BYTES + size + 2; i++)
        at += put_escaped(whole[i], wire + at);
    wire[at++] = FLAG;
    return at;
}

static void send(const uint8_t *wire, unsigned size, void (*put)(uint8_t byte))
{
    for (unsigned i = 0; i < size; i++)
        put(wire[i]);
}

static void send_short(uint8_t kind, uint8_t number, void (*put)(uint8_t byte))
{
    uint8_t wire[LINE_WIRE], nothing = 0;
    send(wire, line_put(kind, number, &nothing, 0, wire), put);
}

enum line_news line_come(line_state *line, uint8_t byte, void (*put)(uint8_t byte))
{
    const uint8_t *bytes = line->packet.bytes;
    enum line_came came = line_take(&line->packet, byte);
    if (came == LINE_MIDDLE)
        return LINE_NOTHING;
    if (came == LINE_DAMAGED) {
        if (line->is_open)
            send_short(AGAIN, line->last, put);
    } else if (bytes[KIND] == OPEN) {
        line->is_open = true;
        line->last = bytes[NUMBER];
        return LINE_BEGINS;
    } else if (!line->is_open || bytes[KIND] != DATA) {
        send_short(CLOSED, bytes[NUMBER], put);
    } else if (bytes[NUMBER] == line->last) {
        send(line->answer, line->answer_size, put);
    } else if (bytes[NUMBER] == (uint8_t)(line->last + 1)) {
        line->last = bytes[NUMBER];
        return LINE_NEXT;
    } else {
        send_short(CLOSED, bytes[NUMBER], put);
    }
    return LINE_NOTHING;
}

void line_answer(line_state *line, const uint8_t *bytes, unsigned size, void (*put)(uint8_t byte))
{
    line->answer_size = line_put(DATA, line->last, bytes, size, line->answer);
    send(line->answer, line->answer_size, put);
}

void line_works(const line_state *line, void (*put)(uint8_t byte))
{
    send_short(WORKS, line->last, put);
}
