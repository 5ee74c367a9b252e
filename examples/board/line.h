/* Packets on a serial line, as docs/FORMATS.md has them under "A board's line": the board's side. No memory but the records below. */
#ifndef LINE_H
#define LINE_H
#include <stdbool.h>
#include <stdint.h>

enum { LINE_MOST = 128, LINE_WHOLE = LINE_MOST + 5, LINE_WIRE = 2 * LINE_WHOLE + 2 };

/* What a byte came to: the middle of a packet, a damaged packet, or the end of a sound one. */
enum line_came { LINE_MIDDLE, LINE_DAMAGED, LINE_PACKET };

/* The packet that is coming: its kind, its number, its size, its bytes, and its checksum. */
typedef struct line_packet {
    uint8_t bytes[LINE_WHOLE];
    unsigned size;
    bool is_escaped, is_damaged;
} line_packet;

/* A conversation: the packet that comes, the number of the last one that was taken, and its answer, which is sent again if it comes again. */
typedef struct line_state {
    line_packet packet;
    bool is_open;
    uint8_t last;
    uint8_t answer[LINE_WIRE];
    unsigned answer_size;
} line_state;

/* Takes a byte of a packet. After a sound one `bytes` has its kind, its number, how many bytes follow, and these, until the next byte is taken. */
enum line_came line_take(line_packet *packet, uint8_t byte);

/* Puts a packet as it is sent into `wire`; how many bytes it has. SIZE is at most LINE_MOST. */
unsigned line_put(uint8_t kind, uint8_t number, const uint8_t *bytes, unsigned size, uint8_t wire[LINE_WIRE]);

/* What a host has sent: nothing new, its first packet (a host begins), or the next one: its bytes are at packet.bytes + 3. Each is given once. */
enum line_news { LINE_NOTHING, LINE_BEGINS, LINE_NEXT };
enum line_news line_come(line_state *line, uint8_t byte, void (*put)(uint8_t byte));

/* Answers the packet that was given last, with at most LINE_MOST bytes. */
void line_answer(line_state *line, const uint8_t *bytes, unsigned size, void (*put)(uint8_t byte));

/* Says that the packet that was given last has come, and that its answer takes time. */
void line_works(const line_state *line, void (*put)(uint8_t byte));

#endif
