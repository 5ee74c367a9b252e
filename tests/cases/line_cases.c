/* The cases of line_cases.txt for examples/board/line.c: each line of the input is `sent KIND NUMBER BYTES`, a packet whose bytes on the line are
 * printed, or `came BYTES`, of which the packets are printed. Bytes are in hexadecimal, and - is none. */
#include "line.h"

#include <stdio.h>
#include <string.h>

static unsigned bytes_of(const char *text, uint8_t *bytes)
{
    unsigned size = 0, byte;
    while (sscanf(text + 2 * size, "%2x", &byte) == 1)
        bytes[size++] = (uint8_t)byte;
    return size;
}

static void print(const uint8_t *bytes, unsigned size)
{
    printf("%s", size ? "" : "-");
    for (unsigned i = 0; i < size; i++)
        printf("%02x", bytes[i]);
}

static void take(const uint8_t *bytes, unsigned size)
{
    line_packet packet = {0};
    const char *between = "";
    for (unsigned i = 0; i < size; i++) {
        enum line_came came = line_take(&packet, bytes[i]);
        if (came == LINE_MIDDLE)
            continue;
        printf("%s", between);
        between = ", ";
        if (came == LINE_PACKET)
            printf("%c %u ", packet.bytes[0], packet.bytes[1]);
        if (came == LINE_PACKET)
            print(packet.bytes + 3, packet.bytes[2]);
        else
            printf("damaged");
    }
}

int main(void)
{
    char how[8], text[2048], kind;
    uint8_t bytes[1024], wire[LINE_WIRE];
    unsigned number;
    while (scanf("%7s", how) == 1) {
        if (strcmp(how, "sent") == 0 && scanf(" %c %u %2047s", &kind, &number, text) == 3)
            print(wire, line_put((uint8_t)kind, (uint8_t)number, bytes, bytes_of(text, bytes), wire));
        else if (scanf("%2047s", text) == 1)
            take(bytes, bytes_of(text, bytes));
        printf("\n");
    }
    return 0;
}
