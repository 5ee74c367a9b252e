/* The header's own code: cells at both ends of memory, the depth of an empty stack, and bytes of memory that didn't fit into a room: none, two pieces
 * around the end of memory, and a line that ends at the last byte. check-embed makes layout.h, with which this does not compile where the header's
 * records lie otherwise than those of the library's sources, or its numbers are others. */
#include "forth83.h"
#include "layout.h"
#include <string.h>
static char taken[100];
static int pieces;

static void take(void *host, const uint8_t *bytes, uint64_t size)
{
    strncat(host, (const char *)bytes, size);
    pieces++;
}

static int takes(const forth83 *machine, uint32_t stop, uint16_t at, uint16_t len, const char *text, int count)
{
    forth83_end end = {0, 0, 0, stop, at, len};
    memset(taken, 0, sizeof taken);
    pieces = 0;
    forth83_take_span(machine, &end, take, taken);
    return strcmp(taken, text) == 0 && pieces == count;
}

int main(void)
{
    static forth83 machine;
    machine.values_top = 256;
    forth83_set_cell(&machine, 65535, 0x1234);
    forth83_set_cell(&machine, 100, 0xfffe);
    if (!(machine.memory[65535] == 0x34 && machine.memory[0] == 0x12 && forth83_cell(&machine, 65535) == 0x1234
          && forth83_cell(&machine, 100) == 0xfffe && forth83_depth(&machine) == 0))
        return 1;
    machine.buffer_count = 2;
    machine.buffers[1] = (forth83_buffer){0, 1, 150, 0};
    machine.buffers[0] = (forth83_buffer){1, 1, 151, 1};
    if (!(forth83_drop_block(&machine, 150) && machine.buffers[1].has_block == 0 && !forth83_drop_block(&machine, 151)
          && machine.buffers[0].has_block == 1 && forth83_drop_block(&machine, 7)))
        return 1;
    memcpy(machine.memory + 65533, "abc", 3);
    memcpy(machine.memory, "defg", 4);
    if (strcmp(forth83_status_text(FORTH83_DONE), "done") != 0 || strcmp(forth83_status_text(FORTH83_STACK), "the stack is full or empty") != 0
        || strcmp(forth83_status_text(FORTH83_REFUSED + 1), "unknown status") != 0)
        return 1;
    return !(takes(&machine, FORTH83_STOP_LIMIT, 0, 0, "", 0) && takes(&machine, FORTH83_STOP_SPAN, 65534, 5, "bcdef", 2)
             && takes(&machine, FORTH83_STOP_SPAN, 65534, 2, "bc", 1) && takes(&machine, FORTH83_STOP_LINE, 65533, 3, "abc ", 2)
             && takes(&machine, FORTH83_STOP_LINE, 65535, 2, "cd ", 3) && takes(&machine, FORTH83_STOP_SPAN, 0, 4, "defg", 1));
}
