/* Starts the trial on a bare board, with its files, its output and its words by the emulator's semihosting. */
#include <stdint.h>
#include <stdlib.h>
#include <string.h>

extern uint8_t stack_begins, bss_begins, bss_ends, data_begins, data_ends;
extern const uint8_t data_in_flash;
extern void initialise_monitor_handles(void);
int main(int, char **);
static char words[1024], *list[16];

/* Asks the emulator for what its command line has after arg=. */
static void ask_words(void)
{
    struct { char *at; uint32_t size; } asked = {words, sizeof words};
    register uint32_t call __asm__("r0") = 0x15;
    register void *with __asm__("r1") = &asked;
    __asm__ volatile("bkpt 0xab" : "+r"(call) : "r"(with) : "memory");
}

void reset(void)
{
#ifdef STRICT
    *(volatile uint32_t *)0xe000ed14 |= 8; /* accesses that are not aligned are faults, as on Cortex-M0 */
#endif
#ifdef __ARM_FP
    *(volatile uint32_t *)0xe000ed88 |= 0xf00000; /* floating point, whose registers the C library uses */
#endif
    const uint8_t *from = &data_in_flash;
    for (uint8_t *at = &data_begins; at < &data_ends; at++)
        *at = *from++;
    for (uint8_t *at = &bss_begins; at < &bss_ends; at++)
        *at = 0;
    initialise_monitor_handles();
    ask_words();
    int count = 0;
    for (char *word = strtok(words, " "); word != NULL && count < 15; word = strtok(NULL, " "))
        list[count++] = word;
    exit(main(count, list));
}

static void stuck(void) { exit(99); }

__attribute__((section(".vectors"), used)) static void *const vectors[16] = {
    &stack_begins, (void *)reset, (void *)stuck, (void *)stuck, (void *)stuck, (void *)stuck, (void *)stuck};
