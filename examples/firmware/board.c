/* A board whose console and whose end are a debugger's, by semihosting: so an emulator can be the board. And what a compiler takes to be there,
 * with no C library to have it. */
#include "board.h"

#include <stddef.h>
#include <stdint.h>

#define WRITE0 0x04u
#define EXIT 0x18u
#define APPLICATION_EXIT 0x20026u
#define RUN_TIME_ERROR 0x20023u

/* The start of each processor has it: a number for what is asked, and a word or an address. */
uintptr_t semihosting(uintptr_t what, uintptr_t with);

int main(void);

void board_put(const char *text)
{
    semihosting(WRITE0, (uintptr_t)text);
}

/* The start calls it, on the stack that it has set up, with what is not initialized cleared. */
void board_main(void);
void board_main(void)
{
    uintptr_t why = main() == 0 ? APPLICATION_EXIT : RUN_TIME_ERROR;
#ifdef __aarch64__
    uintptr_t end[2];
    end[0] = why;
    end[1] = 0;
    semihosting(EXIT, (uintptr_t)end);
#else
    semihosting(EXIT, why);
#endif
    for (;;)
        ;
}

void *memcpy(void *restrict to, const void *restrict from, size_t len);
void *memcpy(void *restrict to, const void *restrict from, size_t len)
{
    uint8_t *t = to;
    const uint8_t *f = from;
    while (len-- > 0)
        *t++ = *f++;
    return to;
}

void *memset(void *at, int value, size_t len);
void *memset(void *at, int value, size_t len)
{
    uint8_t *a = at;
    while (len-- > 0)
        *a++ = (uint8_t)value;
    return at;
}

#ifdef __arm__
/* The quotient, bit by bit from the highest; what is left over goes where the address says. __aeabi_uldivmod, which the library calls for
 * a division of 64-bit numbers, is this with the rest in registers (start-armv7.S). */
uint64_t divide(uint64_t number, uint64_t by, uint64_t *left);
uint64_t divide(uint64_t number, uint64_t by, uint64_t *left)
{
    uint64_t quotient = 0, rest = 0;
    int bit;
    for (bit = 63; bit >= 0; bit--) {
        int over = (int)(rest >> 63);
        rest = rest << 1 | (number >> bit & 1);
        if (over || rest >= by) {
            rest -= by;
            quotient |= (uint64_t)1 << bit;
        }
    }
    *left = rest;
    return quotient;
}
#endif
