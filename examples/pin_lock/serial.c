/* The first UART of the board (CMSDK APB UART). Its registers do something at each access, so this file is not hardened:
 * every access would happen twice. */
#include "serial.h"

#define UART ((volatile unsigned *)0x40004000)
#define DATA 0
#define STATE 1
#define CONTROL 2
#define DIVIDER 4
#define FULL 1u

void say(const char *text)
{
    UART[DIVIDER] = 16;
    UART[CONTROL] = 1;
    for (; *text; text++) {
        while (UART[STATE] & FULL) {
        }
        UART[DATA] = (unsigned char)*text;
    }
}

/* Semihosting: SYS_EXIT with "application exit". */
void stop(void)
{
    register unsigned operation asm("r0") = 0x18;
    register unsigned reason asm("r1") = 0x20026;
    asm volatile("bkpt 0xAB" : : "r"(operation), "r"(reason) : "memory");
}
