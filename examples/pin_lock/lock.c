/* A lock that opens for the right PIN. After three wrong ones in a row it stays shut. */
#include "lock.h"

#define DIGITS 4
#define TRIES 3

static const unsigned char secret[DIGITS] = {7, 3, 9, 1};

static unsigned tries_left = TRIES;

/* Whether the digits are those of the secret. It looks at all of them, so that time does not tell how many are right. */
static unsigned differs(unsigned entered)
{
    unsigned difference = 0;
    for (unsigned k = 0; k < DIGITS; k++) {
        difference |= secret[k] ^ (entered & 0xFF);
        entered >>= 8;
    }
    return difference;
}

unsigned try_pin(unsigned entered)
{
    if (tries_left == 0)
        return SHUT;
    tries_left--;
    if (differs(entered))
        return SHUT;
    tries_left = TRIES;
    return OPEN;
}
