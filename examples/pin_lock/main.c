/* The firmware around the lock: it tries PINs and says on the serial line what came of them. */
#include "lock.h"
#include "serial.h"

static void attempt(const char *name, unsigned entered)
{
    say(name);
    say(try_pin(entered) == OPEN ? ": open\n" : ": shut\n");
}

int main(void)
{
    attempt("1234", 0x04030201);
    attempt("7391", 0x01090307);
    attempt("7392", 0x02090307);
    attempt("7393", 0x03090307);
    attempt("7394", 0x04090307);
    attempt("7391", 0x01090307);
    stop();
    return 0;
}
