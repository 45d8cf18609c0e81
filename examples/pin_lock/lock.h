/* What the lock answers. The words differ in many bits. */
#define OPEN 0x6F70656Eu
#define SHUT 0x90857A91u

/* Tries a PIN: a byte for each digit, the first one lowest. */
unsigned try_pin(unsigned entered);
