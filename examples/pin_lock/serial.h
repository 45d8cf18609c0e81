/* Puts text on the serial line. */
void say(const char *text);

/* Ends the emulator. */
void stop(void);
