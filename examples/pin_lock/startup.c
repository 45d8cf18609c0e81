/* From reset to main: data is copied and cleared. */
extern unsigned data_from[], data_begin[], data_end[], bss_begin[], bss_end[], stack_top[];
int main(void);

void reset(void)
{
    unsigned *from = data_from;
    for (unsigned *to = data_begin; to < data_end; to++)
        *to = *from++;
    for (unsigned *to = bss_begin; to < bss_end; to++)
        *to = 0;
    main();
    for (;;) {
    }
}

static void halt(void)
{
    for (;;) {
    }
}

/* The stack, reset, and NMI to SysTick (ARMv7-M ARM, B1.5.3). */
__attribute__((section(".vectors"), used)) static void *const vectors[16] = {
    stack_top, reset, halt, halt, halt, halt, halt, halt, halt, halt, halt, halt, halt, halt, halt, halt,
};
