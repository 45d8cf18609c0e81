/* Calls functions on a bare Cortex-M3 under QEMU, and writes a line `NAME ARGUMENT RESULT` for each call by
   semihosting. CALLS is a list of CALL(NAME), ARGUMENTS of numbers. */
typedef unsigned int u32;

#define CALL(name) int name(int);
CALLS
#undef CALL

struct call { const char *name; int (*function)(int); };
#define CALL(name) {#name, name},
static const struct call calls[] = {CALLS};
static const u32 arguments[] = {ARGUMENTS};

static void host(u32 operation, const void *parameter) {
  register u32 r0 __asm__("r0") = operation;
  register const void *r1 __asm__("r1") = parameter;
  __asm__ volatile("bkpt 0xab" : "+r" (r0) : "r" (r1) : "memory");
}

static void write(const char *text) { host(0x04, text); }

static void write_number(u32 n) {
  char text[12] = " 0x";
  for (int k = 0; k < 8; k++) text[3 + k] = "0123456789abcdef"[n >> (28 - 4 * k) & 15];
  text[11] = 0;
  write(text);
}

static void leave(u32 reason) {
  host(0x18, (const void *) reason);
  for (;;) { }
}

static void start(void) {
  for (u32 k = 0; k < sizeof calls / sizeof *calls; k++)
    for (u32 j = 0; j < sizeof arguments / sizeof *arguments; j++) {
      u32 result = calls[k].function(arguments[j]);
      write(calls[k].name);
      write_number(arguments[j]);
      write_number(result);
      write("\n");
    }
  leave(0x20026);
}

static void fault(void) {
  write("fault\n");
  leave(0x20023);
}

__attribute__((section(".vectors"), used)) static void *const vectors[] = {
    (void *) 0x00400000, start, fault, fault, fault, fault, fault};
