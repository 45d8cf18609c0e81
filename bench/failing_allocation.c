/* Counts the calls for memory of a program that it is loaded before, and refuses the one whose number, from 1, stands in
   FAIL_ALLOCATION. Where that call comes, it makes the file that FAIL_ALLOCATION_SEEN names. For allocations.sh. */
#include <errno.h>
#include <fcntl.h>
#include <stddef.h>
#include <stdlib.h>
#include <unistd.h>

void *__libc_malloc(size_t);
void *__libc_calloc(size_t, size_t);
void *__libc_realloc(void *, size_t);

static unsigned long calls, refused;

__attribute__((constructor)) static void begin(void) {
  const char *number = getenv("FAIL_ALLOCATION");
  refused = number ? strtoul(number, 0, 10) : 0;
  calls = 0;
}

static int refuses(void) {
  const char *seen;
  if (++calls != refused) {
    return 0;
  }
  seen = getenv("FAIL_ALLOCATION_SEEN");
  if (seen) {
    close(open(seen, O_CREAT | O_WRONLY, 0600));
  }
  errno = ENOMEM;
  return 1;
}

void *malloc(size_t size) { return refuses() ? 0 : __libc_malloc(size); }

void *calloc(size_t count, size_t size) { return refuses() ? 0 : __libc_calloc(count, size); }

void *realloc(void *old, size_t size) { return refuses() ? 0 : __libc_realloc(old, size); }
