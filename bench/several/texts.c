#include "several.h"

const char word[] = "several files";
static const char *const parts[] = {word + 3, word, word + 8};

u32 tuned(u32 x) { return x + (u32) word[x % 13]; }

u32 folded(u32 x) {
  const char *p = parts[x % 3];
  while (*p) x = x * 31 + (u32) *p++;
  return x;
}

u32 counted(u32 x) {
  u32 n = 0;
  for (; x; x &= x - 1) n++;
  return stirred(n);
}

u32 total(const u32 *from, u32 count) {
  u32 sum = 0;
  while (count--) sum += from[count];
  return sum;
}
