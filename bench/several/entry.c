#include "several.h"

static u32 turns(u32 x) { return x % 9 + 3; }

/* What `skipguard run` calls. */
u32 f(u32 x) {
  for (u32 k = turns(x); k > 0; k--) {
    x = steps[(x ^ k) & 3](x + k);
    seen[k & 7] += x;
  }
  return x ^ total(seen, 8) ^ calls << 16;
}
