#include "several.h"

u32 calls = 5;
u32 seen[8];

/* Another file has one of its own, which counts. */
__attribute__((weak)) u32 tuned(u32 x) { return x; }

u32 stirred(u32 x) { calls++; return tuned(x * 2654435761u); }

static u32 halved(u32 x) { calls += 2; return x >> 1 | x << 31; }

const step steps[4] = {stirred, folded, counted, halved};
