#include <stdio.h>
#include <stdlib.h>
#include "several.h"

u32 f(u32 x);

int main(int count, char **words) {
  printf("0x%08x\n", f((u32) strtoul(words[count - 1], 0, 0)));
  return 0;
}
