/* Small functions of one number, for run_agrees.sh. Each is compiled alone, under the name that its #ifdef has, and
   refers to nothing outside of itself. Sums that could overflow are of unsigned numbers. */
typedef unsigned int u32;
typedef unsigned long long u64;
typedef long long i64;

/* What stands at p is in memory here, and may be other than before. */
#define settle(p) __asm__ volatile("" : : "r" (p) : "memory")

#ifdef FUNCTION_mixed
int mixed(int x) { u32 a = x, b = a * 3 + 0x5a5a5a5a; return (b ^ (a << 5)) - ((b | 0xff00) & ~(a >> 3)); }
#endif

#ifdef FUNCTION_opposite
int opposite(int x) { u32 a = x; return 1000u - a * 9 + (~a | a >> 1) - (0x00ff00ff & -a); }
#endif

#ifdef FUNCTION_shifted
int shifted(int x) { u32 a = x, n = a & 31; return (a << n) + (a >> n) + (u32) (x >> n) + (0x12345678u >> n); }
#endif

#ifdef FUNCTION_turned
int turned(int x) { u32 a = x, n = a >> 27; return (a >> n | a << (-n & 31)) + (a >> 7 | a << 25); }
#endif

#ifdef FUNCTION_product
int product(int x) { u32 a = x; u64 p = (u64) a * (a ^ 0x9e3779b9); return (u32) (p >> 32) ^ (u32) p; }
#endif

#ifdef FUNCTION_signed_product
int signed_product(int x) { i64 p = (i64) x * (x ^ 0x1234567); return (u32) (p >> 32) + (u32) (p >> 13); }
#endif

#ifdef FUNCTION_sum_of_products
int sum_of_products(int x) {
  u64 s = 1;
  i64 t = -1;
  for (u32 k = 1; k < 9; k++) {
    s += (u64) ((u32) x + k) * ((u32) x ^ k << 20);
    t += (i64) (int) ((u32) x ^ k) * x;
  }
  return (u32) (s >> 32) ^ (u32) s ^ (u32) (t >> 32) ^ (u32) t;
}
#endif

#ifdef FUNCTION_multiplied
int multiplied(int x) { u32 a = x, b = a >> 4; return a * b - (a + 5) * (b + 3) * 7 + 1; }
#endif

#ifdef FUNCTION_divided
int divided(int x) { int d = (x >> 20) | 1; return x == -0x7fffffff - 1 ? 12 : (int) ((u32) (x / d) + (u32) (x % d) * 3); }
#endif

#ifdef FUNCTION_divided_unsigned
int divided_unsigned(int x) { u32 a = x, d = (a & 0xffff) | 2; return a / d + (a % d) * 5 + 0xfffffff0u / d; }
#endif

#ifdef FUNCTION_by_constants
int by_constants(int x) { u32 a = x; return (u32) (x / 7) + a / 10 * 3 + (u32) (x % 100) + (u32) (x / 16); }
#endif

#ifdef FUNCTION_fields
struct fields { u32 low : 5; int middle : 11; u32 high : 9; int top : 7; };
int fields(int x) {
  union { u32 word; struct fields f; } v = {x}, w = {(u32) x >> 3};
  w.f.middle = v.f.middle + 3;
  w.f.low = v.f.high;
  w.f.top = 0;
  return w.word + (u32) v.f.top * v.f.low + (u32) w.f.middle;
}
#endif

#ifdef FUNCTION_inserted
union parts { u32 word; struct { u32 low : 4, middle : 10, high : 18; } f; };
int inserted(int x) {
  union parts v = {x}, w = {~(u32) x};
  v.f.middle = (u32) x >> 7;
  w.f.high = v.word * 5;
  w.f.middle = 0;
  return v.word ^ w.word * 3;
}
#endif

#ifdef FUNCTION_byte_order
int byte_order(int x) {
  u32 a = x;
  short half = __builtin_bswap16(a);
  return __builtin_bswap32(a) + (u32) half * 3 + __builtin_bswap16(a >> 16);
}
#endif

#ifdef FUNCTION_zeros
int zeros(int x) { return x == 0 ? 99 : __builtin_clz(x) * 64 + __builtin_ctz(x); }
#endif

#ifdef FUNCTION_narrowed
int narrowed(int x) { u32 a = x; return (u32) (signed char) (a >> 8) + (u32) (short) a * 3 + (unsigned char) (a >> 16) + (unsigned short) (a >> 9); }
#endif

#ifdef FUNCTION_wide_sum
int wide_sum(int x) {
  u64 s = (u64) (u32) x << 17 | 0xfedc;
  for (int k = 0; k < 6; k++) s += s << 3 ^ (u64) (u32) x;
  return (u32) (s >> 32) ^ (u32) s;
}
#endif

#ifdef FUNCTION_ones
int ones(int x) { int n = 0; for (u32 a = x; a != 0; a &= a - 1) n++; return n; }
#endif

#ifdef FUNCTION_divisor
int divisor(int x) { u32 a = x, b = 360360; while (b != 0) { u32 r = a % b; a = b; b = r; } return a; }
#endif

#ifdef FUNCTION_root
int root(int x) {
  u32 rest = x, r = 0;
  for (u32 bit = 1u << 30; bit != 0; bit >>= 2) {
    if (rest >= r + bit) { rest -= r + bit; r = (r >> 1) + bit; } else r >>= 1;
  }
  return r;
}
#endif

#ifdef FUNCTION_checksum
int checksum(int x) {
  u32 c = ~(u32) x;
  for (int k = 0; k < 32; k++) c = c & 1 ? c >> 1 ^ 0xedb88320 : c >> 1;
  return ~c;
}
#endif

#ifdef FUNCTION_sorted
int sorted(int x) {
  volatile int v[8];
  for (u32 k = 0; k < 8; k++) v[k] = (u32) x * (k * k + 1) >> (k & 3);
  for (int k = 1; k < 8; k++)
    for (int j = k; j > 0 && v[j - 1] > v[j]; j--) { int t = v[j]; v[j] = v[j - 1]; v[j - 1] = t; }
  u32 s = 0;
  for (int k = 0; k < 8; k++) s = s * 31 + (u32) v[k];
  return s;
}
#endif

#ifdef FUNCTION_bytes
int bytes(int x) {
  unsigned char v[16];
  signed char w[16];
  u32 s = 0;
  for (u32 k = 0; k < 16; k++) { v[k] = ((u32) x >> k) + k; w[15 - k] = v[k] ^ 0x41; }
  settle(v);
  settle(w);
  for (u32 k = 0; k < 16; k++) s = s * 17 + v[k] + (u32) w[k];
  return s + (u32) w[3] * v[5];
}
#endif

#ifdef FUNCTION_halfwords
int halfwords(int x) {
  unsigned short v[8];
  short w[8];
  u32 s = 0;
  for (u32 k = 0; k < 8; k++) { v[k] = (u32) x >> (k * 2); w[7 - k] = v[k] * 5; }
  settle(v);
  settle(w);
  for (u32 k = 0; k < 8; k++) s = s * 3 + v[k] + (u32) w[k];
  return s + (u32) w[1] * v[6];
}
#endif

#ifdef FUNCTION_mixed_sizes
int mixed_sizes(int x) {
  union { u32 words[2]; unsigned short halves[4]; unsigned char bytes[8]; signed char small[8]; short signed_halves[4]; } v;
  v.words[0] = x;
  v.words[1] = 0x89abcdef;
  settle(&v);
  v.bytes[2] = v.halves[3];
  settle(&v);
  v.halves[2] = v.small[1];
  settle(&v);
  return v.words[0] + v.words[1] * 3 + (u32) v.small[0] + (u32) v.signed_halves[3];
}
#endif

#ifdef FUNCTION_doubles
int doubles(int x) {
  u64 v[5];
  i64 t = x;
  for (u32 k = 0; k < 5; k++) v[k] = (u64) (u32) x * (k + 0x10001);
  settle(v);
  v[1] = v[3];
  v[0] = v[4] ^ v[2];
  settle(v);
  for (u32 k = 0; k < 5; k++) t -= (i64) (v[k] << k);
  return (u32) (t >> 32) + (u32) t;
}
#endif

#ifdef FUNCTION_copied
struct five { u32 v[5]; };
int copied(int x) {
  struct five a, b;
  for (u32 k = 0; k < 5; k++) a.v[k] = (u32) x + k * 0x01010101;
  settle(&a);
  b = a;
  settle(&b);
  return b.v[0] ^ (b.v[1] << 1) ^ (b.v[2] << 2) ^ (b.v[3] >> 1) ^ b.v[4];
}
#endif

#ifdef FUNCTION_table_product
int table_product(int x) {
  volatile u32 m[3][3];
  u32 s = 0;
  for (u32 i = 0; i < 3; i++) for (u32 j = 0; j < 3; j++) m[i][j] = (u32) x + 3 * i + j;
  for (u32 i = 0; i < 3; i++) for (u32 j = 0; j < 3; j++) {
    u32 t = 0;
    for (u32 k = 0; k < 3; k++) t += m[i][k] * m[k][j];
    s = s * 7 + t;
  }
  return s;
}
#endif

#ifdef FUNCTION_chosen
int chosen(int x) {
  switch (x & 7) {
    case 0: return x + 1;
    case 1: return x ^ 0x55;
    case 2: return (u32) x << 3;
    case 3: return x >> 2;
    case 5: return ~x;
    case 7: return (u32) x * 11;
    default: return 42;
  }
}
#endif

#ifdef FUNCTION_bounded
int bounded(int x) {
  int low = x < -1000 ? -1000 : x, both = low > 3000 ? 3000 : low;
  u32 size = x < 0 ? 0u - (u32) x : (u32) x;
  return (u32) both + (size > 77 ? size >> 3 : size * 2) + (x > 5 && x < 500) + (x == 7 || (x & 0x80));
}
#endif

#ifdef FUNCTION_compared
int compared(int x) {
  u32 a = x, s = 0;
  if (x + 0u == -17u || x == -1) s += 1;
  if ((a & 0x00f0) == 0) s += 2;
  if ((a ^ 0x00120012) == a >> 1) s += 4;
  if ((a << 3) + 5 > a) s += 8;
  if (x >> 4 > -3 && x < (int) (a >> 1)) s += 16;
  if ((u64) a * a >> 40 == a >> 9) s += 32;
  return s;
}
#endif

#ifdef FUNCTION_called
static __attribute__((noinline)) u32 paths(u32 n, u32 x) { return n == 0 ? x : paths(n - 1, x + 1) + paths(n - 1, x * 3) * 2 + n; }
int called(int x) { return paths(x & 3, (u32) x >> 2) ^ paths(3, x); }
#endif
