/* A program of several files, for link_agrees.sh: what each file has of the others. */
typedef unsigned int u32;
typedef u32 (*step)(u32);

u32 stirred(u32 x);
u32 folded(u32 x);
u32 counted(u32 x);
u32 tuned(u32 x);
u32 total(const u32 *from, u32 count);

extern const step steps[4];
extern u32 seen[8];
extern u32 calls;
extern const char word[];
