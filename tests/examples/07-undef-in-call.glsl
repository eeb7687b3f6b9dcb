#define f(x) x
f(
#undef f
3)
