#define f(x) x
f(
#undef f
#define f(x) other
3) f(4)
