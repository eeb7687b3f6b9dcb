#define f(x) x
#if 1 f(
