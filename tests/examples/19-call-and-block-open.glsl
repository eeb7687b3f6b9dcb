#define f(x) x
#if 1
f(1
