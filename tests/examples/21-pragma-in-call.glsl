#define f(x) x
f(
#pragma y
)
