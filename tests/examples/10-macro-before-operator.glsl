#define A 2
#if A * 2 == 4
B
#endif
