#define A 2
#if 2 * A == 4
B
#endif
