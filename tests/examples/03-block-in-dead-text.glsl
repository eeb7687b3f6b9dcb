#if 0
#if 1
A
#else
B
#endif
#else
C
#endif
