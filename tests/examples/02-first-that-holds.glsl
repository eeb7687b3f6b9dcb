#if 0
A
#elif 1
B
#elif 1
C
#endif
