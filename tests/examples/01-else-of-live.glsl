#if 1
A
#else
B
#endif
