#if -1 >> 1 == -1
A
#endif
