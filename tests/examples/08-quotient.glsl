#if -7 / 2 == -3
A
#endif
