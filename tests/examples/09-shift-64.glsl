#if 1 << 64
A
#endif
