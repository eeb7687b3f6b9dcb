#if (1 << 63) / -1
A
#endif
