#if -(1 << 63)
A
#endif
