#if 1 2
