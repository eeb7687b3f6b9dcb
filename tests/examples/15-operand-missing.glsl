#if 1 +
