// A library with an indirect function, whose address a function of its own chooses at the start.
static long one(void) { return 1; }
static void *choose(void) { return one; }
long chosen(void) __attribute__((ifunc("choose")));
