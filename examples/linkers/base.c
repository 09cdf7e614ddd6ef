// A library without a C library: data and functions that other objects use, of each binding and visibility.

long base_data[4] = {1, 2, 3, 4};
long base_zeros[4];
const char base_text[] = "base";
long *base_pointer = &base_data[1];

__attribute__((visibility("hidden"))) long base_hidden = 5;
__attribute__((visibility("protected"))) long base_protected(long n) { return n + base_hidden; }
__attribute__((weak)) long base_weak(void) { return 6; }
__attribute__((weak)) extern long base_absent(void);

long base_function(long n) {
    return base_protected(n) + base_weak() + (base_absent ? base_absent() : 0) + *base_pointer + base_zeros[n & 3];
}

long (*base_table[])(long) = {base_function, base_protected};

#ifdef CONSTRUCTORS
__attribute__((constructor)) static void base_begins(void) { base_zeros[0] = 1; }
__attribute__((destructor)) static void base_ends(void) { base_zeros[0] = 0; }
#endif
