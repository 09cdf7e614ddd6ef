// The library that the others need: a function in two versions, a variable that the program copies, a function whose address the
// program takes, thread-local storage, and symbols that only this library sees.
__asm__(".symver rate_of_old, base_rate@BASE_1");
__asm__(".symver rate_of_new, base_rate@@BASE_2");
long rate_of_old(void) { return 1; }
long rate_of_new(void) { return 2; }

long base_count = 7;
long *base_counter(void) { return &base_count; }

long base_double(long n) { return 2 * n; }
long (*base_doubler)(long) = base_double;

__thread long base_storage = 8;
long *base_storage_address(void) { return &base_storage; }

__attribute__((visibility("hidden"))) long base_hidden = 9;
__attribute__((visibility("protected"))) long base_protected(void) { return base_hidden; }
long *base_pointers[] = {&base_hidden, &base_count};

// A C library has this function. Its loader keeps the addresses of a thread's blocks at the address in %fs:8, 16 bytes a module.
void *__tls_get_addr(const unsigned long *index) {
    char **blocks;
    __asm__("mov %%fs:8, %0" : "=r"(blocks));
    return blocks[2 * index[0]] + index[1];
}
