// A program without a C library that needs base, left, right and front. It copies base_count, takes the address of base_double, and
// has a `common` of its own, as left has. Its exit status is the value of front, or 100 where something is not what it is to be.
extern long base_count;
extern long *base_counter(void);
extern long base_double(long);
extern __thread long base_storage;
extern long base_rate(void);
extern long left_common(void);
extern long left_own(void);
extern long left_rate(void);
extern long right_own(void);
extern long right_storage(void);
extern long *front_count;
extern long (*front_doubler)(long);
extern long (*front_functions[])(void);
extern long front_value(void);

long common = 14;
long (*program_doubler)(long) = base_double;

// System call 60 of Linux ends the process.
static void exit_with(long status) {
    __asm__ volatile("syscall" : : "a"(60L), "D"(status) : "rcx", "r11", "memory");
}

void _start(void) {
    long right = base_count == 7 && base_counter() == &base_count && front_count == &base_count;
    right &= program_doubler == base_double && front_doubler == base_double && front_doubler(3) == 6;
    right &= base_rate() == 2 && left_rate() == 1;
    right &= left_common() == 14 && right_own() == 12 && left_own() == 11;
    right &= base_storage == 8 && right_storage() == 21;
    right &= front_functions[0] == front_value && front_functions[1] == left_own;
    exit_with(right ? front_value() : 100);
}
