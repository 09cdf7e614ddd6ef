// A program without a C library that needs the three libraries. Its exit status is 0 where each of them sees what it is to see, and
// else the number of the first thing that is wrong.
extern long base_count;
extern long *base_counter(void);
extern long base_double(long);
extern long (*base_doubler)(long);
extern __thread long base_storage;
extern long *base_storage_address(void);
extern long base_protected(void);
extern long base_rate(void);
extern long left_base(void);
extern long left_common(void);
extern long (*left_doubler)(long);
extern long left_own(void);
extern long left_rate(void);
extern long left_sum(void);
extern long right_own(void);
extern long (*right_doubler(void))(long);
extern long right_rate(void);
extern long right_storage(void);

long common = 14;
static volatile __thread long program_storage = 15;
long (*program_doubler)(long) = base_double;

// System call 60 of Linux ends the process.
static void exit_with(long status) {
    __asm__ volatile("syscall" : : "a"(60L), "D"(status) : "rcx", "r11", "memory");
}

void _start(void) {
    const long checks[] = {
        base_count == 7 && base_counter() == &base_count,
        base_storage == 8 && base_storage_address() == &base_storage,
        base_doubler == base_double && left_doubler == base_double && right_doubler() == base_double,
        program_doubler == base_double && base_double(3) == 6,
        base_protected() == 9,
        base_rate() == 2 && left_rate() == 1 && right_rate() == 2,
        left_base() == 15,
        left_common() == 14 && right_own() == 12,
        left_own() == 11 && left_sum() == 14,
        right_storage() == 21 && program_storage == 15,
    };
    for (unsigned i = 0; i < sizeof checks / sizeof checks[0]; i++)
        if (!checks[i])
            exit_with(i + 1);
    exit_with(0);
}
