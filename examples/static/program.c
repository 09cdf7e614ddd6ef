// A static program without a C library. It counts the digits of a table, and its exit status is the digit that comes most often.
// The table lies in .rodata, the counts in .bss, the first guess in .data. With NO_RODATA or NO_BSS they lie in .data too.

#ifdef NO_RODATA
#define TABLE static
#else
#define TABLE static const
#endif

#ifdef NO_BSS
#define COUNTS __attribute__((section(".data"))) static
#else
#define COUNTS static
#endif

TABLE int digits[] = {3, 1, 4, 1, 5, 9, 2, 6, 5, 3, 5, 8, 9, 7, 9, 3, 2, 3};

COUNTS long counts[10];
static long most = 7;

// System call 60 of Linux ends the process.
static void exit_with(long status) {
    __asm__ volatile("syscall" : : "a"(60L), "D"(status) : "rcx", "r11", "memory");
}

void _start(void) {
    for (unsigned i = 0; i < sizeof digits / sizeof digits[0]; i++)
        counts[digits[i]]++;
    for (long digit = 0; digit < 10; digit++)
        if (counts[digit] > counts[most])
            most = digit;
    exit_with(most);
}
