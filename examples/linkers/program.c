// A program that needs the libraries: it copies their data, and compares the address of a function of theirs with what they say.
// With CONSTANT it copies constants of theirs too, with NO_STORAGE it uses no thread-local storage, and with ALONE it needs none of
// the libraries.

#ifdef ALONE
#define FROM_LIBRARY
#define NO_STORAGE
#else
#define FROM_LIBRARY extern
#endif

FROM_LIBRARY long base_data[4];
FROM_LIBRARY long versions_data;
FROM_LIBRARY long (*user_call)(long);
#ifdef ALONE
static long base_function(long n) { return n; }
static long user_function(void) { return 1; }
#else
extern long base_function(long);
extern long user_function(void);
#endif
#ifdef CONSTANT
extern const char base_text[];
#endif
#ifndef NO_STORAGE
extern __thread long storage_value;
#endif

long program_data = 1;
long program_zeros[100];

// System call 60 of Linux ends the process.
static void exit_with(long status) {
    __asm__ volatile("syscall" : : "a"(60L), "D"(status) : "rcx", "r11", "memory");
}

void _start(void) {
    long sum = program_data + program_zeros[1] + base_data[0] + versions_data + user_function();
#ifdef CONSTANT
    sum += base_text[0];
#endif
#ifndef NO_STORAGE
    sum += storage_value;
#endif
    exit_with(user_call == base_function ? sum & 0x7f : 255);
}
