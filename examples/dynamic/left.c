// A library that needs base, and right, which needs it too. Thread-local storage is reached by module and offset here.
extern long base_count;
extern long base_double(long);
extern __thread long base_storage;
extern long right_sum(void);
__attribute__((weak)) extern long absent(void);

long common = 10;
static volatile __thread long left_zeros[3];
static volatile __thread long left_value = 11;

long (*left_doubler)(long) = base_double;
long *left_count = &base_count;

long left_base(void) { return base_count + base_storage; }
long left_common(void) { return common; }
long left_own(void) { return left_zeros[1] + left_value + (absent ? absent() : 0); }
long left_sum(void) { return right_sum() + base_double(1); }

// The version that a linker bound to before there was another.
__asm__(".symver rate_of_old, base_rate@BASE_1");
extern long rate_of_old(void);
long left_rate(void) { return rate_of_old(); }
