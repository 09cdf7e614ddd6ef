// A symbolic library: it uses its own `common`, though the program and left have one too. It needs base, and left, which needs it
// too. Thread-local storage is reached by its offset from the thread's address here.
extern long base_double(long);
extern long base_rate(void);
extern __thread long base_storage;
extern long left_own(void);

long common = 12;
static volatile __thread long right_value = 13;

long *right_common = &common;
long (*right_doubler(void))(long) { return base_double; }

long right_own(void) { return *right_common; }
long right_storage(void) { return base_storage + right_value; }
long right_rate(void) { return base_rate(); }
long right_sum(void) { return left_own() + 1; }
