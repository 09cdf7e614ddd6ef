// A library that needs base and left, and the one that `run` edits: VALUE is 1 at first, and 2 then. It points at a variable that
// the program copies, at a function whose address the program takes, and at a function of its own.
extern long base_count;
extern long base_double(long);
extern long left_own(void);

static volatile __thread long front_storage = VALUE;
long *front_count = &base_count;
long (*front_doubler)(long) = base_double;

long front_value(void) { return front_storage; }
long (*front_functions[])(void) = {front_value, left_own};
