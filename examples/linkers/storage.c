// A library with thread-local storage: a variable that others use, one with an initial value, one of its own.
__thread long storage_zero;
__thread long storage_value = 8;
static __thread long storage_own = 9;

long *storage_address(void) { return &storage_own; }
long storage_sum(void) { return storage_zero + storage_value + storage_own; }

// The C library has this function. Nothing here calls it.
void *__tls_get_addr(void *index) { return index; }
