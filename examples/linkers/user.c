// A library that needs the others.
extern long base_data[4];
extern long base_function(long);
extern long versions_function(void);
extern long versions_data;
extern __thread long storage_value;
extern long storage_sum(void);

long *user_pointer = &base_data[2];
long (*user_call)(long) = base_function;

long user_function(void) {
    return base_function(base_data[0]) + versions_function() + versions_data + storage_value + storage_sum() + *user_pointer;
}
