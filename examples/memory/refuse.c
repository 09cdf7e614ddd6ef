// Loaded before the C library: refuses the allocation of the program itself whose number REFUSE says, counted from 1, and where LATER stands in the
// environment all later ones too. It tells so on the standard error. Allocations of the C library for itself are not counted.
#define _GNU_SOURCE
#include <dlfcn.h>
#include <errno.h>
#include <stdlib.h>
#include <sys/auxv.h>
#include <unistd.h>

static long left = -1;
static int refuses_later;

static int is_refused(void *caller)
{
    Dl_info info;
    unsigned long headers = getauxval(AT_PHDR);
    if (!dladdr(caller, &info) || (unsigned long) info.dli_fbase != (headers & -4096ul))
        return 0;
    if (left < 0) {
        const char *number = getenv("REFUSE");
        left = number ? atol(number) : 0;
        refuses_later = getenv("LATER") != 0;
    }
    if (left == 0 || --left > 0)
        return 0;
    left = refuses_later;
    errno = ENOMEM;
    return write(2, "refused\n", 8) == 8;
}

#define ALLOCATES(result, name, parameters, arguments)                        \
    result name parameters                                                    \
    {                                                                         \
        static result(*real) parameters;                                      \
        if (!real)                                                            \
            real = (result(*) parameters) dlsym(RTLD_NEXT, #name);            \
        return is_refused(__builtin_return_address(0)) ? 0 : real arguments;  \
    }

ALLOCATES(void *, malloc, (size_t size), (size))
ALLOCATES(void *, realloc, (void *block, size_t size), (block, size))
ALLOCATES(void *, aligned_alloc, (size_t align, size_t size), (align, size))
ALLOCATES(void *, memalign, (size_t align, size_t size), (align, size))

// dlsym may call calloc, so this one is not looked up first.
void *calloc(size_t count, size_t size)
{
    extern void *__libc_calloc(size_t, size_t);
    return is_refused(__builtin_return_address(0)) ? 0 : __libc_calloc(count, size);
}

int posix_memalign(void **block, size_t align, size_t size)
{
    if (is_refused(__builtin_return_address(0)))
        return ENOMEM;
    *block = aligned_alloc(align, size);
    return *block ? 0 : ENOMEM;
}
