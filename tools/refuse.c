// A malloc and a realloc that refuse one request of the program itself, the one whose number REFUSED says, and say so on
// standard error. To be preloaded.
#define _GNU_SOURCE
#include <dlfcn.h>
#include <stdlib.h>
#include <sys/auxv.h>
#include <unistd.h>

extern void *__libc_malloc(size_t size);
extern void *__libc_realloc(void *old, size_t size);

static long asked;

static int of_program(void *caller) {
    Dl_info from, program;
    return dladdr(caller, &from) && dladdr((void *)getauxval(AT_ENTRY), &program) && from.dli_fbase == program.dli_fbase;
}

static int is_refused(void *caller) {
    const char *place = getenv("REFUSED");
    if (!place || !of_program(caller) || ++asked != atol(place)) return 0;
    if (write(2, "refused\n", 8) != 8) _exit(3);
    return 1;
}

void *malloc(size_t size) { return is_refused(__builtin_return_address(0)) ? NULL : __libc_malloc(size); }

void *realloc(void *old, size_t size) {
    return is_refused(__builtin_return_address(0)) ? NULL : __libc_realloc(old, size);
}
