/* Makes one allocation of a program fail: LD_PRELOAD=fail_alloc.so FAIL_ALLOC=N FAIL_ALLOC_FD=FD PROGRAM.
   The N-th call of malloc, calloc and realloc together returns no memory, and writes a byte to the descriptor FD: so the
   caller knows whether the program got that far. bin/test_memory compiles and uses it. */
#include <errno.h>
#include <stdlib.h>
#include <unistd.h>

void *__libc_malloc(size_t size);
void *__libc_calloc(size_t count, size_t size);
void *__libc_realloc(void *old, size_t size);

/* Calls up to the one that fails; 0 where none is to fail any more. */
static long left;
static int reported;

__attribute__((constructor)) static void begin(void) {
    const char *number = getenv("FAIL_ALLOC"), *descriptor = getenv("FAIL_ALLOC_FD");
    if (number && descriptor) {
        reported = atoi(descriptor);
        left = atol(number);
    }
}

static int fails(void) {
    if (left == 0 || --left != 0)
        return 0;
    if (write(reported, "x", 1) != 1)
        abort();
    errno = ENOMEM;
    return 1;
}

void *malloc(size_t size) { return fails() ? NULL : __libc_malloc(size); }

void *calloc(size_t count, size_t size) { return fails() ? NULL : __libc_calloc(count, size); }

void *realloc(void *old, size_t size) { return fails() ? NULL : __libc_realloc(old, size); }
