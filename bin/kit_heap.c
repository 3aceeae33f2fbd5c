/* The heap of what is built for ARM: the functions that `libc/src/heap.rt` of the kit declares, as its own C has them for x86-64.
 * bin/link_program and bin/link_library compile it; bindings/c/tests/test_kit.c tests it. */
#include <stddef.h>
#include <stdint.h>
#include <stdlib.h>

/* `Tried` of the kit: whether there is memory, and where. The flag is a byte there; here it is a word, so that no byte beside it is left
 * as it was. Both come back in the same two registers. */
struct tried {
    uintptr_t is_there;
    void *start;
};

struct tried rattle_alloc(size_t size, size_t align);
struct tried rattle_realloc(void *start, size_t kept, size_t size, size_t align);
void rattle_dealloc(void *start);

/* Where a block would be that is not there: its pointer is never NULL. */
static char nothing;

static struct tried told(void *start)
{
    return start != NULL ? (struct tried){1, start} : (struct tried){0, &nothing};
}

/* A block of no bytes gets as many as its alignment. An alignment divides 16, as what malloc gives is aligned. */
static size_t room(size_t size, size_t align)
{
    return size != 0 ? size : align;
}

struct tried rattle_alloc(size_t size, size_t align)
{
    return told(malloc(room(size, align)));
}

/* (realloc keeps what fits of the old bytes, of which `kept` are asked for) */
struct tried rattle_realloc(void *start, size_t kept, size_t size, size_t align)
{
    (void)kept;
    return told(realloc(start, room(size, align)));
}

void rattle_dealloc(void *start)
{
    free(start);
}
