/* What a program that is built for ARM asks of its process: the functions that `os/src/c.rt` of the kit declares, as far as promql calls
 * them, as its own C has them for x86-64. bin/link_program compiles it; bindings/c/tests/test_kit.c tests it. */
#define _GNU_SOURCE /* environ */
#include <errno.h>
#include <stddef.h>
#include <stdlib.h>
#include <string.h>
#include <unistd.h>

int rattle_errno(void);
void rattle_set_errno(int error);
ptrdiff_t rattle_arg(size_t number, char *buffer, size_t size);
ptrdiff_t rattle_env(const char *name, char *buffer, size_t size);
ptrdiff_t rattle_env_at(size_t number, char *buffer, size_t size);

int rattle_errno(void)
{
    return errno;
}

void rattle_set_errno(int error)
{
    errno = error;
}

/* The arguments, which glibc gives to each constructor. */
static int count;
static char **words;

__attribute__((constructor)) static void keep_arguments(int argc, char **argv)
{
    count = argc;
    words = argv;
}

/* Copies a text without the 0 that ends it, and returns its length; -1 where there is no text, and -2 where it does not fit: then the
 * buffer has its first bytes. */
static ptrdiff_t copy(const char *text, char *buffer, size_t size)
{
    if (text == NULL)
        return -1;
    size_t length = strlen(text);
    memcpy(buffer, text, length < size ? length : size);
    return length <= size ? (ptrdiff_t)length : -2;
}

ptrdiff_t rattle_arg(size_t number, char *buffer, size_t size)
{
    return copy(number < (size_t)count ? words[number] : NULL, buffer, size);
}

ptrdiff_t rattle_env(const char *name, char *buffer, size_t size)
{
    return copy(getenv(name), buffer, size);
}

/* (the environment ends with NULL, and a process may have none) */
ptrdiff_t rattle_env_at(size_t number, char *buffer, size_t size)
{
    size_t at = 0;
    while (at < number && environ != NULL && environ[at] != NULL)
        at++;
    return copy(environ != NULL ? environ[at] : NULL, buffer, size);
}
