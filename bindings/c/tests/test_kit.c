/* Tests of bin/kit_heap.c and bin/kit_process.c, which are the kit's heap and process for ARM; linked with the kit's own archives it tests
 * that these do the same: test_kit ARGUMENT.., any bytes. The last line is 'N passed, M failed'. */
#define _GNU_SOURCE /* environ */
#include <errno.h>
#include <pthread.h>
#include <stdbool.h>
#include <stddef.h>
#include <stdint.h>
#include <stdio.h>
#include <stdlib.h>
#include <string.h>
#include <unistd.h>

/* As the kit declares it (libc/src/types.rt): the flag is a byte. */
struct tried {
    bool ok;
    unsigned char *p;
};

struct tried rattle_alloc(size_t n, size_t a);
struct tried rattle_realloc(void *p, size_t kept, size_t n, size_t a);
void rattle_dealloc(void *p);
int rattle_errno(void);
void rattle_set_errno(int error);
ptrdiff_t rattle_arg(size_t i, char *buf, size_t size);
ptrdiff_t rattle_env(const char *name, char *buf, size_t size);
ptrdiff_t rattle_env_at(size_t i, char *buf, size_t size);

static int passed, failed;

static void check(int is_so, const char *name)
{
    if (is_so) {
        passed++;
    } else {
        failed++;
        printf("FAILED %s\n", name);
    }
}

/* Which text a function is asked for. */
enum source { ARGUMENT, ENTRY, VARIABLE };

static ptrdiff_t ask(enum source source, size_t number, const char *name, char *buffer, size_t size)
{
    if (source == VARIABLE)
        return rattle_env(name, buffer, size);
    return source == ARGUMENT ? rattle_arg(number, buffer, size) : rattle_env_at(number, buffer, size);
}

/* The text comes whole where it fits, of which the rest of the buffer is left as it was; else as many of its bytes as there is room. */
static void check_text(enum source source, size_t number, const char *name, const char *wanted)
{
    size_t length = strlen(wanted), sizes[] = {0, 1, length / 2, length - (length > 0), length, length + 1, length + 100};
    for (size_t at = 0; at < sizeof sizes / sizeof *sizes; at++) {
        size_t size = sizes[at], copied = size < length ? size : length;
        char *buffer = malloc(size + 1);
        if (buffer == NULL)
            abort();
        memset(buffer, '#', size + 1);
        ptrdiff_t found = ask(source, number, name, buffer, size);
        check(found == (size < length ? -2 : (ptrdiff_t)length), "the length of a text");
        check(memcmp(buffer, wanted, copied) == 0, "the bytes of a text");
        check(buffer[copied] == '#' && buffer[size] == '#', "the bytes after a text");
        free(buffer);
    }
}

static void check_missing(enum source source, size_t number, const char *name)
{
    char buffer[8] = "#######";
    check(ask(source, number, name, buffer, sizeof buffer) == -1, "the length of a text that is missing");
    check(strcmp(buffer, "#######") == 0, "a buffer where the text is missing");
}

static void test_arguments(size_t count, char **words)
{
    for (size_t number = 0; number < count; number++)
        check_text(ARGUMENT, number, NULL, words[number]);
    check_missing(ARGUMENT, count, NULL);
    check_missing(ARGUMENT, count + 1, NULL);
    check_missing(ARGUMENT, (size_t)INT32_MAX + 1, NULL);
    check_missing(ARGUMENT, SIZE_MAX, NULL);
}

static void test_environment(void)
{
    const char *texts[] = {"", "a", "a=b", "\xff\xfe not UTF-8 \x80", "\xc3\xa9 two\nlines"};
    for (size_t at = 0; at < sizeof texts / sizeof *texts; at++) {
        setenv("KIT_TEST", texts[at], 1);
        check_text(VARIABLE, 0, "KIT_TEST", texts[at]);
    }
    size_t count = 0;
    for (; environ[count] != NULL; count++)
        check_text(ENTRY, count, NULL, environ[count]);
    check(count > 0, "there is an environment");
    check_missing(ENTRY, count, NULL);
    check_missing(ENTRY, SIZE_MAX, NULL);
    unsetenv("KIT_TEST");
    check_missing(VARIABLE, 0, "KIT_TEST");
    check_missing(VARIABLE, 0, "");
    char *none[] = {NULL}, **before = environ;
    environ = none;
    check_missing(ENTRY, 0, NULL);
    check_missing(VARIABLE, 0, "PATH");
    environ = NULL;
    check_missing(ENTRY, 0, NULL);
    check_missing(ENTRY, 1, NULL);
    environ = before;
}

/* Each thread has a number of its own. */
static void *set_in_thread(void *numbers)
{
    ((int *)numbers)[0] = rattle_errno();
    rattle_set_errno(ENOMEM);
    ((int *)numbers)[1] = rattle_errno();
    return NULL;
}

static void test_errno(void)
{
    int errors[] = {0, EINVAL, ENAMETOOLONG, INT32_MAX, INT32_MIN, -1}, in_thread[2] = {-1, -1};
    for (size_t at = 0; at < sizeof errors / sizeof *errors; at++) {
        rattle_set_errno(errors[at]);
        check(errno == errors[at] && rattle_errno() == errors[at], "a number that is set");
    }
    check(close(-1) == -1 && rattle_errno() == EBADF, "the number of a call that failed");
    pthread_t thread;
    if (pthread_create(&thread, NULL, set_in_thread, in_thread) != 0 || pthread_join(thread, NULL) != 0)
        abort();
    check(in_thread[0] == 0 && in_thread[1] == ENOMEM && rattle_errno() == EBADF, "the number of another thread");
}

static int is_good(struct tried block, size_t size, size_t align)
{
    if (!block.ok || block.p == NULL || (uintptr_t)block.p % align != 0)
        return 0;
    memset(block.p, 0xa5, size);
    return 1;
}

static int is_kept(const unsigned char *bytes, size_t count)
{
    for (size_t at = 0; at < count; at++)
        if (bytes[at] != 0xa5)
            return 0;
    return 1;
}

/* A failure has a pointer that is not NULL, and the block is as it was. */
static void test_heap(void)
{
    size_t sizes[] = {0, 1, 7, 16, 4096, 1 << 20, 64 << 20}, most = PTRDIFF_MAX;
    for (size_t align = 1; align <= 16; align *= 2)
        for (size_t at = 0; at < sizeof sizes / sizeof *sizes; at++) {
            struct tried block = rattle_alloc(sizes[at], align);
            check(is_good(block, sizes[at], align), "a block");
            struct tried other = rattle_realloc(block.p, sizes[at], most - 15, align);
            check(!other.ok && other.p != NULL && is_kept(block.p, sizes[at]), "a block that can't grow");
            other = rattle_realloc(block.p, sizes[at], 2 * sizes[at] + 1, align);
            check(other.ok && is_kept(other.p, sizes[at]) && is_good(other, 2 * sizes[at] + 1, align), "a block that grew");
            other = rattle_realloc(other.p, sizes[at], sizes[at], align);
            check(other.ok && is_kept(other.p, sizes[at]), "a block that shrank");
            other = rattle_realloc(other.p, 0, 0, align);
            check(other.ok && other.p != NULL && (uintptr_t)other.p % align == 0, "a block of no bytes");
            rattle_dealloc(other.p);
            struct tried failure = rattle_alloc(most - (most % align), align);
            check(!failure.ok && failure.p != NULL, "a block that there is no memory for");
        }
}

int main(int argc, char **argv)
{
    test_arguments((size_t)argc, argv);
    test_environment();
    test_errno();
    test_heap();
    printf("%d passed, %d failed\n", passed, failed);
    return failed != 0;
}
