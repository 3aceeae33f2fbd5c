/* Tests of libpromql.so where a program loads it by dlopen, as Python does:
 *
 *     test_loading LIBRARY         threads that began before it was loaded, and after that, make calls; it is loaded and closed more often
 *                                  than a process has keys for what its threads keep
 *     test_loading LIBRARY full    the same calls where no key is left
 *
 * The last line is 'N passed, M failed'. */
#define _DEFAULT_SOURCE /* pthread_barrier_t */
#include "promql.h"

#include <dlfcn.h>
#include <pthread.h>
#include <stdio.h>
#include <stdlib.h>
#include <string.h>

enum { LARGE = 4 << 20, SMALL = 512 << 10, TIMES = 600 };

static long passed, failed;

static void check_at(int holds, const char *what, int line)
{
    if (holds) {
        passed++;
    } else {
        failed++;
        printf("FAILED %s:%d: %s\n", __FILE__, line, what);
    }
}

#define CHECK(condition) check_at((condition) != 0, #condition, __LINE__)

static uint32_t (*canonical)(const char *query, size_t query_length, char *buffer, size_t buffer_size, struct promql_result *result);

static void *load(const char *path)
{
    void *library = dlopen(path, RTLD_NOW);
    if (library == NULL) {
        printf("FAILED %s\n0 passed, 1 failed\n", dlerror());
        exit(1);
    }
    void *call = dlsym(library, "promql_canonical");
    memcpy(&canonical, &call, sizeof call);
    return library;
}

/* The status of a call, or one that there is not where its text is wrong. */
static uint32_t make_call(void)
{
    char buffer[16];
    struct promql_result result;
    uint32_t status = canonical("1+2", 3, buffer, sizeof buffer, &result);
    if (status == PROMQL_OK && (result.length != 5 || memcmp(buffer, "1 + 2", 5) != 0))
        return UINT32_MAX;
    return status;
}

/* A thread with a stack of some size, and the statuses of its calls: the second one has what the first one kept. */
struct caller {
    pthread_t thread;
    pthread_barrier_t *loaded;
    uint32_t first, second;
};

static void *make_calls(void *argument)
{
    struct caller *caller = argument;
    if (caller->loaded != NULL)
        pthread_barrier_wait(caller->loaded);
    caller->first = make_call();
    caller->second = make_call();
    return NULL;
}

static void begin(struct caller *caller, size_t stack, pthread_barrier_t *loaded)
{
    pthread_attr_t attributes;
    caller->loaded = loaded;
    if (pthread_attr_init(&attributes) != 0 || pthread_attr_setstacksize(&attributes, stack) != 0 ||
        pthread_create(&caller->thread, &attributes, make_calls, caller) != 0)
        abort();
    pthread_attr_destroy(&attributes);
}

static void end(struct caller *caller, uint32_t wanted)
{
    pthread_join(caller->thread, NULL);
    CHECK(caller->first == wanted);
    CHECK(caller->second == wanted);
}

static void test_threads(pthread_barrier_t *loaded, struct caller *large, struct caller *small)
{
    struct caller later_large, later_small;
    begin(&later_large, LARGE, NULL);
    begin(&later_small, SMALL, NULL);
    end(&later_large, PROMQL_OK);
    end(&later_small, PROMQL_SMALL_STACK);
    pthread_barrier_wait(loaded);
    end(large, PROMQL_OK);
    end(small, PROMQL_SMALL_STACK);
    CHECK(make_call() == PROMQL_OK);
    CHECK(make_call() == PROMQL_OK);
}

static void test_closing(const char *path, void *library)
{
    for (int i = 0; i < TIMES; i++) {
        CHECK(dlclose(library) == 0);
        library = load(path);
        CHECK(make_call() == PROMQL_OK);
    }
    struct caller small;
    begin(&small, SMALL, NULL);
    end(&small, PROMQL_SMALL_STACK);
    pthread_key_t key;
    CHECK(pthread_key_create(&key, NULL) == 0);
}

int main(int argc, char **argv)
{
    pthread_barrier_t loaded;
    pthread_key_t key;
    struct caller large, small;
    int is_full = argc == 3 && strcmp(argv[2], "full") == 0;
    if (argc < 2 || pthread_barrier_init(&loaded, NULL, 3) != 0)
        return 64;
    begin(&large, LARGE, &loaded);
    begin(&small, SMALL, &loaded);
    while (is_full && pthread_key_create(&key, NULL) == 0)
        ;
    void *library = load(argv[1]);
    test_threads(&loaded, &large, &small);
    if (!is_full)
        test_closing(argv[1], library);
    printf("%ld passed, %ld failed\n", passed, failed);
    return failed != 0;
}
