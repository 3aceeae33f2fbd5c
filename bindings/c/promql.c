/* The calls of promql.h: each looks at its pointers and at its thread's stack, and passes the rest on to what is proved
 * (crates/promql_c). */
#define _GNU_SOURCE /* pthread_getattr_np */
#include "promql.h"

#include <errno.h>
#include <pthread.h>
#include <stdatomic.h>
#ifdef __linux__
#include <string.h>
#include <sys/auxv.h>
#include <sys/resource.h>
#include <sys/syscall.h>
#include <unistd.h>
#endif

/* The limits of each call. */
static atomic_size_t max_len = 32768;
static atomic_size_t max_pattern_size = 16000;
static atomic_size_t max_output = 4194304;
static _Atomic uint32_t target = PROMQL_PROMETHEUS_3;
static atomic_size_t max_tree = 4194304;

/* `CallLimits` of crates/promql_c. */
struct limits {
    size_t max_len;
    size_t max_pattern_size;
    size_t max_output;
    uint32_t target;
};

static struct limits limits_now(void)
{
    return (struct limits){max_len, max_pattern_size, max_output, target};
}

/* (`CallTimes` of crates/promql_c is `struct promql_times`.) */

/* What crates/promql_c exports. A slice of Rattle is a pointer that is not NULL, and a length of at most PTRDIFF_MAX. */
void call_print(const struct limits *limits, const void *query, size_t query_length, uint32_t mode,
                uint32_t level, size_t width, void *buffer, size_t buffer_size, struct promql_result *result);
void call_canonical(const struct limits *limits, const void *query, size_t query_length, void *buffer,
                    size_t buffer_size, struct promql_result *result);
void call_enforce(const struct limits *limits, const void *query, size_t query_length, const void *matcher,
                  size_t matcher_length, void *buffer, size_t buffer_size, struct promql_result *result);
void call_rename(const struct limits *limits, const void *query, size_t query_length, uint32_t kind, const void *from,
                 size_t from_length, const void *to, size_t to_length, void *buffer, size_t buffer_size,
                 struct promql_result *result);
void call_collect(const struct limits *limits, const void *query, size_t query_length, void *buffer,
                  size_t buffer_size, struct promql_result *result);
void call_places(const struct limits *limits, const void *query, size_t query_length, void *buffer,
                 size_t buffer_size, struct promql_result *result);
void call_parts(const struct limits *limits, const void *query, size_t query_length, void *buffer,
                size_t buffer_size, struct promql_result *result);
void call_differences(const struct limits *limits, const void *query, size_t query_length, void *buffer,
                      size_t buffer_size, struct promql_result *result);
void call_tokens(const struct limits *limits, const void *text, size_t text_length, void *buffer,
                 size_t buffer_size, struct promql_result *result);
void call_windows(const struct limits *limits, const void *query, size_t query_length, const struct promql_times *times,
                  void *buffer, size_t buffer_size, struct promql_result *result);
void call_reaches(const struct limits *limits, const void *query, size_t query_length, const struct promql_times *times,
                  void *buffer, size_t buffer_size, struct promql_result *result);
void call_last_read(const struct limits *limits, const void *query, size_t query_length, int64_t time,
                    const struct promql_times *times, void *buffer, size_t buffer_size, struct promql_result *result);
void call_pinned(const struct limits *limits, const void *query, size_t query_length, int64_t start, int64_t end, void *buffer,
                 size_t buffer_size, struct promql_result *result);
void call_is_constant(const struct limits *limits, const void *query, size_t query_length, void *buffer,
                      size_t buffer_size, struct promql_result *result);
void call_may_read(const struct limits *limits, const void *query, size_t query_length, const void *labels, size_t labels_length,
                   void *buffer, size_t buffer_size, struct promql_result *result);
void call_check(const struct limits *limits, const void *query, size_t query_length, void *buffer,
                size_t buffer_size, struct promql_result *result);
void call_explain(const struct limits *limits, const void *query, size_t query_length, uint32_t as_json, void *buffer,
                  size_t buffer_size, struct promql_result *result);
void call_snippet(const void *query, size_t query_length, size_t start, size_t end, void *buffer, size_t buffer_size,
                  struct promql_result *result);
void call_format(const struct limits *limits, const void *query, size_t query_length, size_t width, size_t indent_width,
                 uint32_t spelling, void *buffer, size_t buffer_size, struct promql_result *result);
void call_print_tree(const struct limits *limits, size_t max_tree, const void *tree, size_t tree_length, uint32_t mode,
                     uint32_t level, size_t width, uint32_t parentheses, void *buffer, size_t buffer_size,
                     struct promql_result *result);
void call_version(void *buffer, size_t buffer_size, struct promql_result *result);

/* Where a slice of no bytes begins if its pointer is NULL. */
static char nothing;

static int is_slice(const char *start, size_t length)
{
    return length == 0 || (start != NULL && length <= PTRDIFF_MAX);
}

static int are_good(const char *query, size_t query_length, const char *buffer, size_t buffer_size,
                    const struct promql_result *result)
{
    return result != NULL && is_slice(query, query_length) && is_slice(buffer, buffer_size);
}

static const char *start_of(const char *query)
{
    return query != NULL ? query : &nothing;
}

static char *room_of(char *buffer)
{
    return buffer != NULL ? buffer : &nothing;
}

static uint32_t refuse(uint32_t status, struct promql_result *result)
{
    if (result != NULL)
        *result = (struct promql_result){status, 0, 0, 0, 0, 0};
    return status;
}

#ifdef __linux__
/* The first thread of the process, if the library was there when it began. */
static pthread_t first_thread;
static int has_first_thread;

__attribute__((constructor)) static void note_first_thread(void)
{
    first_thread = pthread_self();
    has_first_thread = syscall(SYS_gettid) == getpid();
}

/* Where the stack of the first thread may grow to, which has grown to `start`. glibc has told it. Of musl and others it is not known:
 * the limit counts from the end of the stack, and the last text there is the program's name. */
static uintptr_t growing_start(uintptr_t start)
{
    const char *name = (const char *)getauxval(AT_EXECFN);
    struct rlimit limit;
    if (confstr(_CS_GNU_LIBC_VERSION, NULL, 0) != 0 || !has_first_thread || !pthread_equal(first_thread, pthread_self()) ||
        name == NULL || getrlimit(RLIMIT_STACK, &limit) != 0)
        return start;
    uintptr_t end = (((uintptr_t)name + strlen(name)) | 4095) + 1;
    /* (the kernel leaves so much free below it where there is no limit) */
    uintptr_t size = limit.rlim_cur < 128 << 20 ? limit.rlim_cur : 128 << 20;
    return end - size < start ? end - size : start;
}

/* What a thread keeps of its stack, once it has asked: the lowest byte, and the byte after the last one. It is kept by keys of POSIX, and
 * not by _Thread_local: musl loads no library by dlopen that has its place before a thread begins (the model initial-exec), and by any
 * other model glibc allocates that place at the first call of a thread, and ends the process where there is no memory. */
static pthread_key_t stack_start, stack_end;
static atomic_int has_keys;

__attribute__((constructor)) static void make_keys(void)
{
    if (pthread_key_create(&stack_start, NULL) != 0)
        return;
    if (pthread_key_create(&stack_end, NULL) == 0)
        has_keys = 1;
    else
        pthread_key_delete(stack_start);
}

/* (the end goes first: whoever finds an end has found the start) */
__attribute__((destructor)) static void delete_keys(void)
{
    if (!has_keys)
        return;
    has_keys = 0;
    pthread_key_delete(stack_end);
    pthread_key_delete(stack_start);
}

struct stack {
    uintptr_t start;
    uintptr_t end;
};

static int ask_for_stack(struct stack *stack)
{
    pthread_attr_t attributes;
    void *start;
    size_t size;
    int error = pthread_getattr_np(pthread_self(), &attributes);
    if (error != 0)
        return error;
    error = pthread_attr_getstack(&attributes, &start, &size);
    pthread_attr_destroy(&attributes);
    if (error == 0)
        *stack = (struct stack){growing_start((uintptr_t)start), (uintptr_t)start + size};
    return error;
}

/* (a thread that finds no room for what it keeps asks again at its next call) */
static int stack_of_thread(struct stack *stack)
{
    *stack = (struct stack){0, 0};
    if (has_keys) {
        stack->start = (uintptr_t)pthread_getspecific(stack_start);
        stack->end = (uintptr_t)pthread_getspecific(stack_end);
    }
    if (stack->end != 0)
        return 0;
    int error = ask_for_stack(stack);
    if (error == 0 && has_keys && pthread_setspecific(stack_start, (void *)stack->start) == 0)
        (void)pthread_setspecific(stack_end, (void *)stack->end);
    return error;
}

/* PROMQL_OK where PROMQL_STACK bytes are left, or where that is not known: the system does not tell, or this is another stack
 * than the thread's own. */
static uint32_t look_at_stack(void)
{
    char here;
    uintptr_t at = (uintptr_t)&here;
    struct stack stack;
    if (stack_of_thread(&stack) == ENOMEM)
        return PROMQL_OUT_OF_MEMORY;
    return at < stack.start || at >= stack.end || at - stack.start >= PROMQL_STACK ? PROMQL_OK : PROMQL_SMALL_STACK;
}
#else
static uint32_t look_at_stack(void)
{
    return PROMQL_OK;
}
#endif

/* The status with which a call about a query ends before it begins, or PROMQL_OK. */
static uint32_t look_at(const char *query, size_t query_length, const char *buffer, size_t buffer_size,
                        const struct promql_result *result)
{
    return are_good(query, query_length, buffer, buffer_size, result) ? look_at_stack() : PROMQL_BAD_POINTER;
}

uint32_t promql_print(const char *query, size_t query_length, uint32_t mode, uint32_t level, size_t width, char *buffer,
                      size_t buffer_size, struct promql_result *result)
{
    uint32_t status = look_at(query, query_length, buffer, buffer_size, result);
    if (status != PROMQL_OK)
        return refuse(status, result);
    struct limits limits = limits_now();
    call_print(&limits, start_of(query), query_length, mode, level, width, room_of(buffer), buffer_size,
               result);
    return result->status;
}

uint32_t promql_canonical(const char *query, size_t query_length, char *buffer, size_t buffer_size,
                          struct promql_result *result)
{
    uint32_t status = look_at(query, query_length, buffer, buffer_size, result);
    if (status != PROMQL_OK)
        return refuse(status, result);
    struct limits limits = limits_now();
    call_canonical(&limits, start_of(query), query_length, room_of(buffer), buffer_size, result);
    return result->status;
}

uint32_t promql_enforce(const char *query, size_t query_length, const char *matcher, size_t matcher_length, char *buffer,
                        size_t buffer_size, struct promql_result *result)
{
    uint32_t status = is_slice(matcher, matcher_length) ? look_at(query, query_length, buffer, buffer_size, result)
                                                        : PROMQL_BAD_POINTER;
    if (status != PROMQL_OK)
        return refuse(status, result);
    struct limits limits = limits_now();
    call_enforce(&limits, start_of(query), query_length, start_of(matcher), matcher_length,
                 room_of(buffer), buffer_size, result);
    return result->status;
}

uint32_t promql_rename(const char *query, size_t query_length, uint32_t kind, const char *from, size_t from_length, const char *to,
                       size_t to_length, char *buffer, size_t buffer_size, struct promql_result *result)
{
    uint32_t status = is_slice(from, from_length) && is_slice(to, to_length)
                          ? look_at(query, query_length, buffer, buffer_size, result)
                          : PROMQL_BAD_POINTER;
    if (status != PROMQL_OK)
        return refuse(status, result);
    struct limits limits = limits_now();
    call_rename(&limits, start_of(query), query_length, kind, start_of(from), from_length, start_of(to), to_length,
                room_of(buffer), buffer_size, result);
    return result->status;
}

uint32_t promql_collect(const char *query, size_t query_length, char *buffer, size_t buffer_size,
                        struct promql_result *result)
{
    uint32_t status = look_at(query, query_length, buffer, buffer_size, result);
    if (status != PROMQL_OK)
        return refuse(status, result);
    struct limits limits = limits_now();
    call_collect(&limits, start_of(query), query_length, room_of(buffer), buffer_size, result);
    return result->status;
}

uint32_t promql_places(const char *query, size_t query_length, char *buffer, size_t buffer_size,
                       struct promql_result *result)
{
    uint32_t status = look_at(query, query_length, buffer, buffer_size, result);
    if (status != PROMQL_OK)
        return refuse(status, result);
    struct limits limits = limits_now();
    call_places(&limits, start_of(query), query_length, room_of(buffer), buffer_size, result);
    return result->status;
}

uint32_t promql_parts(const char *query, size_t query_length, char *buffer, size_t buffer_size,
                      struct promql_result *result)
{
    uint32_t status = look_at(query, query_length, buffer, buffer_size, result);
    if (status != PROMQL_OK)
        return refuse(status, result);
    struct limits limits = limits_now();
    call_parts(&limits, start_of(query), query_length, room_of(buffer), buffer_size, result);
    return result->status;
}

uint32_t promql_differences(const char *query, size_t query_length, char *buffer, size_t buffer_size,
                            struct promql_result *result)
{
    uint32_t status = look_at(query, query_length, buffer, buffer_size, result);
    if (status != PROMQL_OK)
        return refuse(status, result);
    struct limits limits = limits_now();
    call_differences(&limits, start_of(query), query_length, room_of(buffer), buffer_size, result);
    return result->status;
}

uint32_t promql_tokens(const char *text, size_t text_length, char *buffer, size_t buffer_size,
                       struct promql_result *result)
{
    uint32_t status = look_at(text, text_length, buffer, buffer_size, result);
    if (status != PROMQL_OK)
        return refuse(status, result);
    struct limits limits = limits_now();
    call_tokens(&limits, start_of(text), text_length, room_of(buffer), buffer_size, result);
    return result->status;
}

uint32_t promql_windows(const char *query, size_t query_length, const struct promql_times *times, char *buffer, size_t buffer_size,
                        struct promql_result *result)
{
    uint32_t status = times != NULL ? look_at(query, query_length, buffer, buffer_size, result) : PROMQL_BAD_POINTER;
    if (status != PROMQL_OK)
        return refuse(status, result);
    struct limits limits = limits_now();
    call_windows(&limits, start_of(query), query_length, times, room_of(buffer), buffer_size, result);
    return result->status;
}

uint32_t promql_reaches(const char *query, size_t query_length, const struct promql_times *times, char *buffer, size_t buffer_size,
                        struct promql_result *result)
{
    uint32_t status = times != NULL ? look_at(query, query_length, buffer, buffer_size, result) : PROMQL_BAD_POINTER;
    if (status != PROMQL_OK)
        return refuse(status, result);
    struct limits limits = limits_now();
    call_reaches(&limits, start_of(query), query_length, times, room_of(buffer), buffer_size, result);
    return result->status;
}

uint32_t promql_last_read(const char *query, size_t query_length, int64_t time, const struct promql_times *times, char *buffer,
                          size_t buffer_size, struct promql_result *result)
{
    uint32_t status = times != NULL ? look_at(query, query_length, buffer, buffer_size, result) : PROMQL_BAD_POINTER;
    if (status != PROMQL_OK)
        return refuse(status, result);
    struct limits limits = limits_now();
    call_last_read(&limits, start_of(query), query_length, time, times, room_of(buffer), buffer_size, result);
    return result->status;
}

uint32_t promql_pinned(const char *query, size_t query_length, int64_t start, int64_t end, char *buffer, size_t buffer_size,
                       struct promql_result *result)
{
    uint32_t status = look_at(query, query_length, buffer, buffer_size, result);
    if (status != PROMQL_OK)
        return refuse(status, result);
    struct limits limits = limits_now();
    call_pinned(&limits, start_of(query), query_length, start, end, room_of(buffer), buffer_size, result);
    return result->status;
}

uint32_t promql_is_constant(const char *query, size_t query_length, char *buffer, size_t buffer_size,
                            struct promql_result *result)
{
    uint32_t status = look_at(query, query_length, buffer, buffer_size, result);
    if (status != PROMQL_OK)
        return refuse(status, result);
    struct limits limits = limits_now();
    call_is_constant(&limits, start_of(query), query_length, room_of(buffer), buffer_size, result);
    return result->status;
}

uint32_t promql_may_read(const char *query, size_t query_length, const char *labels, size_t labels_length, char *buffer,
                         size_t buffer_size, struct promql_result *result)
{
    uint32_t status = is_slice(labels, labels_length) ? look_at(query, query_length, buffer, buffer_size, result)
                                                      : PROMQL_BAD_POINTER;
    if (status != PROMQL_OK)
        return refuse(status, result);
    struct limits limits = limits_now();
    call_may_read(&limits, start_of(query), query_length, start_of(labels), labels_length, room_of(buffer), buffer_size, result);
    return result->status;
}

uint32_t promql_check(const char *query, size_t query_length, char *buffer, size_t buffer_size,
                      struct promql_result *result)
{
    uint32_t status = look_at(query, query_length, buffer, buffer_size, result);
    if (status != PROMQL_OK)
        return refuse(status, result);
    struct limits limits = limits_now();
    call_check(&limits, start_of(query), query_length, room_of(buffer), buffer_size, result);
    return result->status;
}

uint32_t promql_explain(const char *query, size_t query_length, uint32_t as_json, char *buffer, size_t buffer_size,
                        struct promql_result *result)
{
    uint32_t status = look_at(query, query_length, buffer, buffer_size, result);
    if (status != PROMQL_OK)
        return refuse(status, result);
    struct limits limits = limits_now();
    call_explain(&limits, start_of(query), query_length, as_json, room_of(buffer), buffer_size, result);
    return result->status;
}

uint32_t promql_snippet(const char *query, size_t query_length, size_t start, size_t end, char *buffer,
                        size_t buffer_size, struct promql_result *result)
{
    if (!are_good(query, query_length, buffer, buffer_size, result))
        return refuse(PROMQL_BAD_POINTER, result);
    call_snippet(start_of(query), query_length, start, end, room_of(buffer), buffer_size, result);
    return result->status;
}

uint32_t promql_format_query(const char *query, size_t query_length, size_t width, size_t indent_width, uint32_t spelling,
                             char *buffer, size_t buffer_size, struct promql_result *result)
{
    uint32_t status = look_at(query, query_length, buffer, buffer_size, result);
    if (status != PROMQL_OK)
        return refuse(status, result);
    struct limits limits = limits_now();
    call_format(&limits, start_of(query), query_length, width, indent_width, spelling, room_of(buffer), buffer_size,
                result);
    return result->status;
}

uint32_t promql_print_tree(const char *tree, size_t tree_length, uint32_t mode, uint32_t level, size_t width,
                           uint32_t parentheses, char *buffer, size_t buffer_size, struct promql_result *result)
{
    uint32_t status = look_at(tree, tree_length, buffer, buffer_size, result);
    if (status != PROMQL_OK)
        return refuse(status, result);
    struct limits limits = limits_now();
    call_print_tree(&limits, max_tree, start_of(tree), tree_length, mode, level, width, parentheses, room_of(buffer),
                    buffer_size, result);
    return result->status;
}

void promql_set_limits(size_t len, size_t pattern_size)
{
    max_len = len;
    max_pattern_size = pattern_size;
}

void promql_set_max_output(size_t bytes)
{
    max_output = bytes;
}

uint32_t promql_set_target(uint32_t number)
{
    if (number > PROMQL_PROMETHEUS_2)
        return PROMQL_UNKNOWN_MODE;
    target = number;
    return PROMQL_OK;
}

void promql_set_max_tree(size_t bytes)
{
    max_tree = bytes;
}

uint32_t promql_version(char *buffer, size_t buffer_size, struct promql_result *result)
{
    if (!are_good(NULL, 0, buffer, buffer_size, result))
        return refuse(PROMQL_BAD_POINTER, result);
    call_version(room_of(buffer), buffer_size, result);
    return result->status;
}
