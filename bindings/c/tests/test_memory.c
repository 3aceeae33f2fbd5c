/* Tests of promql.h where allocations fail: each allocation of some calls fails in turn, one in each call, until a call meets
 * none. Each call gives the same as with ample memory, or PROMQL_OUT_OF_MEMORY, or its error without a message. Before that the
 * system fails to tell the bounds of the stack.
 *
 * It is linked to libpromql.a with -Wl,--wrap=malloc,--wrap=realloc,--wrap=pthread_getattr_np. The last line is 'N passed, M
 * failed'. */
#include "promql.h"

#include <errno.h>
#include <pthread.h>
#include <stdio.h>
#include <stdlib.h>
#include <string.h>

void *__real_malloc(size_t size);
void *__real_realloc(void *start, size_t size);

/* The allocation that fails, counted down from here; none at 0. */
static long until_failure;

static int fails_now(void)
{
    return until_failure > 0 && --until_failure == 0;
}

void *__wrap_malloc(size_t size)
{
    return fails_now() ? NULL : __real_malloc(size);
}

void *__wrap_realloc(void *start, size_t size)
{
    return fails_now() ? NULL : __real_realloc(start, size);
}

int __real_pthread_getattr_np(pthread_t thread, pthread_attr_t *attributes);

/* What the next question for the bounds of a stack fails with; none at 0. */
static int stack_error;

int __wrap_pthread_getattr_np(pthread_t thread, pthread_attr_t *attributes)
{
    return stack_error != 0 ? stack_error : __real_pthread_getattr_np(thread, attributes);
}

enum { SIZE = 4096 };

struct answer {
    struct promql_result result;
    char text[SIZE];
};

static void make_call(int call, const char *query, struct answer *answer)
{
    static const struct promql_times times = {0, 0, 0, 300000, 60000, 1};
    static const char *const labels[] = {"{\"__name__\":\"up\",\"job\":\"\\u00e9\",\"code\":\"500\"}", "{\"a\":[\"b\"]}"};
    size_t length = strlen(query);
    memset(answer, 0, sizeof *answer);
    if (call < 3)
        promql_print(query, length, (uint32_t)call, 1, 20, answer->text, SIZE, &answer->result);
    else if (call == 3)
        promql_canonical(query, length, answer->text, SIZE, &answer->result);
    else if (call == 4)
        promql_check(query, length, answer->text, SIZE, &answer->result);
    else if (call == 5)
        promql_enforce(query, length, "a=~'x|y'", 8, answer->text, SIZE, &answer->result);
    else if (call == 6)
        promql_enforce(query, length, "a", 1, answer->text, SIZE, &answer->result);
    else if (call == 7)
        promql_collect(query, length, answer->text, SIZE, &answer->result);
    else if (call == 8 || call == 9)
        promql_explain(query, length, call == 9, answer->text, SIZE, &answer->result);
    else if (call == 10)
        promql_reaches(query, length, &times, answer->text, SIZE, &answer->result);
    else if (call == 11 || call == 12)
        promql_may_read(query, length, labels[call - 11], strlen(labels[call - 11]), answer->text, SIZE, &answer->result);
    else
        promql_snippet(query, length, 1, 3, answer->text, SIZE, &answer->result);
}

static int is_same(const struct answer *a, const struct answer *b)
{
    return a->result.status == b->result.status && a->result.length == b->result.length
        && a->result.start == b->result.start && a->result.end == b->result.end && a->result.line == b->result.line
        && a->result.column == b->result.column && memcmp(a->text, b->text, SIZE) == 0;
}

/* Whether the call is right where one allocation fails and this is what it gives with ample memory. */
static int is_right(const struct answer *found, const struct answer *ample)
{
    static const struct answer failed = {{PROMQL_OUT_OF_MEMORY, 13, 0, 0, 0, 0}, "out of memory"};
    struct answer silent = *ample;
    silent.result.length = 0;
    memset(silent.text, 0, SIZE);
    return is_same(found, ample) || is_same(found, &failed)
        || (ample->result.status != PROMQL_OK && is_same(found, &silent));
}

/* Whether a call, the first one of the thread, is right where there is no memory to ask for the bounds of the stack, and where the
 * system does not tell them. */
static int is_right_without_bounds(void)
{
    static const struct answer silent = {{PROMQL_OUT_OF_MEMORY, 0, 0, 0, 0, 0}, ""}, printed = {{PROMQL_OK, 1, 0, 0, 0, 0}, "1"};
    struct answer found;
    stack_error = ENOMEM;
    make_call(3, "1", &found);
    int is_good = is_same(&found, &silent);
    stack_error = ENOENT;
    make_call(3, "1", &found);
    stack_error = 0;
    return is_good && is_same(&found, &printed);
}

int main(void)
{
    static const char *const queries[] = {
        "sum by (job) (rate(http_requests_total{code=~'5..', job!='a'}[5m] offset -1m)) / on (job) group_left up @ 1.5",
        "label_replace(a, 'b', '$1', 'c', `d.*`) and ignoring (e) -(f ^ 2)", "{a='1' or b='2'}", "a[1h:5m]",
        "nosuch(1)", "a{b=~'('}", "1 +", "rate(a)",
    };
    long passed = is_right_without_bounds(), failed = !passed;
    if (failed != 0)
        printf("FAILED a call without the bounds of the stack\n");
    for (size_t i = 0; i < sizeof queries / sizeof *queries; i++) {
        for (int call = 0; call < 14; call++) {
            struct answer ample, found;
            long number = 0, is_met = 1;
            make_call(call, queries[i], &ample);
            while (is_met) {
                until_failure = ++number;
                make_call(call, queries[i], &found);
                is_met = until_failure == 0;
                until_failure = 0;
                if (is_right(&found, &ample)) {
                    passed++;
                } else {
                    failed++;
                    printf("FAILED call %d of %s, allocation %ld: status %u, %s\n", call, queries[i], number,
                           (unsigned)found.result.status, found.text);
                }
            }
        }
    }
    printf("%ld passed, %ld failed\n", passed, failed);
    return failed != 0;
}
