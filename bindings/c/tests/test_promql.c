/* Tests of promql.h:
 *
 *     test_promql                          each call, by cases that are typed here
 *     test_promql rows FILE [THREADS]      makes the calls of a file and prints what each gives (bindings/rows.py has the format);
 *                                          with THREADS, that many threads make all of them again and get the same
 *     test_promql random FILE COUNT SEED   makes COUNT broken texts of the queries of such a file, and calls with each
 *     test_promql stack small|large        makes each call in the first thread, whose stack `ulimit -s` has made small or large
 *
 * Without `rows` the last line is 'N passed, M failed'. */
#include "promql.h"

#include <pthread.h>
#include <stdio.h>
#include <stdlib.h>
#include <string.h>
#include <unistd.h>

static long passed, failed;

static void check_at(int holds, const char *what, int line)
{
    if (holds) {
        passed++;
    } else {
        failed++;
        printf("FAILED %s:%d: %s\n", __FILE__, line, what);
    }
}

#define CHECK(condition) check_at((condition) != 0, #condition, __LINE__)

static void *allocate(size_t size)
{
    void *start = malloc(size != 0 ? size : 1);
    if (start == NULL)
        abort();
    return start;
}

/* A call with its arguments. */
enum call { CALL_PRINT, CALL_CANONICAL, CALL_CHECK, CALL_SNIPPET, CALL_ENFORCE, CALL_COLLECT, CALL_PRINT_TREE, CALL_EXPLAIN, CALL_PLACES, CALL_PARTS,
            CALL_TOKENS, CALL_DIFFERENCES, CALL_WINDOWS, CALL_REACHES, CALL_LAST_READ, CALL_PINNED, CALL_IS_CONSTANT, CALL_MAY_READ };

/* Those of each call that has times: 1,000, 1,200 and 1,400 seconds. */
static struct promql_times times = {1000000, 1500000, 200000, 300000, 60000, 0};

struct request {
    enum call call;
    uint32_t mode, level;
    size_t width, start, end;
    const char *query;
    size_t length;
};

static uint32_t make_call(const struct request *r, char *buffer, size_t size, struct promql_result *result)
{
    switch (r->call) {
    case CALL_PRINT:
        return promql_print(r->query, r->length, r->mode, r->level, r->width, buffer, size, result);
    case CALL_CANONICAL:
        return promql_canonical(r->query, r->length, buffer, size, result);
    case CALL_CHECK:
        return promql_check(r->query, r->length, buffer, size, result);
    case CALL_COLLECT:
        return promql_collect(r->query, r->length, buffer, size, result);
    case CALL_PLACES:
        return promql_places(r->query, r->length, buffer, size, result);
    case CALL_PARTS:
        return promql_parts(r->query, r->length, buffer, size, result);
    case CALL_DIFFERENCES:
        return promql_differences(r->query, r->length, buffer, size, result);
    case CALL_WINDOWS:
        return promql_windows(r->query, r->length, &times, buffer, size, result);
    case CALL_REACHES:
        return promql_reaches(r->query, r->length, &times, buffer, size, result);
    case CALL_LAST_READ: /* (at the first time) */
        return promql_last_read(r->query, r->length, times.start, &times, buffer, size, result);
    case CALL_PINNED:
        return promql_pinned(r->query, r->length, times.start, times.end, buffer, size, result);
    case CALL_IS_CONSTANT:
        return promql_is_constant(r->query, r->length, buffer, size, result);
    case CALL_MAY_READ: /* (the last `end` bytes are the labels) */
        return promql_may_read(r->query, r->length - r->end, r->query + (r->length - r->end), r->end, buffer, size, result);
    case CALL_TOKENS:
        return promql_tokens(r->query, r->length, buffer, size, result);
    case CALL_PRINT_TREE: /* (`end` says whether parentheses are put) */
        return promql_print_tree(r->query, r->length, r->mode, r->level, r->width, (uint32_t)r->end, buffer, size, result);
    case CALL_EXPLAIN:
        return promql_explain(r->query, r->length, r->mode == PROMQL_JSON, buffer, size, result);
    case CALL_ENFORCE: /* (the last `end` bytes are the matcher) */
        return promql_enforce(r->query, r->length - r->end, r->query + (r->length - r->end), r->end, buffer, size, result);
    default:
        return promql_snippet(r->query, r->length, r->start, r->end, buffer, size, result);
    }
}

/* What a call gives, with its text in memory of its own. */
struct answer {
    struct promql_result result;
    char *text;
};

#define GUARD 16

/* Calls with a buffer of this size that has a guard after it, and returns whether nothing but the text was written. */
static int call_guarded(const struct request *r, size_t size, struct answer *answer)
{
    char *buffer = allocate(size + GUARD);
    memset(buffer, '\xaa', size + GUARD);
    memset(&answer->result, '\xaa', sizeof answer->result);
    int is_good = make_call(r, buffer, size, &answer->result) == answer->result.status;
    size_t written = answer->result.length <= size ? answer->result.length : 0;
    for (size_t i = written; i < size + GUARD; i++)
        is_good = is_good && buffer[i] == '\xaa';
    answer->text = buffer;
    return is_good;
}

/* Calls with a buffer that is likely to be too small, then with one that is just large enough. */
static int call_whole(const struct request *r, struct answer *answer)
{
    int is_good = call_guarded(r, 24, answer);
    if (answer->result.length <= 24)
        return is_good && answer->result.status != PROMQL_BUFFER_TOO_SMALL;
    struct promql_result first = answer->result;
    free(answer->text);
    is_good = is_good && call_guarded(r, first.length, answer);
    /* (an error keeps its status, a text that does not fit has one of its own) */
    if (first.status == PROMQL_BUFFER_TOO_SMALL)
        first.status = PROMQL_OK;
    return is_good && first.status == answer->result.status && first.length == answer->result.length
        && first.start == answer->result.start && first.end == answer->result.end
        && first.line == answer->result.line && first.column == answer->result.column;
}

static int is_same(const struct answer *a, const struct answer *b)
{
    return a->result.status == b->result.status && a->result.length == b->result.length
        && a->result.start == b->result.start && a->result.end == b->result.end && a->result.line == b->result.line
        && a->result.column == b->result.column && memcmp(a->text, b->text, a->result.length) == 0;
}

/* ---- cases */

static struct request of_query(enum call call, const char *query)
{
    struct request r = {call, PROMQL_LINE, 0, 0, 0, 0, query, strlen(query)};
    return r;
}

/* Whether the call gives this status and this text. */
static int gives(struct request r, uint32_t status, const char *text)
{
    struct answer answer;
    int is_good = call_whole(&r, &answer) && answer.result.status == status && answer.result.length == strlen(text)
        && memcmp(answer.text, text, strlen(text)) == 0;
    if (!is_good)
        printf("status %u, text %.*s\n", (unsigned)answer.result.status, (int)answer.result.length, answer.text);
    free(answer.text);
    return is_good;
}

static int has_place(struct request r, size_t start, size_t end, size_t line, size_t column)
{
    struct answer answer;
    int is_good = call_whole(&r, &answer) && answer.result.start == start && answer.result.end == end
        && answer.result.line == line && answer.result.column == column;
    free(answer.text);
    return is_good;
}

static struct request in_mode(uint32_t mode, uint32_t level, size_t width, const char *query)
{
    struct request r = of_query(CALL_PRINT, query);
    r.mode = mode;
    r.level = level;
    r.width = width;
    return r;
}

/* The text is a query, and at its end a matcher of this many bytes. */
static struct request enforcing(const char *text, size_t matcher_length)
{
    struct request r = of_query(CALL_ENFORCE, text);
    r.end = matcher_length;
    return r;
}

/* The text is a query, and at its end the labels of a series in so many bytes. */
static struct request reading(const char *text, size_t labels_length)
{
    struct request r = of_query(CALL_MAY_READ, text);
    r.end = labels_length;
    return r;
}

static struct request marking(const char *query, size_t start, size_t end)
{
    struct request r = of_query(CALL_SNIPPET, query);
    r.start = start;
    r.end = end;
    return r;
}

static void test_texts(void)
{
    CHECK(gives(of_query(CALL_CANONICAL, "sum(foo{b='1',a=\"2\"}) > .50"), PROMQL_OK, "sum(foo{a=\"2\",b=\"1\"}) > 0.5"));
    CHECK(gives(in_mode(PROMQL_LINE, 7, 7, "1+2"), PROMQL_OK, "1 + 2"));
    CHECK(gives(in_mode(PROMQL_PRETTY, 0, 8, "sum(a)/sum(b)"), PROMQL_OK, "  sum(a)\n/\n  sum(b)"));
    CHECK(gives(in_mode(PROMQL_PRETTY, 1, 100, "1+2"), PROMQL_OK, "  1 + 2"));
    CHECK(gives(in_mode(PROMQL_JSON, 0, 0, "1"), PROMQL_OK, "{\"type\":\"numberLiteral\",\"val\":\"1\"}"));
    CHECK(gives(in_mode(PROMQL_PLACED_JSON, 0, 0, " 1"), PROMQL_OK,
                "{\"end\":2,\"start\":1,\"type\":\"numberLiteral\",\"val\":\"1\"}"));
    CHECK(gives(of_query(CALL_CHECK, "foo"), PROMQL_OK, ""));
    CHECK(gives(marking("a +\n  * b", 6, 7), PROMQL_OK, "  * b\n  ^"));
    CHECK(gives(marking("a", 90, 80), PROMQL_OK, "a\n ^"));
}

static void test_errors(void)
{
    enum call calls[] = {CALL_PRINT, CALL_CANONICAL, CALL_CHECK};
    for (size_t i = 0; i < sizeof calls / sizeof *calls; i++) {
        struct request r = of_query(calls[i], "sum(\n  rate(foo))");
        CHECK(gives(r, PROMQL_REJECTED, "expected type matrix in call to function 'rate', got vector"));
        CHECK(has_place(r, 12, 15, 2, 8));
        CHECK(gives(of_query(calls[i], ""), PROMQL_REJECTED, "no expression found in input"));
        CHECK(has_place(of_query(calls[i], "1 +"), 3, 3, 1, 4));
        CHECK(gives(of_query(calls[i], "\xff"), PROMQL_NOT_UTF8, "input is not UTF-8"));
        CHECK(has_place(of_query(calls[i], "\xff"), 0, 0, 0, 0));
    }
    CHECK(gives(marking("\xff", 0, 1), PROMQL_NOT_UTF8, "input is not UTF-8"));
    const char *wide = "a[18446744073709551616ms]";
    CHECK(gives(in_mode(PROMQL_JSON, 0, 0, wide), PROMQL_NUMBER_TOO_WIDE, "number too wide for JSON"));
    CHECK(gives(in_mode(PROMQL_PLACED_JSON, 0, 0, wide), PROMQL_NUMBER_TOO_WIDE, "number too wide for JSON"));
    CHECK(promql_set_target(PROMQL_RULES) == PROMQL_OK);
    CHECK(gives(of_query(CALL_CHECK, wide), PROMQL_OK, ""));
    CHECK(promql_set_target(PROMQL_PROMETHEUS_3) == PROMQL_OK);
    CHECK(gives(in_mode(4, 0, 0, "1"), PROMQL_UNKNOWN_MODE, "unknown mode"));
    CHECK(gives(in_mode(UINT32_MAX, 0, 0, "\xff"), PROMQL_UNKNOWN_MODE, "unknown mode"));
    CHECK(gives(in_mode(PROMQL_PRETTY, 513, 0, "1"), PROMQL_UNKNOWN_MODE, "unknown mode"));
    CHECK(gives(in_mode(PROMQL_LINE, 513, 0, "1"), PROMQL_OK, "1"));
    const char *large = "a{b=~\"c{3000}\"}";
    CHECK(gives(of_query(CALL_CHECK, large), PROMQL_TOO_LARGE, "patterns are too large: 39013, at most 16000"));
    promql_set_limits(15, 39013);
    CHECK(gives(of_query(CALL_CHECK, large), PROMQL_OK, ""));
    CHECK(gives(of_query(CALL_CHECK, "a + b + c + d + e"), PROMQL_TOO_LARGE, "query is too long: 17 bytes, at most 15"));
    promql_set_limits(32768, 16000);
    promql_set_max_output(5);
    CHECK(gives(in_mode(PROMQL_LINE, 0, 0, "a+b"), PROMQL_OK, "a + b"));
    CHECK(gives(in_mode(PROMQL_LINE, 0, 0, "a + cd"), PROMQL_LONG_OUTPUT, "output is too long: 6 bytes, at most 5"));
    CHECK(has_place(in_mode(PROMQL_LINE, 0, 0, "a + cd"), 0, 0, 0, 0));
    CHECK(gives(in_mode(PROMQL_PRETTY, 3, 9, "a"), PROMQL_LONG_OUTPUT, "output is too long: 7 bytes, at most 5"));
    CHECK(gives(in_mode(PROMQL_JSON, 0, 0, "1"), PROMQL_LONG_OUTPUT, "output is too long: 34 bytes, at most 5"));
    CHECK(gives(in_mode(PROMQL_PLACED_JSON, 0, 0, "1"), PROMQL_LONG_OUTPUT, "output is too long: 52 bytes, at most 5"));
    CHECK(gives(of_query(CALL_CANONICAL, "a + cd"), PROMQL_LONG_OUTPUT, "output is too long: 6 bytes, at most 5"));
    CHECK(gives(of_query(CALL_CANONICAL, "a + "), PROMQL_REJECTED, "invalid promql query"));
    promql_set_max_output(4194304);
    struct answer answer;
    struct request deep = in_mode(PROMQL_PRETTY, 512, SIZE_MAX, "1");
    CHECK(call_whole(&deep, &answer) && answer.result.status == PROMQL_OK && answer.result.length == 2 * 512 + 1);
    free(answer.text);
}

static void test_enforcing(void)
{
    CHECK(gives(enforcing("sum(foo)a=\"1\"", 5), PROMQL_OK, "sum(foo{a=\"1\"})"));
    CHECK(gives(enforcing("{b='2' or c='3'}a=~\"x|y\"", 8), PROMQL_OK, "{b=\"2\", a=~\"x|y\" or c=\"3\", a=~\"x|y\"}"));
    CHECK(gives(enforcing("foo{a=\"1\"}a='1'", 5), PROMQL_OK, "foo{a=\"1\"}"));
    CHECK(gives(enforcing("1 +a=\"1\"", 5), PROMQL_REJECTED, "invalid promql query"));
    CHECK(has_place(enforcing("1 +a=\"1\"", 5), 3, 3, 1, 4));
    CHECK(gives(enforcing("1 +a", 1), PROMQL_REJECTED, "invalid promql query"));
    CHECK(gives(enforcing("1 +\xff", 1), PROMQL_REJECTED, "invalid promql query"));
    CHECK(has_place(enforcing("1 +\xff", 1), 3, 3, 1, 4));
    CHECK(gives(enforcing("\xff\xff", 1), PROMQL_NOT_UTF8, "input is not UTF-8"));
    CHECK(gives(enforcing("foo", 0), PROMQL_BAD_MATCHER, "not a matcher: 1:1: it is empty"));
    CHECK(gives(enforcing("fooa=\"1\"} or x{b=\"2\"", 18), PROMQL_BAD_MATCHER,
                "not a matcher: 1:7: unexpected \"}\", a matcher has no braces"));
    CHECK(gives(enforcing("foo\xff", 1), PROMQL_BAD_MATCHER, "not a matcher"));
    CHECK(gives(enforcing("foo__name__=\"bar\"", 14), PROMQL_BAD_MATCHER, "a matcher of the metric name cannot be enforced"));
    CHECK(gives(enforcing("\xff" "a=\"1\"", 5), PROMQL_NOT_UTF8, "input is not UTF-8"));
    const char *bare = "info without a selector reads series that no matcher limits";
    CHECK(gives(enforcing("info(b, {c='2'})a=\"1\"", 5), PROMQL_OK, "info(b{a=\"1\"}, {a=\"1\",c=\"2\"})"));
    CHECK(gives(enforcing("info(b)a=\"1\"", 5), PROMQL_BARE_INFO, bare));
    CHECK(gives(enforcing("sum(c) + topk(scalar(info(b)), d)a=\"1\"", 5), PROMQL_BARE_INFO, bare));
    CHECK(has_place(enforcing("info(b)a=\"1\"", 5), 0, 0, 0, 0));
    CHECK(gives(enforcing("info(b)a", 1), PROMQL_BAD_MATCHER,
                "not a matcher: 1:2: unexpected end, expected \"=\", \"=~\", \"!=\" or \"!~\""));
    CHECK(gives(enforcing("info(b)\xff", 1), PROMQL_BAD_MATCHER, "not a matcher"));
    CHECK(gives(enforcing("info(b) +a=\"1\"", 5), PROMQL_REJECTED, "invalid promql query"));
    CHECK(gives(of_query(CALL_CHECK, "info(b)"), PROMQL_OK, ""));
}

/* Whether a call renames so: `made` is the text, or the message of this status. */
static int renames(const char *query, uint32_t kind, const char *from, const char *to, uint32_t status, const char *made)
{
    char buffer[256];
    struct promql_result result;
    uint32_t found = promql_rename(query, strlen(query), kind, from, strlen(from), to, strlen(to), buffer, sizeof buffer, &result);
    return found == status && result.status == status && result.length == strlen(made) && memcmp(buffer, made, result.length) == 0;
}

static void test_renaming(void)
{
    char buffer[8] = "unknown", name[1026];
    struct promql_result result;
    CHECK(renames("sum by (job) (rate(a{job='b'}[5m])) / {__name__='a'}", PROMQL_METRIC, "a", "c", PROMQL_OK,
                  "sum by (job) (rate(c{job=\"b\"}[5m])) / {__name__=\"c\"}"));
    CHECK(renames("sum by (job) (rate(a{job='b'}[5m]))", PROMQL_LABEL, "job", "service", PROMQL_OK,
                  "sum by (service) (rate(a{service=\"b\"}[5m]))"));
    CHECK(renames("a", PROMQL_METRIC, "b", "c", PROMQL_OK, "a"));
    CHECK(renames("a", PROMQL_METRIC, "a", "b.c", PROMQL_NOT_A_NAME, "the new name is no name of a metric"));
    CHECK(renames("a", PROMQL_METRIC, "b", "", PROMQL_NOT_A_NAME, "the new name is no name of a metric"));
    CHECK(renames("a", PROMQL_LABEL, "__name__", "b", PROMQL_METRIC_LABEL, "the label of the metric name cannot be renamed"));
    CHECK(renames("a", PROMQL_LABEL, "b", "__name__", PROMQL_METRIC_LABEL, "the label of the metric name cannot be renamed"));
    CHECK(renames("a{b='1',c='2'}", PROMQL_LABEL, "b", "c", PROMQL_CLASH, "both labels are in one list"));
    CHECK(renames("sum by (b, c) (a)", PROMQL_LABEL, "b", "c", PROMQL_CLASH, "both labels are in one list"));
    CHECK(renames("a{b='1',c='2'}", PROMQL_LABEL, "b", "b", PROMQL_OK, "a{b=\"1\",c=\"2\"}"));
    CHECK(renames("a{b='1'}", PROMQL_LABEL, "b", "c d", PROMQL_OK, "a{\"c d\"=\"1\"}"));
    CHECK(renames("1 +", PROMQL_LABEL, "__name__", "b", PROMQL_REJECTED, "invalid promql query"));
    memset(name, 'x', sizeof name - 1);
    name[sizeof name - 1] = 0;
    CHECK(renames("a", PROMQL_LABEL, "__name__", name, PROMQL_LARGE_ENFORCED,
                  "the new name is not within the limits: query is too long: 1025 bytes, at most 1024"));
    CHECK(renames("b", PROMQL_METRIC, "a", name + 1, PROMQL_OK, "b"));
    CHECK(renames("a", 2, "a", "b", PROMQL_UNKNOWN_MODE, "unknown mode"));
    CHECK(renames("a", PROMQL_METRIC, "\xff", "b", PROMQL_NOT_UTF8, "input is not UTF-8"));
    CHECK(renames("a", PROMQL_METRIC, "a", "\xff", PROMQL_NOT_UTF8, "input is not UTF-8"));
    CHECK(renames("\xff", PROMQL_METRIC, "a", "b", PROMQL_NOT_UTF8, "input is not UTF-8"));
    promql_set_limits(4, 16000);
    CHECK(renames("a+b", PROMQL_METRIC, "a", "c", PROMQL_LARGE_ENFORCED,
                  "the renamed query is not within the limits: query is too long: 5 bytes, at most 4"));
    promql_set_limits(32768, 16000);
    CHECK(promql_rename("a", 1, PROMQL_METRIC, "a", 1, "bc", 2, buffer, 1, &result) == PROMQL_BUFFER_TOO_SMALL);
    CHECK(result.length == 2 && memcmp(buffer, "unknown", 8) == 0);
    CHECK(promql_rename("a", 1, PROMQL_METRIC, NULL, 1, "b", 1, buffer, sizeof buffer, &result) == PROMQL_BAD_POINTER);
    CHECK(promql_rename("a", 1, PROMQL_METRIC, "a", 1, NULL, 1, buffer, sizeof buffer, &result) == PROMQL_BAD_POINTER);
}

/* Whether a layout is this text, or the message of this status. */
static int lays_out(const char *query, size_t width, size_t indent_width, uint32_t status, const char *made)
{
    char buffer[256];
    struct promql_result result;
    uint32_t found = promql_format_query(query, strlen(query), width, indent_width, 0, buffer, sizeof buffer, &result);
    return found == status && result.status == status && result.length == strlen(made) && memcmp(buffer, made, result.length) == 0;
}

static void test_formatting(void)
{
    CHECK(lays_out("a+b # c", 80, 2, PROMQL_OK, "a + b # c"));
    CHECK(lays_out("a+b", 65535, 16, PROMQL_OK, "a + b"));
    CHECK(lays_out("a+b", 65536, 16, PROMQL_UNKNOWN_MODE, "width is too large: 65536, at most 65535"));
    CHECK(lays_out("a+b", 65535, 17, PROMQL_UNKNOWN_MODE, "indentation is too large: 17, at most 16"));
    CHECK(lays_out("a+b", SIZE_MAX, SIZE_MAX, PROMQL_UNKNOWN_MODE, "width is too large: 18446744073709551615, at most 65535"));
    promql_set_max_output(4);
    CHECK(lays_out("a+b", 80, 2, PROMQL_LONG_OUTPUT, "output is too long: 5 bytes, at most 4"));
    CHECK(lays_out("a+", 80, 2, PROMQL_REJECTED, "invalid promql query"));
    promql_set_max_output(4194304);
}

/* What Prometheus reads as bytes and the rules as characters, by each call that has a target and some that have none. */
static void test_targets(void)
{
    const char *query = "a{b=\"\\xc3\\xa9\"}";
    const char *line = "a{b=\"\xc3\x83\xc2\xa9\"}";
    const char *why = "Prometheus reads this otherwise: the escape is a byte there, and a character here";
    const char *of_matcher = "Prometheus reads the matcher otherwise: the escape at byte 3 is a byte there, and a character here";
    CHECK(gives(of_query(CALL_CHECK, query), PROMQL_READ_OTHERWISE, why));
    CHECK(has_place(of_query(CALL_CHECK, query), 5, 9, 1, 6));
    CHECK(gives(enforcing("a{b=\"\\xc3\\xa9\"}c='1'", 5), PROMQL_READ_OTHERWISE, why));
    CHECK(gives(enforcing("ab=\"\\xc3\"", 8), PROMQL_READ_OTHERWISE, of_matcher));
    CHECK(has_place(enforcing("ab=\"\\xc3\"", 8), 0, 0, 0, 0));
    CHECK(renames(query, PROMQL_METRIC, "a", "c", PROMQL_READ_OTHERWISE, why));
    CHECK(lays_out(query, 80, 2, PROMQL_READ_OTHERWISE, why));
    CHECK(gives(in_mode(PROMQL_LINE, 0, 0, query), PROMQL_OK, line));
    CHECK(gives(of_query(CALL_CANONICAL, query), PROMQL_OK, line));
    CHECK(promql_set_target(3) == PROMQL_UNKNOWN_MODE);
    CHECK(gives(of_query(CALL_CHECK, query), PROMQL_READ_OTHERWISE, why));
    CHECK(promql_set_target(PROMQL_RULES) == PROMQL_OK);
    CHECK(gives(of_query(CALL_CHECK, query), PROMQL_OK, ""));
    CHECK(renames(query, PROMQL_METRIC, "a", "a", PROMQL_OK, line));
    CHECK(lays_out(query, 80, 2, PROMQL_OK, line));
    CHECK(gives(enforcing("ab=\"\\xc3\"", 8), PROMQL_OK, "a{b=\"\xc3\x83\"}"));
    CHECK(promql_set_target(PROMQL_PROMETHEUS_3) == PROMQL_OK);
    CHECK(gives(of_query(CALL_CHECK, "a{b=\"\\x41\"}"), PROMQL_OK, ""));
}

/* What a target rejects, by the calls that check a query; what is printed is none of its matters. */
static void test_refusals(void)
{
    const char *groups = "a{b=\"c\" or d=\"e\"}";
    const char *later = "Prometheus 2.42 rejects this: a length of time without a unit is of a later version; write 300s for 300";
    CHECK(gives(of_query(CALL_CHECK, groups), PROMQL_REFUSED, "Prometheus 3 rejects this: it knows no `or` between matchers"));
    CHECK(has_place(of_query(CALL_CHECK, groups), 8, 10, 1, 9));
    CHECK(gives(of_query(CALL_CHECK, "a[300]"), PROMQL_OK, ""));
    CHECK(promql_set_target(PROMQL_PROMETHEUS_2) == PROMQL_OK);
    CHECK(gives(of_query(CALL_CHECK, "a[300]"), PROMQL_REFUSED, later));
    CHECK(gives(of_query(CALL_CANONICAL, "a[300]"), PROMQL_OK, "a[5m]"));
    CHECK(gives(enforcing("a[300]b='1'", 5), PROMQL_OK, "a{b=\"1\"}[5m]"));
    CHECK(lays_out("a[300]", 80, 2, PROMQL_OK, "a[5m]"));
    CHECK(promql_set_target(PROMQL_RULES) == PROMQL_OK);
    CHECK(gives(of_query(CALL_CHECK, groups), PROMQL_OK, ""));
    CHECK(promql_set_target(PROMQL_PROMETHEUS_3) == PROMQL_OK);
}

/* A matcher, and the query with it, have the limits of a query. */
static void test_large_enforcing(void)
{
    const char *matcher = "the matcher is not within the limits: patterns are too large: 16003, at most 16000";
    const char *line = "the enforced query is not within the limits: patterns are too large: 31980, at most 16000";
    CHECK(gives(enforcing("fooa=~\"b{1230}\"", 12), PROMQL_LARGE_ENFORCED, matcher));
    CHECK(gives(enforcing("1a=~\"b{1230}\"", 12), PROMQL_LARGE_ENFORCED, matcher));
    CHECK(gives(enforcing("info(b)a=~\"b{1230}\"", 12), PROMQL_LARGE_ENFORCED, matcher));
    CHECK(gives(enforcing("1 +a=~\"b{1230}\"", 12), PROMQL_REJECTED, "invalid promql query"));
    CHECK(has_place(enforcing("fooa=~\"b{1230}\"", 12), 0, 0, 0, 0));
    CHECK(gives(enforcing("fooa=~\"b{1229}\"", 12), PROMQL_OK, "foo{a=~\"b{1229}\"}"));
    CHECK(gives(enforcing("c + da=~\"b{1229}\"", 12), PROMQL_LARGE_ENFORCED, line));
    CHECK(has_place(enforcing("c + da=~\"b{1229}\"", 12), 0, 0, 0, 0));
    promql_set_limits(32768, 31980);
    CHECK(gives(enforcing("fooa=~\"b{1230}\"", 12), PROMQL_OK, "foo{a=~\"b{1230}\"}"));
    CHECK(gives(enforcing("c + da=~\"b{1229}\"", 12), PROMQL_OK, "c{a=~\"b{1229}\"} + d{a=~\"b{1229}\"}"));
    promql_set_limits(14, 16000);
    CHECK(gives(enforcing("fooa=\"1\"", 5), PROMQL_OK, "foo{a=\"1\"}"));
    CHECK(gives(enforcing("c + da=\"1\"", 5), PROMQL_LARGE_ENFORCED,
                "the enforced query is not within the limits: query is too long: 19 bytes, at most 14"));
    promql_set_limits(32768, 16000);
}

/* Writes a text at this place, and returns where it ends. */
static char *put(char *at, const char *text)
{
    size_t length = strlen(text);
    memcpy(at, text, length);
    return at + length;
}

/* Writes sums of two sums and so on, in parentheses, as many levels of them, and returns where they end. */
static char *put_sums(char *at, size_t levels, const char *leaf)
{
    if (levels == 0)
        return put(at, leaf);
    at = put_sums(put(at, "("), levels - 1, leaf);
    return put(put_sums(put(at, " + "), levels - 1, leaf), ")");
}

/* Enforces a matcher of so many bytes on a query of so many levels of sums, which has 2^levels selectors. */
static void test_long_enforcing(size_t levels, size_t size)
{
    char *matcher = allocate(size + 1), *leaf = allocate(size + 5);
    memset(matcher, 'x', size);
    memcpy(matcher, "a=\"", 3);
    strcpy(matcher + size - 1, "\"");
    sprintf(leaf, "ab{%s}", matcher);
    char *query = allocate((9 << levels) + size), *wanted = allocate((size + 12) << levels);
    *put(put_sums(query, levels, "ab"), matcher) = '\0';
    *put_sums(wanted, levels, leaf) = '\0';
    promql_set_limits(1048576, 16000);
    CHECK(gives(enforcing(query, size), PROMQL_OK, wanted));
    promql_set_limits(32768, 16000);
    free(wanted);
    free(query);
    free(leaf);
    free(matcher);
}

/* A query has as many bytes as the limits say before they are set, and no more. */
static void test_longest_query(void)
{
    enum { SIZE = 32768 };
    char *name = allocate(SIZE + 2);
    memset(name, 'x', SIZE + 1);
    name[SIZE + 1] = '\0';
    CHECK(gives(of_query(CALL_CHECK, name), PROMQL_TOO_LARGE, "query is too long: 32769 bytes, at most 32768"));
    CHECK(gives(of_query(CALL_CANONICAL, name + 1), PROMQL_OK, name + 1));
    free(name);
}

/* A name of 10,000 bytes is collected. */
static void test_long_names(void)
{
    enum { SIZE = 10000 };
    char *name = allocate(SIZE + 1), *wanted = allocate(2 * SIZE + 200);
    memset(name, 'x', SIZE);
    name[SIZE] = '\0';
    sprintf(wanted, "{\"functions\":[],\"labels\":[],\"metrics\":[\"%s\"],\"selectors\":[{\"at\":null,\"matchers\":\"\",\"name\":\"%s\","
                    "\"offset\":null,\"range\":null}]}", name, name);
    CHECK(gives(of_query(CALL_COLLECT, name), PROMQL_OK, wanted));
    free(wanted);
    free(name);
}

static void test_explaining(void)
{
    const char *query = "foo{a=b}", *slip = "foo{a==\"b\"}", *unknown = "nosuch(1)", *large = "foo{a=~\"\\\\w{400}\"} b";
    struct request r = of_query(CALL_EXPLAIN, query);
    CHECK(gives(r, PROMQL_OK, "unexpected identifier \"b\", expected string"));
    CHECK(has_place(r, 0, 0, 0, 0));
    r.mode = PROMQL_JSON;
    CHECK(gives(r, PROMQL_OK, "{\"code\":4,\"column\":7,\"end\":7,\"error\":\"unexpected identifier \\\"b\\\", expected string\","
                              "\"expected\":[\"string\"],\"found\":\"identifier \\\"b\\\"\",\"line\":1,\"start\":6}"));
    CHECK(gives(of_query(CALL_EXPLAIN, slip), PROMQL_OK, "unexpected \"=\", expected string; a matcher has one \"=\""));
    CHECK(gives(of_query(CALL_EXPLAIN, "foo"), PROMQL_OK, ""));
    CHECK(gives(of_query(CALL_EXPLAIN, ""), PROMQL_OK, "no expression found in input"));
    CHECK(gives(of_query(CALL_EXPLAIN, unknown), PROMQL_OK, "unknown function with name 'nosuch'"));
    r = of_query(CALL_EXPLAIN, unknown);
    r.mode = PROMQL_JSON;
    CHECK(gives(r, PROMQL_OK, "{\"code\":4,\"column\":1,\"end\":6,\"error\":\"unknown function with name 'nosuch'\",\"line\":1,"
                              "\"start\":0}"));
    r.query = "foo";
    r.length = 3;
    CHECK(gives(r, PROMQL_OK, ""));
    CHECK(gives(of_query(CALL_EXPLAIN, "\xff"), PROMQL_NOT_UTF8, "input is not UTF-8"));
    CHECK(gives(of_query(CALL_EXPLAIN, large), PROMQL_OK,
                "unexpected identifier \"b\", expected \"[\", operator, \"@\", \"offset\", \"smoothed\", \"anchored\" or end of query; "
                "an operator is missing before it"));
    CHECK(gives(of_query(CALL_EXPLAIN, "a{b=~\"c{3000}\"}"), PROMQL_OK, "patterns are too large: 39013, at most 16000"));
}

static void test_collecting(void)
{
    CHECK(gives(of_query(CALL_COLLECT, "1"), PROMQL_OK, "{\"functions\":[],\"labels\":[],\"metrics\":[],\"selectors\":[]}"));
    CHECK(gives(of_query(CALL_COLLECT, "sum by (b) (rate(foo{a='1'}[5m] offset -1h)) / {__name__=\"bar\"} @ 1.5"), PROMQL_OK,
                "{\"functions\":[\"rate\"],\"labels\":[\"a\",\"b\"],\"metrics\":[\"bar\",\"foo\"],\"selectors\":["
                "{\"at\":null,\"matchers\":\"a=\\\"1\\\"\",\"name\":\"foo\",\"offset\":\"-1h\",\"range\":\"5m\"},"
                "{\"at\":\"@ 1.500\",\"matchers\":\"__name__=\\\"bar\\\"\",\"name\":null,\"offset\":null,\"range\":null}]}"));
    CHECK(gives(of_query(CALL_COLLECT, "1 +"), PROMQL_REJECTED, "invalid promql query"));
    CHECK(has_place(of_query(CALL_COLLECT, "1 +"), 3, 3, 1, 4));
    CHECK(gives(of_query(CALL_COLLECT, "\xff"), PROMQL_NOT_UTF8, "input is not UTF-8"));
}

static void test_places(void)
{
    CHECK(gives(of_query(CALL_PLACES, "1"), PROMQL_OK, "[[0,1]]"));
    CHECK(gives(of_query(CALL_PLACES, "topk(5, a offset 5m)"), PROMQL_OK, "[[0,20],[5,6],[8,19]]"));
    CHECK(gives(of_query(CALL_PLACES, " +a{b='\xc3\xa9'} > bool (c) # d"), PROMQL_OK, "[[1,22],[1,11],[19,22],[20,21]]"));
    CHECK(gives(of_query(CALL_PLACES, "1 +"), PROMQL_REJECTED, "invalid promql query"));
    CHECK(has_place(of_query(CALL_PLACES, "1 +"), 3, 3, 1, 4));
    CHECK(gives(of_query(CALL_PLACES, "\xff"), PROMQL_NOT_UTF8, "input is not UTF-8"));
}

static void test_parts(void)
{
    CHECK(gives(of_query(CALL_PARTS, "1"), PROMQL_OK, "[[]]"));
    CHECK(gives(of_query(CALL_PARTS, "topk by (a) (5, b{c='\xc3\xa9'} offset 5m)"), PROMQL_OK,
                "[[[\"operator\",0,4],[\"label\",9,10]],[],[[\"name\",16,17],[\"matcher\",18,24],[\"offset\",26,35]]]"));
    CHECK(gives(of_query(CALL_PARTS, "rate(a[5m] @ 1) > on (b) group_left (c) d"), PROMQL_OK,
                "[[[\"operator\",16,17],[\"label\",22,23],[\"groupLabel\",37,38]],[[\"name\",0,4]],"
                "[[\"name\",5,6],[\"selector\",5,6],[\"range\",6,10],[\"at\",11,14]],[[\"name\",40,41]]]"));
    CHECK(gives(of_query(CALL_PARTS, "1 +"), PROMQL_REJECTED, "invalid promql query"));
    CHECK(has_place(of_query(CALL_PARTS, "1 +"), 3, 3, 1, 4));
    CHECK(gives(of_query(CALL_PARTS, "\xff"), PROMQL_NOT_UTF8, "input is not UTF-8"));
}

/* What the target reads otherwise, and then what it rejects, each in the order of the text. */
static void test_differences(void)
{
    CHECK(gives(of_query(CALL_DIFFERENCES, "a"), PROMQL_OK, "[]"));
    CHECK(gives(of_query(CALL_DIFFERENCES, "exp(Inf) + -0"), PROMQL_OK,
                "[[23,11,12,\"Prometheus reads this otherwise: the number is negative zero there, and zero here\"],"
                "[24,0,3,\"Prometheus 3 rejects this: the argument is an instant vector there; write vector(..) around the number\"]]"));
    CHECK(gives(of_query(CALL_DIFFERENCES, "rate(a[300]) + and offset 5m"), PROMQL_OK, "[]"));
    promql_set_target(2);
    CHECK(gives(of_query(CALL_DIFFERENCES, "a[300]"), PROMQL_OK,
                "[[24,2,5,\"Prometheus 2.42 rejects this: a length of time without a unit is of a later version; write 300s for 300\"]]"));
    promql_set_target(1);
    CHECK(gives(of_query(CALL_DIFFERENCES, "exp(Inf) + -0"), PROMQL_OK, "[]"));
    promql_set_target(0);
    CHECK(gives(of_query(CALL_DIFFERENCES, "1 +"), PROMQL_REJECTED, "invalid promql query"));
    CHECK(has_place(of_query(CALL_DIFFERENCES, "1 +"), 3, 3, 1, 4));
    CHECK(gives(of_query(CALL_DIFFERENCES, "\xff"), PROMQL_NOT_UTF8, "input is not UTF-8"));
}

/* The windows are those of `timing.rt` of crates/promql_test_tools. */
static void test_windows(void)
{
    CHECK(gives(of_query(CALL_WINDOWS, "1 + time()"), PROMQL_OK, "[]"));
    CHECK(gives(of_query(CALL_WINDOWS, "rate(a{b='\xc3\xa9'}[5m] offset -1m @ start())"), PROMQL_OK,
                "[[\"a{b=\\\"\xc3\xa9\\\"} @ start() offset -1m\",760000,1060000,5,39]]"));
    CHECK(gives(of_query(CALL_WINDOWS, "topk(scalar(b offset 1m), a)"), PROMQL_OK,
                "[[\"b offset 1m\",640000,1340000,12,23],[\"a\",700000,1400000,26,27]]"));
    CHECK(gives(of_query(CALL_WINDOWS, "info(a offset 1m) + (c)"), PROMQL_OK,
                "[[\"a offset 1m\",640000,1340000,5,16],[\"target_info\",700000,1400000,null,null],[\"c\",700000,1400000,21,22]]"));
    CHECK(gives(of_query(CALL_WINDOWS, "a[1m:1h] offset 1m"), PROMQL_OK, "[[\"a\",null,null,0,1]]"));
    CHECK(gives(of_query(CALL_WINDOWS, "a @ 9223372036854775.807"), PROMQL_OK,
                "[[\"a @ 9223372036854775.807\",9223372036854475807,9223372036854775807,0,24]]"));
    CHECK(gives(of_query(CALL_WINDOWS, "b + a @ -9223372036854775.808"), PROMQL_TIME_OVERFLOW,
                "a time of `a @ -9223372036854775.808` is below -2^63 or above 2^63 - 1 milliseconds"));
    CHECK(has_place(of_query(CALL_WINDOWS, "b + a @ -9223372036854775.808"), 0, 0, 0, 0));
    CHECK(gives(of_query(CALL_WINDOWS, "1 +"), PROMQL_REJECTED, "invalid promql query"));
    CHECK(has_place(of_query(CALL_WINDOWS, "1 +"), 3, 3, 1, 4));
    CHECK(gives(of_query(CALL_WINDOWS, "\xff"), PROMQL_NOT_UTF8, "input is not UTF-8"));
    times.left_open = 1;
    CHECK(gives(of_query(CALL_WINDOWS, "a"), PROMQL_OK, "[[\"a\",700001,1400000,0,1]]"));
    times.left_open = 0;
    struct promql_times other = times;
    times = (struct promql_times){-1, -1, 0, 1, 7, 0};
    CHECK(gives(of_query(CALL_WINDOWS, "a + max_over_time(b[20ms:])"), PROMQL_OK, "[[\"a\",-2,-1,0,1],[\"b\",-22,-7,18,19]]"));
    times = other;
    struct promql_result result;
    CHECK(promql_windows("a", 1, NULL, NULL, 0, &result) == PROMQL_BAD_POINTER && result.status == PROMQL_BAD_POINTER);
    CHECK(promql_last_read("a", 1, 0, NULL, NULL, 0, &result) == PROMQL_BAD_POINTER && result.status == PROMQL_BAD_POINTER);
}

/* The reaches are those of `timing.rt` of crates/promql_test_tools. */
static void test_reaches(void)
{
    CHECK(gives(of_query(CALL_REACHES, "1 + time()"), PROMQL_OK, "[]"));
    CHECK(gives(of_query(CALL_REACHES, "a{b='\xc3\xa9'}[1m] offset -5m"), PROMQL_OK, "[[\"a{b=\\\"\xc3\xa9\\\"} offset -5m\",240000,300000,false]]"));
    CHECK(gives(of_query(CALL_REACHES, "rate(a[5m] smoothed)"), PROMQL_OK, "[[\"a\",-600000,300000,false]]"));
    CHECK(gives(of_query(CALL_REACHES, "a @ end() offset 1m"), PROMQL_OK, "[[\"a @ end() offset 1m\",1140000,1440000,true]]"));
    CHECK(gives(of_query(CALL_REACHES, "max_over_time((a + b @ 9)[5m:1m] @ 7) + c"), PROMQL_OK,
                "[[\"a\",-593000,7000,true],[\"b @ 9.000\",-291000,9000,true],[\"c\",-300000,0,false]]"));
    CHECK(gives(of_query(CALL_REACHES, "info(a offset 1m)"), PROMQL_OK,
                "[[\"a offset 1m\",-360000,-60000,false],[\"target_info\",-300000,0,false]]"));
    CHECK(gives(of_query(CALL_REACHES, "a + b @ -9223372036854775.808"), PROMQL_TIME_OVERFLOW,
                "a time of `b @ -9223372036854775.808` is below -2^63 or above 2^63 - 1 milliseconds"));
    CHECK(has_place(of_query(CALL_REACHES, "1 +"), 3, 3, 1, 4));
    times.left_open = 1;
    CHECK(gives(of_query(CALL_REACHES, "a"), PROMQL_OK, "[[\"a\",-299999,0,false]]"));
    times.left_open = 0;
    struct promql_result result;
    CHECK(promql_reaches("a", 1, NULL, NULL, 0, &result) == PROMQL_BAD_POINTER && result.status == PROMQL_BAD_POINTER);
}

static void test_may_read(void)
{
    /* (where a name comes twice, the last counts) */
    static const char *const up = "{\"job\":\"web\",\"__name__\":\"up\",\"job\":\"a\\u00e9\",\"team\":\"\"}";
    static const struct {
        const char *query, *labels, *text;
    } rows[] = {
        {"up{job='a\xc3\xa9'}", up, "true"},
        {"up{job='web'}", up, "false"},
        {"up{team='',other=~'x?'}[5m:]", up, "true"},
        {"down + on () {__name__=~'d.*'}", up, "false"},
        {"info(down)", "{\"__name__\":\"target_info\"}", "true"},
        {"{a!='b',c='d'}", "{\"c\":\"d\"}", "true"},
        {"up", "{}", "false"},
        {"up", " { } ", "false"},
        {"1", up, "false"},
    };
    char text[128];
    for (size_t i = 0; i < sizeof rows / sizeof *rows; i++) {
        snprintf(text, sizeof text, "%s%s", rows[i].query, rows[i].labels);
        CHECK(gives(reading(text, strlen(rows[i].labels)), PROMQL_OK, rows[i].text));
    }
    static const char *const not_json = "the labels are not JSON, or nested too deeply";
    static const char *const not_texts = "the labels are not an object whose members are texts";
    CHECK(gives(reading("up", 0), PROMQL_NOT_LABELS, not_json));
    CHECK(gives(reading("up{\"a\":\"\\ud800\"}", 14), PROMQL_NOT_LABELS, not_json));
    CHECK(gives(reading("up{\"a\":\"b\"}}", 10), PROMQL_NOT_LABELS, not_json));
    CHECK(gives(reading("up[\"a\"]", 5), PROMQL_NOT_LABELS, not_texts));
    CHECK(gives(reading("up{\"a\":\"b\",\"c\":1}", 15), PROMQL_NOT_LABELS, not_texts));
    CHECK(has_place(reading("up{\"a\":null}", 10), 0, 0, 0, 0));
    CHECK(gives(reading("up\xff", 1), PROMQL_NOT_UTF8, "input is not UTF-8"));
    CHECK(gives(reading("\xff{}", 2), PROMQL_NOT_UTF8, "input is not UTF-8"));
    /* (the query comes first) */
    CHECK(gives(reading("1 +[]", 2), PROMQL_REJECTED, "invalid promql query"));
    CHECK(has_place(reading("1 +[]", 2), 3, 3, 1, 4));
    struct promql_result result;
    CHECK(promql_may_read("up", 2, NULL, 1, NULL, 0, &result) == PROMQL_BAD_POINTER && result.status == PROMQL_BAD_POINTER);
}

static void test_last_read(void)
{
    CHECK(gives(of_query(CALL_LAST_READ, "a"), PROMQL_OK, "1000000"));
    CHECK(gives(of_query(CALL_LAST_READ, "a offset 5m + b offset -5m"), PROMQL_OK, "1300000"));
    CHECK(gives(of_query(CALL_LAST_READ, "a @ end()"), PROMQL_OK, "1500000"));
    CHECK(gives(of_query(CALL_LAST_READ, "1"), PROMQL_OK, "null"));
    CHECK(gives(of_query(CALL_LAST_READ, "a @ -9223372036854775.808"), PROMQL_TIME_OVERFLOW,
                "a time of `a @ -9223372036854775.808` is below -2^63 or above 2^63 - 1 milliseconds"));
    CHECK(has_place(of_query(CALL_LAST_READ, "1 +"), 3, 3, 1, 4));
}

static void test_pinned(void)
{
    CHECK(gives(of_query(CALL_PINNED, "sum(a@end()) by(b) - last_over_time(c[5m:] offset 1m @ start())"), PROMQL_OK,
                "sum by (b) (a @ 1500.000) - last_over_time(c[5m:] @ 1000.000 offset 1m)"));
    CHECK(gives(of_query(CALL_PINNED, "a + on () b"), PROMQL_OK, "a + on () b"));
    CHECK(gives(of_query(CALL_PINNED, "a > end()"), PROMQL_GRID_FUNCTION,
                "a call of `start`, `end`, `step` or `range` depends on the times of the whole query"));
    CHECK(has_place(of_query(CALL_PINNED, "1 +"), 3, 3, 1, 4));
    promql_set_max_output(3);
    CHECK(gives(of_query(CALL_PINNED, "1+2"), PROMQL_LONG_OUTPUT, "output is too long: 5 bytes, at most 3"));
    promql_set_max_output(4194304);
    CHECK(gives(of_query(CALL_IS_CONSTANT, "a @ end() + 1"), PROMQL_OK, "true"));
    CHECK(gives(of_query(CALL_IS_CONSTANT, "a + 1"), PROMQL_OK, "false"));
    CHECK(has_place(of_query(CALL_IS_CONSTANT, "1 +"), 3, 3, 1, 4));
}

static void test_tokens(void)
{
    CHECK(gives(of_query(CALL_TOKENS, ""), PROMQL_OK, "[]"));
    CHECK(gives(of_query(CALL_TOKENS, "sum by(a)(b:c[5m]) # d\r== .5"), PROMQL_OK,
                "[[\"aggregator\",0,3],[\"keyword\",4,6],[\"punctuation\",6,7],[\"name\",7,8],[\"punctuation\",8,9],[\"punctuation\",9,10],"
                "[\"name\",10,13],[\"punctuation\",13,14],[\"duration\",14,16],[\"punctuation\",16,17],[\"punctuation\",17,18],"
                "[\"comment\",19,22],[\"operator\",23,25],[\"number\",26,28]]"));
    /* (a string with an escape that is none, one that is not closed, and what begins no token) */
    CHECK(gives(of_query(CALL_TOKENS, "{a=~\"\\d\", by!='\xc3\xa9'} ; 5xy"), PROMQL_OK,
                "[[\"punctuation\",0,1],[\"name\",1,2],[\"operator\",2,4],[\"error\",4,8],[\"punctuation\",8,9],[\"name\",10,12],"
                "[\"operator\",12,14],[\"string\",14,18],[\"punctuation\",18,19],[\"error\",20,21],[\"error\",22,25]]"));
    CHECK(gives(of_query(CALL_TOKENS, "[# \xe2\x82\xac\xc3\xa9] 'a"), PROMQL_OK,
                "[[\"punctuation\",0,1],[\"error\",1,2],[\"error\",3,8],[\"punctuation\",8,9],[\"error\",10,12]]"));
    CHECK(gives(of_query(CALL_TOKENS, "\xff"), PROMQL_NOT_UTF8, "input is not UTF-8"));
    promql_set_limits(3, 16000);
    CHECK(gives(of_query(CALL_TOKENS, ") )"), PROMQL_OK, "[[\"error\",0,1],[\"error\",2,3]]"));
    CHECK(gives(of_query(CALL_TOKENS, "1\n+2"), PROMQL_TOO_LARGE, "query is too long: 4 bytes, at most 3"));
    CHECK(has_place(of_query(CALL_TOKENS, "1\n+2"), 4, 4, 2, 3));
    promql_set_limits(32768, 16000);
}

/* The limits of a tree, which are looked at before anything of it is made. */
static void test_large_trees(void)
{
    const char *one = "{\"type\":\"numberLiteral\",\"val\":\"1\"}";
    promql_set_max_tree(34);
    CHECK(gives(of_query(CALL_PRINT_TREE, one), PROMQL_OK, "1"));
    promql_set_max_tree(33);
    CHECK(gives(of_query(CALL_PRINT_TREE, one), PROMQL_TOO_LARGE, "tree is too long: 34 bytes, at most 33"));
    CHECK(has_place(of_query(CALL_PRINT_TREE, one), 0, 0, 0, 0));
    promql_set_max_tree(4194304);
    const char *pattern = "{\"matchers\":[{\"name\":\"b\",\"type\":\"=~\",\"value\":\"c{3000}\"}],\"name\":\"a\",\"offset\":0,"
                          "\"startOrEnd\":null,\"timestamp\":null,\"type\":\"vectorSelector\"}";
    CHECK(gives(of_query(CALL_PRINT_TREE, pattern), PROMQL_TOO_LARGE, "patterns are too large: 39013, at most 16000"));
    CHECK(has_place(of_query(CALL_PRINT_TREE, pattern), 0, 0, 0, 0));
    promql_set_limits(32768, 39013);
    CHECK(gives(of_query(CALL_PRINT_TREE, pattern), PROMQL_OK, "a{b=~\"c{3000}\"}"));
    promql_set_limits(32768, 16000);
    /* (the patterns of a text that is no tree are measured, too) */
    const char *list = "[[{\"type\":\"!~\",\"value\":\"c{1000}\"},1],{\"x\":{\"type\":\"=~\",\"value\":\"c{1000}\"}}]";
    CHECK(gives(of_query(CALL_PRINT_TREE, list), PROMQL_TOO_LARGE, "patterns are too large: 26026, at most 16000"));
    CHECK(gives(of_query(CALL_PRINT_TREE, "[{\"type\":\"=\",\"value\":\"c{9000}\"}]"), PROMQL_NOT_A_TREE, "$: an object"));
}

static void test_trees(void)
{
    CHECK(gives(of_query(CALL_PRINT_TREE, "{\"type\": \"numberLiteral\", \"val\": \"1.5\"}"), PROMQL_OK, "1.5"));
    CHECK(gives(of_query(CALL_PRINT_TREE, "{\"type\":\"numberLiteral\",\"val\":1.5}"), PROMQL_NOT_A_TREE, "$.val: a text"));
    CHECK(has_place(of_query(CALL_PRINT_TREE, "{}"), 0, 0, 0, 0));
    CHECK(gives(of_query(CALL_PRINT_TREE, "1 + 2"), PROMQL_NOT_A_TREE, "not JSON"));
    CHECK(gives(of_query(CALL_PRINT_TREE, "\xff"), PROMQL_NOT_UTF8, "input is not UTF-8"));
    test_large_trees();
}

static int is_empty(const struct promql_result *result, uint32_t status, size_t length)
{
    return result->status == status && result->length == length && result->start == 0 && result->end == 0
        && result->line == 0 && result->column == 0;
}

static void test_pointers(void)
{
    struct promql_result result;
    char buffer[8];
    CHECK(promql_check(NULL, 1, buffer, sizeof buffer, &result) == PROMQL_BAD_POINTER);
    CHECK(is_empty(&result, PROMQL_BAD_POINTER, 0));
    CHECK(promql_check("1", 1, NULL, 1, &result) == PROMQL_BAD_POINTER);
    CHECK(promql_check("1", SIZE_MAX, buffer, sizeof buffer, &result) == PROMQL_BAD_POINTER);
    CHECK(promql_check("1", 1, buffer, SIZE_MAX, &result) == PROMQL_BAD_POINTER);
    CHECK(promql_print("1", 1, PROMQL_LINE, 0, 0, buffer, sizeof buffer, NULL) == PROMQL_BAD_POINTER);
    CHECK(promql_print(NULL, 1, PROMQL_LINE, 0, 0, buffer, sizeof buffer, &result) == PROMQL_BAD_POINTER);
    CHECK(promql_canonical(NULL, 1, buffer, sizeof buffer, &result) == PROMQL_BAD_POINTER);
    CHECK(promql_snippet(NULL, 1, 0, 0, buffer, sizeof buffer, &result) == PROMQL_BAD_POINTER);
    CHECK(promql_collect(NULL, 1, buffer, sizeof buffer, &result) == PROMQL_BAD_POINTER);
    CHECK(promql_explain(NULL, 1, 0, buffer, sizeof buffer, &result) == PROMQL_BAD_POINTER);
    CHECK(promql_enforce(NULL, 1, "", 0, buffer, sizeof buffer, &result) == PROMQL_BAD_POINTER);
    CHECK(promql_enforce("", 0, NULL, 1, buffer, sizeof buffer, &result) == PROMQL_BAD_POINTER);
    CHECK(promql_version(NULL, 1, &result) == PROMQL_BAD_POINTER);
    CHECK(promql_version(buffer, sizeof buffer, NULL) == PROMQL_BAD_POINTER);
    CHECK(promql_check(NULL, 0, NULL, 0, &result) == PROMQL_REJECTED);
    CHECK(result.length == strlen("no expression found in input"));
    CHECK(promql_check("1", 1, NULL, 0, &result) == PROMQL_OK && is_empty(&result, PROMQL_OK, 0));
    CHECK(promql_canonical("1", 1, NULL, 0, &result) == PROMQL_BUFFER_TOO_SMALL);
    CHECK(is_empty(&result, PROMQL_BUFFER_TOO_SMALL, 1));
    CHECK(promql_canonical("1", 1, buffer, 1, &result) == PROMQL_OK && buffer[0] == '1');
}

static void test_version(void)
{
    struct promql_result result;
    char buffer[16];
    CHECK(promql_version(buffer, sizeof buffer, &result) == PROMQL_OK && result.length == strlen(PROMQL_VERSION)
          && memcmp(buffer, PROMQL_VERSION, result.length) == 0);
    CHECK(promql_version(buffer, 2, &result) == PROMQL_BUFFER_TOO_SMALL && result.length == strlen(PROMQL_VERSION));
}

/* ---- small stacks */

/* Writes a text so many times at this place, and returns where they end. */
static char *put_times(char *at, size_t count, const char *text)
{
    for (size_t i = 0; i < count; i++)
        at = put(at, text);
    return at;
}

enum { GROUPS = 248, TOO_MANY_GROUPS = 250 };

/* A selector with a pattern of so many nested groups: 248 are read with the two that anchor it, which is the grammar's bound. */
static char *put_groups(char *at, size_t count, const char *opens)
{
    at = put_times(put(at, "{a=~\""), count, opens);
    return put(put_times(put(at, "b"), count, *opens == '[' ? "]" : ")"), "\"}");
}

/* Queries that need much of a stack, or little. */
static void put_deep(size_t number, char *at)
{
    static const char *const opens[] = {"(", "(?:", "["};
    if (number < 3)
        at = put_groups(at, GROUPS, opens[number]);
    else if (number < 6)
        at = put_groups(at, TOO_MANY_GROUPS, opens[number - 3]);
    else if (number == 6)
        at = put_times(put(put_times(at, 510, "("), "1"), 510, ")");
    else if (number == 7)
        at = put_times(at, 510, "(");
    else if (number == 8) /* (the most that is known) */
        at = put_times(put_groups(put_times(at, 511, "abs("), GROUPS, "("), 511, ")");
    else
        at = put(at, "1");
    *at = '\0';
}

enum { DEEP_QUERIES = 10 };

struct small_stack {
    const char *query;
    int has_room;
    int is_good;
};

/* Each call gives what it gives in a thread with much stack, or says that it has too little. */
static void *call_on_small_stack(void *argument)
{
    struct small_stack *stack = argument;
    struct promql_result result;
    char text[8];
    stack->is_good = promql_version(text, sizeof text, &result) == PROMQL_OK
        && promql_snippet("1 +", 3, 3, 3, text, sizeof text, &result) == PROMQL_OK;
    for (int call = CALL_PRINT; call <= CALL_PLACES; call++) {
        struct request r = of_query((enum call)call, stack->query);
        struct answer answer;
        if (call == CALL_SNIPPET || call == CALL_PRINT_TREE)
            continue;
        if (call == CALL_ENFORCE) /* (the whole is the query, and the matcher is none) */
            r.end = 0;
        stack->is_good = call_whole(&r, &answer) && stack->is_good;
        if (!stack->has_room)
            stack->is_good = is_empty(&answer.result, PROMQL_SMALL_STACK, 0) && stack->is_good;
        else
            stack->is_good = answer.result.status != PROMQL_SMALL_STACK && stack->is_good;
        free(answer.text);
    }
    return NULL;
}

static void test_small_stacks(void)
{
    /* (1,300 KiB are hardly more than a call asks for) */
    static const size_t sizes[] = {64, 128, 256, 512, 1024, 1300, 1536, 2048};
    char *query = allocate(4096);
    /* (a thread has 16 KiB at least, or 128 on ARM) */
    const size_t least = (size_t)sysconf(_SC_THREAD_STACK_MIN);
    for (size_t i = 0; i < sizeof sizes / sizeof *sizes; i++) {
        pthread_attr_t attributes;
        const size_t size = sizes[i] * 1024 < least ? least : sizes[i] * 1024;
        if (pthread_attr_init(&attributes) != 0 || pthread_attr_setstacksize(&attributes, size) != 0)
            abort();
        for (size_t number = 0; number < DEEP_QUERIES; number++) {
            pthread_t thread;
            put_deep(number, query);
            struct small_stack stack = {query, size > PROMQL_STACK, 0};
            if (pthread_create(&thread, &attributes, call_on_small_stack, &stack) != 0)
                abort();
            pthread_join(thread, NULL);
            CHECK(stack.is_good);
        }
        pthread_attr_destroy(&attributes);
    }
    put_deep(0, query);
    CHECK(gives(of_query(CALL_CANONICAL, query), PROMQL_OK, query));
    put_deep(3, query);
    CHECK(promql_check(query, strlen(query), NULL, 0, &(struct promql_result){0}) == PROMQL_REJECTED);
    free(query);
}

static void test_first_stack(int has_room)
{
    char *query = allocate(4096);
    for (size_t number = 0; number < DEEP_QUERIES; number++) {
        put_deep(number, query);
        struct small_stack stack = {query, has_room, 0};
        call_on_small_stack(&stack);
        CHECK(stack.is_good);
    }
    free(query);
}

/* ---- calls of a file */

struct requests {
    struct request *items;
    size_t count;
};

static char *read_whole(const char *path, size_t *size)
{
    FILE *file = fopen(path, "rb");
    if (file == NULL || fseek(file, 0, SEEK_END) != 0)
        abort();
    *size = (size_t)ftell(file);
    rewind(file);
    char *bytes = allocate(*size + 1);
    if (fread(bytes, 1, *size, file) != *size)
        abort();
    bytes[*size] = '\0';
    fclose(file);
    return bytes;
}

/* Reads lines of numbers, 'CALL MODE LEVEL WIDTH START END LENGTH', each with so many bytes and a line feed after it. */
static struct requests read_requests(const char *bytes, size_t size)
{
    struct requests all = {NULL, 0};
    size_t room = 0;
    for (const char *at = bytes; at < bytes + size;) {
        size_t numbers[7];
        for (size_t i = 0; i < 7; i++) {
            char *next;
            numbers[i] = (size_t)strtoull(at, &next, 10);
            at = next + 1;
        }
        if (all.count == room) {
            room = 2 * room + 1024;
            all.items = realloc(all.items, room * sizeof *all.items);
            if (all.items == NULL)
                abort();
        }
        struct request r = {(enum call)numbers[0], (uint32_t)numbers[1], (uint32_t)numbers[2], numbers[3], numbers[4],
                            numbers[5], at, numbers[6]};
        all.items[all.count++] = r;
        at += r.length + 1;
    }
    return all;
}

static void print_answer(const struct answer *answer)
{
    const struct promql_result *r = &answer->result;
    printf("%u %zu %zu %zu %zu %zu\n", (unsigned)r->status, r->start, r->end, r->line, r->column, r->length);
    fwrite(answer->text, 1, r->length, stdout);
    putchar('\n');
}

struct work {
    const struct requests *requests;
    const struct answer *answers;
    long different;
};

static void *repeat_all(void *argument)
{
    struct work *work = argument;
    for (size_t i = 0; i < work->requests->count; i++) {
        struct answer again;
        if (!call_whole(&work->requests->items[i], &again) || !is_same(&again, &work->answers[i]))
            work->different++;
        free(again.text);
    }
    return NULL;
}

/* Returns how many calls of threads beside each other give something else. */
static long repeat_in_threads(const struct requests *requests, const struct answer *answers, size_t count)
{
    pthread_t *threads = allocate(count * sizeof *threads);
    struct work *works = allocate(count * sizeof *works);
    long different = 0;
    for (size_t i = 0; i < count; i++) {
        works[i] = (struct work){requests, answers, 0};
        if (pthread_create(&threads[i], NULL, repeat_all, &works[i]) != 0)
            abort();
    }
    for (size_t i = 0; i < count; i++) {
        pthread_join(threads[i], NULL);
        different += works[i].different;
    }
    free(works);
    free(threads);
    return different;
}

static int run_rows(const char *path, size_t threads)
{
    size_t size;
    char *bytes = read_whole(path, &size);
    struct requests requests = read_requests(bytes, size);
    struct answer *answers = allocate(requests.count * sizeof *answers);
    long wrong = 0;
    for (size_t i = 0; i < requests.count; i++) {
        wrong += !call_whole(&requests.items[i], &answers[i]);
        print_answer(&answers[i]);
    }
    long different = repeat_in_threads(&requests, answers, threads);
    for (size_t i = 0; i < requests.count; i++)
        free(answers[i].text);
    free(answers);
    free(requests.items);
    free(bytes);
    if (wrong != 0 || different != 0)
        fprintf(stderr, "%ld calls wrote past their text, %ld gave something else in a thread\n", wrong, different);
    return wrong != 0 || different != 0;
}

/* ---- broken texts */

static uint64_t random_state;

static size_t next_random(size_t bound)
{
    random_state ^= random_state << 13;
    random_state ^= random_state >> 7;
    random_state ^= random_state << 17;
    return (size_t)(random_state % bound);
}

/* Makes a broken text: random bytes, or a query cut short or changed at some bytes. Returns its length, of at most `room`. */
static size_t make_broken(const struct requests *from, char *text, size_t room)
{
    const struct request *r = &from->items[next_random(from->count)];
    size_t length = r->length < room ? r->length : room;
    if (next_random(4) == 0) {
        length = next_random(64);
        for (size_t i = 0; i < length; i++)
            text[i] = (char)next_random(256);
        return length;
    }
    memcpy(text, r->query, length);
    if (length != 0 && next_random(3) == 0)
        length = next_random(length);
    static const char signs[] = "(){}[]\"'`,=!~+-*/@ \n#\\";
    for (size_t n = next_random(4); n > 0 && length != 0; n--) {
        char any = (char)next_random(256), sign = signs[next_random(sizeof signs - 1)];
        text[next_random(length)] = next_random(2) ? any : sign;
    }
    return length;
}

static int is_status(uint32_t status, enum call call)
{
    switch (status) {
    case PROMQL_OK:
    case PROMQL_NOT_UTF8:
        return 1;
    case PROMQL_REJECTED:
    case PROMQL_TOO_LARGE:
        return call != CALL_SNIPPET && call != CALL_EXPLAIN;
    case PROMQL_NUMBER_TOO_WIDE:
        return call == CALL_PRINT;
    default:
        return 0;
    }
}

static void test_broken(const char *text, size_t length)
{
    enum { CALLS = 7 };
    struct answer answers[CALLS];
    struct request calls[CALLS] = {
        {CALL_CHECK, 0, 0, 0, 0, 0, text, length},
        {CALL_CANONICAL, 0, 0, 0, 0, 0, text, length},
        {CALL_PRINT, PROMQL_LINE, 0, 0, 0, 0, text, length},
        {CALL_PRINT, PROMQL_PRETTY, 1, 20, 0, 0, text, length},
        {CALL_PRINT, PROMQL_JSON, 0, 0, 0, 0, text, length},
        {CALL_SNIPPET, 0, 0, 0, next_random(2 * length + 1), next_random(2 * length + 1), text, length},
        {CALL_EXPLAIN, (uint32_t)(2 * next_random(2)), 0, 0, 0, 0, text, length},
    };
    int is_good = 1;
    for (size_t i = 0; i < CALLS; i++)
        is_good = call_whole(&calls[i], &answers[i]) && is_status(answers[i].result.status, calls[i].call) && is_good;
    is_good = is_good && is_same(&answers[1], &answers[2]);
    is_good = is_good && (answers[0].result.status == PROMQL_OK) == (answers[6].result.status == PROMQL_OK
        && answers[6].result.length == 0);
    is_good = is_good && answers[0].result.status == answers[1].result.status
        && answers[1].result.status == answers[3].result.status;
    if (answers[1].result.status == PROMQL_OK) {
        /* (what is printed is accepted, and prints itself) */
        struct request again = {CALL_CANONICAL, 0, 0, 0, 0, 0, answers[1].text, answers[1].result.length};
        struct answer same;
        is_good = call_whole(&again, &same) && is_same(&same, &answers[1]) && is_good;
        free(same.text);
    } else {
        is_good = is_good && is_same(&answers[0], &answers[1]) && is_same(&answers[0], &answers[3])
            && is_same(&answers[0], &answers[4]) && answers[0].result.start <= answers[0].result.end
            && answers[0].result.end <= length;
    }
    if (!is_good) {
        printf("a broken text of %zu bytes:", length);
        for (size_t i = 0; i < length; i++)
            printf(" %02x", (unsigned char)text[i]);
        putchar('\n');
    }
    CHECK(is_good);
    for (size_t i = 0; i < CALLS; i++)
        free(answers[i].text);
}

static void test_random(const char *path, long count, uint64_t seed)
{
    size_t size;
    char *bytes = read_whole(path, &size);
    struct requests requests = read_requests(bytes, size);
    random_state = 2 * seed + 1;
    for (long i = 0; i < count; i++) {
        /* (of just that size, so that valgrind sees each byte past it) */
        char room[4096];
        size_t length = make_broken(&requests, room, sizeof room);
        char *text = allocate(length);
        memcpy(text, room, length);
        test_broken(text, length);
        free(text);
    }
    free(requests.items);
    free(bytes);
}

int main(int argc, char **argv)
{
    if (argc >= 3) {
        promql_set_limits(1048576, 32000); /* those of the stored run, whose queries have no target */
        promql_set_target(PROMQL_RULES);
    }
    if (argc >= 3 && strcmp(argv[1], "rows") == 0)
        return run_rows(argv[2], argc > 3 ? (size_t)atol(argv[3]) : 0);
    if (argc == 5 && strcmp(argv[1], "random") == 0) {
        test_random(argv[2], atol(argv[3]), (uint64_t)atol(argv[4]));
    } else if (argc == 3 && strcmp(argv[1], "stack") == 0) {
        test_first_stack(strcmp(argv[2], "large") == 0);
    } else {
        test_longest_query(); /* first, before any call sets the limits */
        test_texts();
        test_errors();
        test_enforcing();
        test_renaming();
        test_formatting();
        test_targets();
    test_refusals();
        test_large_enforcing();
        test_long_enforcing(14, 31);
        test_long_enforcing(3, 1000);
        test_long_enforcing(3, 10000);
        test_long_names();
        test_explaining();
        test_collecting();
        test_places();
        test_parts();
        test_differences();
        test_windows();
        test_reaches();
        test_may_read();
        test_last_read();
        test_pinned();
        test_tokens();
        test_trees();
        test_pointers();
        test_version();
        test_small_stacks();
    }
    printf("%ld passed, %ld failed\n", passed, failed);
    return failed != 0;
}
