/* PromQL, the query language of Prometheus: print, check and lay out queries.
 *
 * Each call reads its query, writes a text to the start of its buffer, and says in `result` what it did; it returns the
 * status. A query is UTF-8 and need not end with a 0; no 0 is written after a text. A call keeps nothing and shares nothing
 * but what promql_set_limits, promql_set_max_output, promql_set_max_tree and promql_set_target set, so any thread may make any call
 * at any time.
 *
 *     char buffer[1024];
 *     struct promql_result result;
 *     if (promql_canonical("1+2", 3, buffer, sizeof buffer, &result) == PROMQL_OK)
 *         printf("%.*s\n", (int)result.length, buffer);
 *
 * Where the buffer has fewer than `result.length` bytes it is left as it was: call again with one that has as many. Bytes past
 * `result.length` are never written.
 *
 * A call about a query asks how much stack its thread has left, and does nothing where that is fewer than PROMQL_STACK bytes. It
 * asks the system for the bounds of the stack in the first call of a thread. They are not known on a stack that is not the thread's
 * own, such as a coroutine's, and to glibc for the first thread where /proc is not mounted. There the caller sees to as many bytes.
 *
 * The caller sees to this: `buffer` and `*result` do not overlap each other or the texts that are passed; malloc, realloc and free come
 * from one allocator; no call is made from a signal handler, or in the child of a fork of a process with threads; the limit of the
 * first thread's stack is not lowered after its first call.
 */
#ifndef PROMQL_H
#define PROMQL_H

#include <stddef.h>
#include <stdint.h>

#ifdef __cplusplus
extern "C" {
#endif

/* The version of this header; promql_version has that of the library. */
#define PROMQL_VERSION "0.10.0"

/* How promql_print prints. */
enum promql_mode {
    PROMQL_LINE = 0,   /* on one line */
    PROMQL_PRETTY = 1, /* laid out over several lines where one is too long */
    PROMQL_JSON = 2,   /* the JSON form, without a space */
    /* the JSON form with the places of nodes and matchers, `start` and `end` in bytes (docs/reference/json.md, "Places");
     * promql_print_tree has no such mode */
    PROMQL_PLACED_JSON = 3
};

/* What promql_rename renames. */
enum promql_named {
    PROMQL_METRIC = 0, /* a metric: before braces, and in equal matchers of __name__ */
    PROMQL_LABEL = 1   /* a label: in matchers, and in the lists of aggregations and operators */
};

/* What reads a query that is sent on (docs/reference/programs.md, "Targets"). */
enum promql_target {
    PROMQL_PROMETHEUS_3 = 0, /* Prometheus, which reads some parts of queries otherwise, as -0 and "\xc3" */
    PROMQL_RULES = 1,        /* the rules of this library */
    PROMQL_PROMETHEUS_2 = 2  /* Prometheus 2.42, which also rejects what came later */
};

/* The bytes of stack that a call about a query asks for: more than any query is known to need (docs/PERFORMANCE.md, "The program").
 * A thread needs more than these, for what it does itself. */
#define PROMQL_STACK 1310720

/* 0, or why the buffer does not have what was asked for. With 1 to 6, 9, 11 to 14, 16 to 18, 20 to 27 the text is the message of
 * the error. */
enum promql_status {
    PROMQL_OK = 0,
    PROMQL_OUT_OF_MEMORY = 1,
    PROMQL_NOT_UTF8 = 3,
    PROMQL_REJECTED = 4,         /* the query is rejected: the result has the place */
    PROMQL_NUMBER_TOO_WIDE = 6,  /* PROMQL_JSON, PROMQL_PLACED_JSON: a number of milliseconds is below -2^63 or above 2^64 - 1 */
    PROMQL_BUFFER_TOO_SMALL = 8, /* the text has more bytes than the buffer: `length` */
    PROMQL_UNKNOWN_MODE = 9,     /* or a level above 512, no kind of what is renamed, no target, or for promql_format_query a width above
                                    65535 or an indentation above 16 */
    PROMQL_BAD_POINTER = 10,     /* a pointer is NULL though its length is not 0, a length is above PTRDIFF_MAX, or the
                                    times or the result are NULL; there is no text */
    PROMQL_BAD_MATCHER = 11,     /* the matcher is none, or is of the metric's name, __name__ */
    PROMQL_UNFAITHFUL = 12,      /* the text that was made would not mean the query, or the tree */
    PROMQL_BARE_INFO = 13,       /* the query has info without a second argument: no matcher limits the series that it reads */
    PROMQL_TOO_LARGE = 14,       /* the query or the tree is too long, or its patterns are too large: the result has the place, but for
                                    a tree */
    PROMQL_SMALL_STACK = 15,     /* the thread has fewer than PROMQL_STACK bytes of stack left; there is no text */
    PROMQL_LARGE_ENFORCED = 16,  /* the matcher, or the query with it or with another name, is not within the limits of a query */
    PROMQL_NOT_A_TREE = 17,      /* the JSON text is the form of no tree: the message has the place */
    PROMQL_LONG_OUTPUT = 18,     /* the text has more bytes than promql_set_max_output says */
    PROMQL_NOT_A_NAME = 20,      /* the new name is no name of a metric */
    PROMQL_METRIC_LABEL = 21,    /* the old name or the new one is __name__, which names no label but the metric */
    PROMQL_CLASH = 22,           /* both labels are in one list, and would become one */
    PROMQL_READ_OTHERWISE = 23,  /* the target reads the query otherwise, and the result has the place, or the matcher */
    PROMQL_REFUSED = 24,         /* promql_check: the target rejects the query, and the result has the place */
    PROMQL_TIME_OVERFLOW = 25,   /* promql_windows, promql_reaches, promql_last_read: a time is below -2^63 or above 2^63 - 1; the message
                                    shows the node */
    PROMQL_GRID_FUNCTION = 26,   /* promql_pinned: the query calls start, end, step or range, whose values are those of the whole query */
    PROMQL_NOT_LABELS = 27       /* promql_may_read: the labels are not JSON, or not an object whose members are texts */
};

struct promql_result {
    uint32_t status;
    size_t length; /* bytes of the text */
    /* With PROMQL_REJECTED, PROMQL_TOO_LARGE, PROMQL_READ_OTHERWISE and PROMQL_REFUSED, else 0: the part that the error is about, in
     * bytes from 0, and empty at the query's end; and the line and the column where it begins, from 1, the column in characters. All are 0
     * where the error is about a matcher or a tree. */
    size_t start;
    size_t end;
    size_t line;
    size_t column;
};

/* When a query is evaluated, and how far an engine looks back (docs/reference/when.md, "Times"). All are milliseconds, since the epoch where
 * they are moments. */
struct promql_times {
    int64_t start;         /* the first time: that of @ start() */
    int64_t end;           /* the time after which there is none: that of @ end(). An instant query has one time, which is both */
    uint64_t step;         /* from one time to the next; 0 counts as 1 */
    uint64_t lookback;     /* how far back a selector without a range takes a sample: 300000 in Prometheus */
    uint64_t default_step; /* the step of a subquery without one: 60000 in Prometheus */
    uint32_t left_open;    /* not 0 where a sample at the very beginning of a window is left out, as in Prometheus 3 */
};

/* Prints a query. `level` counts indentations of two spaces, and `width` is the most bytes that a line has after them; both
 * are for PROMQL_PRETTY alone. */
uint32_t promql_print(const char *query, size_t query_length, uint32_t mode, uint32_t level, size_t width, char *buffer,
                      size_t buffer_size, struct promql_result *result);

/* Prints a query on one line. Two queries have one line exactly if they differ in nothing that means something, so the line
 * is the key of a cache (docs/guide/cache.md). */
uint32_t promql_canonical(const char *query, size_t query_length, char *buffer, size_t buffer_size,
                          struct promql_result *result);

/* Prints a query on one line with a matcher in every selector, in each of its or-groups: a tenant's, say. The matcher is written
 * as between the braces of a selector, as in namespace="team-a". The text is within the limits of a query, and means the changed
 * query: it was read again where a pattern is in the query or the matcher, and else by a law (docs/guide/rewriting.md). */
uint32_t promql_enforce(const char *query, size_t query_length, const char *matcher, size_t matcher_length, char *buffer,
                        size_t buffer_size, struct promql_result *result);

/* Prints a query on one line with another name for a metric or a label, by `kind`, an enum promql_named: `to`, of at most 1024 bytes, in
 * place of `from`. The text is within the limits of a query; it was read again, and means the renamed query (docs/guide/rewriting.md,
 * "Renaming"). */
uint32_t promql_rename(const char *query, size_t query_length, uint32_t kind, const char *from, size_t from_length, const char *to,
                       size_t to_length, char *buffer, size_t buffer_size, struct promql_result *result);

/* Shows what a query names, as JSON: its functions, labels and metrics, and its selectors with their times
 * (docs/guide/bindings.md, "What a query names"). */
uint32_t promql_collect(const char *query, size_t query_length, char *buffer, size_t buffer_size,
                        struct promql_result *result);

/* Shows the places of the nodes of a query's tree, as JSON: an array with an array of two numbers for each node, the bytes from and up to
 * which it goes. A node comes before those below it, and these in the order of the text, but the parameter of an aggregation before what
 * is aggregated (docs/guide/bindings.md, "Places of nodes"). */
uint32_t promql_places(const char *query, size_t query_length, char *buffer, size_t buffer_size,
                       struct promql_result *result);

/* Shows the parts of the nodes of a query's tree, as JSON: an array with an array for each node, in the order of promql_places, which has
 * an array for each part of it: its kind, and the bytes from and up to which it goes, as ["operator",0,3] (docs/guide/bindings.md, "Parts
 * of nodes"). */
uint32_t promql_parts(const char *query, size_t query_length, char *buffer, size_t buffer_size,
                      struct promql_result *result);

/* Shows what the target (promql_set_target) reads otherwise of a query than these rules do, and then what it rejects of it, as JSON: an array
 * with an array for each such part: the status that promql_check has for it, PROMQL_READ_OTHERWISE or PROMQL_REFUSED, the bytes from and up to
 * which it goes, and a message, as [24,0,4,"Prometheus 3 rejects this: .."] (docs/guide/bindings.md, "Differences"). */
uint32_t promql_differences(const char *query, size_t query_length, char *buffer, size_t buffer_size,
                            struct promql_result *result);

/* Shows the tokens of any text, accepted as a query or not, as JSON: an array with an array for each token in their order: its kind, and the
 * bytes from and up to which it goes, as ["name",0,3]. Comments are among them, and what no token begins with, of the kind "error"; white
 * space alone is between them (docs/guide/bindings.md, "Tokens"). A text that is longer than a query may be gives PROMQL_TOO_LARGE, and
 * nothing is said of its patterns. */
uint32_t promql_tokens(const char *text, size_t text_length, char *buffer, size_t buffer_size,
                       struct promql_result *result);

/* Shows when each selector of a query reads over all times of the query, as JSON: an array with an array for each selector, in the order of a
 * walk: the selector as it prints without its range, the first and the last millisecond of its window, and the bytes of the query from and up
 * to which it is, as ["a",-300000,0,0,1]. The milliseconds are null where the selector is never evaluated. A call of info without a second
 * argument also has target_info, after its argument, whose bytes are null (docs/guide/bindings.md, "When a query reads"). */
uint32_t promql_windows(const char *query, size_t query_length, const struct promql_times *times, char *buffer, size_t buffer_size,
                        struct promql_result *result);

/* Shows how far from the time of evaluation each selector of a query reads, whatever that time is, as JSON: an array with an array for each
 * selector, in the order of promql_windows: the selector, the first and the last millisecond, and whether they are fixed. Where they are not,
 * as in ["a offset 1h",-3900000,-3600000,false], they are counted from the time of evaluation; where a selector or a subquery around it has
 * an @, as in ["a @ 100.000",-200000,100000,true], from the epoch. Of `times` the steps count for nothing here, and `start` and `end` only
 * where the query has @ start() or @ end(). */
uint32_t promql_reaches(const char *query, size_t query_length, const struct promql_times *times, char *buffer, size_t buffer_size,
                        struct promql_result *result);

/* Shows the last millisecond that a query reads where it is evaluated at `time`, as JSON: a number, or null where it reads nothing. Once all
 * samples up to there are known, its value at this time does not change. Of `times` the step counts for nothing here. */
uint32_t promql_last_read(const char *query, size_t query_length, int64_t time, const struct promql_times *times, char *buffer,
                          size_t buffer_size, struct promql_result *result);

/* Prints a query on one line with these times, in milliseconds since the epoch, for @ start() and @ end(): the query reads at each time what
 * it reads there from the first of these times through the last, whatever the times are over which it is evaluated. So its line is the key
 * of parts of an answer (docs/guide/cache.md). */
uint32_t promql_pinned(const char *query, size_t query_length, int64_t start, int64_t end, char *buffer, size_t buffer_size,
                       struct promql_result *result);

/* Shows whether a query is the same at every time, as JSON: true or false. It may be the same where this says false
 * (docs/reference/when.md, "Constant queries"). */
uint32_t promql_is_constant(const char *query, size_t query_length, char *buffer, size_t buffer_size,
                            struct promql_result *result);

/* Shows whether a query may read a series with these labels, as JSON: true or false. The labels are an object of JSON whose members are texts,
 * as {"__name__":"up","job":"api"}; where it has a name twice, the last counts. Where the text is false the series may come or go, and what
 * the query gives stays the same (docs/guide/bindings.md, "Series that a query may read"). */
uint32_t promql_may_read(const char *query, size_t query_length, const char *labels, size_t labels_length, char *buffer,
                         size_t buffer_size, struct promql_result *result);

/* Checks a query, also whether the target reads it otherwise or rejects it (promql_set_target). The text is empty where it is accepted. */
uint32_t promql_check(const char *query, size_t query_length, char *buffer, size_t buffer_size,
                      struct promql_result *result);

/* Explains why a query is rejected: the message for people, which at a syntax error says what was found, what was expected there and what
 * may be meant. Where `as_json` is not 0 the text is an object of JSON: the message as `error`, the status as `code`, the place, and at a
 * syntax error `expected` and `found` (docs/guide/bindings.md, "Why a query is rejected"). The text is empty where the query is
 * accepted. The call is made once a query was rejected: it reads the beginning of the query some sixty times. */
uint32_t promql_explain(const char *query, size_t query_length, uint32_t as_json, char *buffer, size_t buffer_size,
                        struct promql_result *result);

/* Shows the line of a query where the part from `start` up to `end` begins, a line feed, and a mark below that part. Control characters
   and marks of writing direction are escapes in it, as `\x1b`. */
uint32_t promql_snippet(const char *query, size_t query_length, size_t start, size_t end, char *buffer,
                        size_t buffer_size, struct promql_result *result);

/* Prints a tree that is given as JSON, in the form of promql_print with PROMQL_JSON (docs/reference/json.md, "From JSON to a text").
 * The modes, `level` and `width` are those of promql_print. Where `parentheses` is not 0, parentheses are put where the tree needs them.
 * The tree has at most as many bytes as promql_set_max_tree says, and its patterns are no larger than those of a query may be: else the
 * status is PROMQL_TOO_LARGE, and nothing of it was compiled. The text is within the limits of a query; it was read again, and means the
 * tree. */
uint32_t promql_print_tree(const char *tree, size_t tree_length, uint32_t mode, uint32_t level, size_t width,
                           uint32_t parentheses, char *buffer, size_t buffer_size, struct promql_result *result);

/* Sets what a query has to be within, for each later call of the process but promql_snippet: at most so many bytes, 32768 before the
 * first such call, and patterns of at most this size together, 16000 (docs/reference/programs.md, "Limits of a query"). A matcher
 * that is enforced, and the query with it, have the same limits. 0 is a bound as any other. A call that is made meanwhile may see one of
 * the two changed and not the other. */
void promql_set_limits(size_t max_len, size_t max_pattern_size);

#define PROMQL_SORTED_MATCHERS 2

/* Lays a query out for people: comments stay, chains of operators are flat, and lines have at most `width` characters where they can
 * be broken, with indentations of `indent_width` spaces; at most 65535 and 16. Where `spelling` is 0, numbers, durations and strings
 * are spelled in one way; where it is PROMQL_SORTED_MATCHERS, matchers are sorted, too; where it is 1, all stays as it is written. The text was read again: it has the query's tree and its comments
 * (docs/reference/formatting.md). */
uint32_t promql_format_query(const char *query, size_t query_length, size_t width, size_t indent_width, uint32_t spelling,
                             char *buffer, size_t buffer_size, struct promql_result *result);

/* Sets how many bytes a text of promql_print, promql_canonical, promql_pinned, promql_print_tree or promql_format_query
 * has at most, for each later call of the process: 4194304 before the
 * first such call. The buffer bounds what the caller keeps, and this what the library makes. */
void promql_set_max_output(size_t bytes);

/* Sets what reads the queries that promql_enforce, promql_rename and promql_format_query write and promql_check checks, for each later
 * call of the process: an enum promql_target, PROMQL_PROMETHEUS_3 before the first such call. A query or a matcher that it reads otherwise
 * gives PROMQL_READ_OTHERWISE. PROMQL_UNKNOWN_MODE, and nothing changes, where there is no such target. */
uint32_t promql_set_target(uint32_t target);

/* Sets how many bytes a tree that is given to promql_print_tree has at most, for each later call of the process: 4194304 before the first
 * such call, as many as a text has at most, so that each tree that was printed as JSON is taken back. */
void promql_set_max_tree(size_t bytes);

/* The version of the library. */
uint32_t promql_version(char *buffer, size_t buffer_size, struct promql_result *result);

#ifdef __cplusplus
}
#endif

#endif
