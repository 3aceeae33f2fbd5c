/* Nanoseconds a query of promql_check and of promql_canonical, of its JSON text, and of promql_print_tree of that, for the queries of a file,
 * one a line, those without patterns and those with patterns apart: bench FILE [RUNS]. bindings/bench.sh runs it beside those of the other
 * languages. */
#define _POSIX_C_SOURCE 200809L /* clock_gettime, strdup */
#include "promql.h"

#include <stdio.h>
#include <stdlib.h>
#include <string.h>
#include <time.h>

enum { MAX_QUERIES = 4096, TIMES = 20, BUFFER_SIZE = 65536 };

typedef uint32_t call(const char *query, size_t query_length, char *buffer, size_t buffer_size, struct promql_result *result);

struct queries {
    const char *items[MAX_QUERIES];
    size_t count;
};

static uint32_t write_json(const char *query, size_t query_length, char *buffer, size_t buffer_size, struct promql_result *result)
{
    return promql_print(query, query_length, PROMQL_JSON, 0, 0, buffer, buffer_size, result);
}

static uint32_t print_tree(const char *form, size_t form_length, char *buffer, size_t buffer_size, struct promql_result *result)
{
    return promql_print_tree(form, form_length, PROMQL_LINE, 0, 0, 1, buffer, buffer_size, result);
}

static long long now(void)
{
    struct timespec time;
    clock_gettime(CLOCK_MONOTONIC, &time);
    return time.tv_sec * 1000000000LL + time.tv_nsec;
}

static int has_pattern(const char *query)
{
    return strstr(query, "=~") != NULL || strstr(query, "!~") != NULL;
}

static void add(struct queries *queries, const char *query)
{
    if (queries->count == MAX_QUERIES)
        abort();
    queries->items[queries->count++] = query;
}

static void pass(call *make, const struct queries *queries)
{
    static char buffer[BUFFER_SIZE];
    struct promql_result result;
    for (size_t i = 0; i < queries->count; i++) {
        const char *query = queries->items[i];
        if (make(query, strlen(query), buffer, sizeof buffer, &result) != PROMQL_OK)
            abort();
    }
}

/* The least of all runs. */
static long long measure(call *make, const struct queries *queries, int runs)
{
    long long least = -1;
    for (int run = 0; run < runs; run++) {
        long long start = now();
        for (int i = 0; i < TIMES; i++)
            pass(make, queries);
        long long taken = now() - start;
        if (least < 0 || taken < least)
            least = taken;
    }
    return queries->count == 0 ? 0 : least / (long long)(TIMES * queries->count);
}

/* The JSON texts of the queries. */
static struct queries forms_of(const struct queries *queries)
{
    static char buffer[BUFFER_SIZE];
    struct queries forms = {.count = 0};
    for (size_t i = 0; i < queries->count; i++) {
        struct promql_result result;
        if (write_json(queries->items[i], strlen(queries->items[i]), buffer, sizeof buffer - 1, &result) != PROMQL_OK)
            abort();
        buffer[result.length] = 0;
        add(&forms, strdup(buffer));
    }
    return forms;
}

static char *read_whole(const char *path)
{
    FILE *file = fopen(path, "rb");
    if (file == NULL || fseek(file, 0, SEEK_END) != 0)
        abort();
    size_t size = (size_t)ftell(file);
    char *text = calloc(size + 1, 1);
    rewind(file);
    if (text == NULL || fread(text, 1, size, file) != size)
        abort();
    fclose(file);
    return text;
}

int main(int argc, char **argv)
{
    static const char *const kinds[] = {"plain", "patterns"};
    static struct queries queries[2];
    if (argc < 2)
        return 64;
    char *text = read_whole(argv[1]);
    int runs = argc > 2 ? atoi(argv[2]) : 60;
    for (const char *line = strtok(text, "\n"); line != NULL; line = strtok(NULL, "\n"))
        add(&queries[has_pattern(line)], line);
    for (int i = 0; i < 2; i++) {
        printf("check %s %lld\n", kinds[i], measure(promql_check, &queries[i], runs));
        printf("line %s %lld\n", kinds[i], measure(promql_canonical, &queries[i], runs));
        struct queries forms = forms_of(&queries[i]);
        printf("tree %s %lld\n", kinds[i], measure(write_json, &queries[i], runs));
        printf("text %s %lld\n", kinds[i], measure(print_tree, &forms, runs));
    }
    free(text);
    return 0;
}
