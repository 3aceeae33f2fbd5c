/* Changes the queries on standard input, one a line: each selector gets a matcher of a label, a metric gets another name, and all is summed
 * by a label. Prints for each query the metrics that it names, and the changed query, or "not changed".
 *
 *     change_queries LABEL VALUE OLD NEW BY
 *
 *     $ echo 'rate(foo[5m]) / bar' | change_queries tenant team-a foo foo_total job
 *     bar foo: sum by (job) (rate(foo_total{tenant="team-a"}[5m]) / bar{tenant="team-a"})
 *
 * The tree is a text of JSON here, in the order of the library. The arguments are names, and a value without a quote or a backslash. */
#define _POSIX_C_SOURCE 200809L /* getline */
#include "promql.h"

#include <stdio.h>
#include <stdlib.h>
#include <string.h>

/* A text, which ends with a 0 that is not counted. */
struct text {
    char *start;
    size_t length;
    size_t size;
};

static void reserve(struct text *text, size_t length)
{
    if (length < text->size)
        return;
    text->size = 2 * length + 1;
    text->start = realloc(text->start, text->size);
    if (text->start == NULL)
        abort();
}

static void append(struct text *text, const char *start, size_t length)
{
    reserve(text, text->length + length);
    memcpy(text->start + text->length, start, length);
    text->length += length;
    text->start[text->length] = 0;
}

static void append_word(struct text *text, const char *word)
{
    append(text, word, strlen(word));
}

/* Ends a text with what a call gave. Returns 1 where the call is to be made again with more room, else 0. */
static int end_text(struct text *text, const struct promql_result *result)
{
    int again = result->length >= text->size;
    reserve(text, result->length);
    text->length = result->length;
    text->start[again ? 0 : text->length] = 0;
    return again;
}

/* Prints what a call says that gave no text. */
static int complain(const struct text *message, const struct promql_result *result)
{
    if (result->line != 0)
        fprintf(stderr, "%zu:%zu: ", result->line, result->column);
    fprintf(stderr, "%s\n", message->start);
    return -1;
}

/* The JSON form of the query with the matcher. Returns 0, or -1 with a message. */
static int read_query(const char *query, size_t length, const char *matcher, struct text *line, struct text *form)
{
    struct promql_result result;
    do
        promql_enforce(query, length, matcher, strlen(matcher), line->start, line->size, &result);
    while (end_text(line, &result));
    if (result.status != PROMQL_OK)
        return complain(line, &result);
    do
        promql_print(line->start, line->length, PROMQL_JSON, 0, 0, form->start, form->size, &result);
    while (end_text(form, &result));
    return result.status == PROMQL_OK ? 0 : complain(form, &result);
}

/* Puts the form into the form of an aggregation, with the new name in place of the old one. What is looked for is nowhere within a string
 * of JSON, where each quote comes after a backslash. */
static void change_form(const struct text *form, char **words, struct text *made)
{
    struct text old = {0}, new = {0};
    const char *from = form->start, *found;
    append_word(&old, "\"name\":\"");
    append_word(&old, words[3]);
    append_word(&old, "\",\"offset\":");
    append_word(&new, "\"name\":\"");
    append_word(&new, words[4]);
    append_word(&new, "\",\"offset\":");
    made->length = 0;
    append_word(made, "{\"expr\":");
    for (; (found = strstr(from, old.start)) != NULL; from = found + old.length) {
        append(made, from, (size_t)(found - from));
        append(made, new.start, new.length);
    }
    append_word(made, from);
    append_word(made, ",\"grouping\":[\"");
    append_word(made, words[5]);
    append_word(made, "\"],\"op\":\"sum\",\"param\":null,\"type\":\"aggregation\",\"without\":false}");
    free(old.start);
    free(new.start);
}

/* The text of a tree. Returns 0, or -1 with a message. */
static int print_form(const struct text *form, struct text *line)
{
    struct promql_result result;
    do
        promql_print_tree(form->start, form->length, PROMQL_LINE, 0, 0, 1, line->start, line->size, &result);
    while (end_text(line, &result));
    return result.status == PROMQL_OK ? 0 : complain(line, &result);
}

/* Prints the metrics that an accepted query names. Their list is one of JSON, of names without a quote or a backslash. */
static void print_names(const char *query, size_t length, struct text *names)
{
    struct promql_result result;
    char *name, *end;
    do
        promql_collect(query, length, names->start, names->size, &result);
    while (end_text(names, &result));
    name = strstr(names->start, "\"metrics\":[");
    end = name == NULL ? NULL : strchr(name, ']');
    if (end == NULL)
        return;
    *end = 0;
    strtok(name, "[");
    for (int count = 0; (name = strtok(NULL, "\",")) != NULL; count++)
        printf("%s%s", count > 0 ? " " : "", name);
}

int main(int argc, char **argv)
{
    struct text matcher = {0}, line = {0}, form = {0}, made = {0};
    char *query = NULL;
    size_t size = 0;
    ssize_t length;
    int status = 0;

    if (argc != 6) {
        fprintf(stderr, "usage: change_queries LABEL VALUE OLD NEW BY\n");
        return 64;
    }
    append_word(&matcher, argv[1]);
    append_word(&matcher, "=\"");
    append_word(&matcher, argv[2]);
    append_word(&matcher, "\"");
    while ((length = getline(&query, &size, stdin)) > 0) {
        if (read_query(query, (size_t)length, matcher.start, &line, &form) == 0) {
            change_form(&form, argv, &made);
            if (print_form(&made, &line) == 0) {
                print_names(query, (size_t)length, &form);
                printf(": ");
                fwrite(line.start, 1, line.length, stdout);
                printf("\n");
                continue;
            }
        }
        printf("not changed\n");
        status = 1;
    }
    free(query);
    free(matcher.start);
    free(line.start);
    free(form.start);
    free(made.start);
    return status;
}
