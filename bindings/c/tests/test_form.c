/* Tests of promql_form.h: test_form FILE, of queries, one a line. The form of each is walked, and what the events say is written again, which
 * has to be the form. So are forms that are changed in one place, where they are JSON. The last line is 'N passed, M failed'. */
#define _POSIX_C_SOURCE 200809L /* getline */
#include "promql.h"
#include "promql_form.h"

#include <stdio.h>
#include <stdlib.h>
#include <string.h>

enum { MOST = 1 << 20 };

static int passed, failed;

static void check(int is_so, const char *name)
{
    if (is_so) {
        passed++;
    } else if (failed++ < 20) {
        printf("FAILED %s\n", name);
    }
}

/* A text that is written again. */
static char written[2 * MOST];
static size_t written_length;

static void put(const char *bytes, size_t length)
{
    memcpy(written + written_length, bytes, length);
    written_length += length;
}

/* Writes what an event says, after a comma where it is not the first in what is open. */
static void write_event(const struct promql_form *form, int is_first)
{
    static const char *const texts[] = {"{", "}", "[", "]", "\"", "", "true", "false", "null"};
    int is_end = form->event == PROMQL_FORM_OBJECT_END || form->event == PROMQL_FORM_LIST_END;
    if (!is_first && !is_end)
        put(",", 1);
    if (form->name != NULL) {
        put("\"", 1);
        put(form->name, form->name_length);
        put("\":", 2);
    }
    put(texts[form->event], strlen(texts[form->event]));
    if (form->value != NULL)
        put(form->value, form->value_length);
    if (form->event == PROMQL_FORM_TEXT)
        put("\"", 1);
}

/* Walks a text, in a block of its size, so that valgrind and the sanitizers see a read past it. Returns the last event. */
static enum promql_form_event walk(const char *text, size_t length)
{
    struct promql_form form;
    char *copy = malloc(length + 1);
    size_t count = 0;
    int is_first = 1;
    char unescaped[64];
    if (copy == NULL)
        abort();
    memmove(copy + 1, text, length);
    written_length = 0;
    promql_form_begin(&form, copy + 1, length);
    while (promql_form_next(&form) < PROMQL_FORM_DONE && count++ <= length) {
        write_event(&form, is_first);
        is_first = form.event == PROMQL_FORM_OBJECT || form.event == PROMQL_FORM_LIST;
        if (form.event == PROMQL_FORM_TEXT && promql_form_text(&form, unescaped, sizeof unescaped) > form.value_length)
            check(0, "a text without escapes is longer");
    }
    check(promql_form_next(&form) == form.event && form.event >= PROMQL_FORM_DONE, "the walk stays at its end");
    free(copy);
    return form.event;
}

static void check_form(const char *form, size_t length)
{
    check(walk(form, length) == PROMQL_FORM_DONE && written_length == length && memcmp(written, form, length) == 0, form);
    check(walk(form, length - 1) == PROMQL_FORM_WRONG, "a text that is cut");
}

static void check_changed(char *form, size_t length, unsigned int *seed)
{
    static const char signs[] = "\"\\{}[],:u0-e.tn \x01";
    for (int i = 0; i < 20; i++) {
        size_t at, size;
        char before;
        *seed = *seed * 1103515245 + 12345;
        at = (*seed >> 8) % length;
        before = form[at];
        form[at] = signs[(*seed >> 3) % (sizeof signs - 1)];
        /* (what is written again has no spaces, and is what it is then) */
        if (walk(form, length) == PROMQL_FORM_DONE) {
            static char again[2 * MOST];
            size = written_length;
            memcpy(again, written, size);
            check(walk(again, size) == PROMQL_FORM_DONE && written_length == size && memcmp(written, again, size) == 0, "written again");
        }
        form[at] = before;
    }
}

static void test_queries(const char *path)
{
    static char form[MOST];
    FILE *file = fopen(path, "rb");
    char *line = NULL;
    size_t size = 0;
    ssize_t read;
    unsigned int seed = 80;
    if (file == NULL)
        abort();
    while ((read = getline(&line, &size, file)) > 0) {
        struct promql_result result;
        size_t length = (size_t)read - (line[read - 1] == '\n');
        if (promql_print(line, length, PROMQL_JSON, 0, 0, form, sizeof form, &result) != PROMQL_OK)
            continue;
        check_form(form, result.length);
        check_changed(form, result.length, &seed);
    }
    free(line);
    fclose(file);
}

static void test_types(void)
{
    static const char query[] = "sum by (a) (rate(b{c='\\n\"d'}[5m]))";
    static const char *const wanted[] = {"=", "matrixSelector", NULL, "call", "aggregation"};
    char buffer[4096], value[8];
    struct promql_result result;
    struct promql_form form;
    size_t count = 0;
    promql_print(query, strlen(query), PROMQL_JSON, 0, 0, buffer, sizeof buffer, &result);
    promql_form_begin(&form, buffer, result.length);
    while (promql_form_next(&form) < PROMQL_FORM_DONE) {
        if (form.event == PROMQL_FORM_OBJECT_END) {
            check(count < 5 && (wanted[count] == NULL ? form.type == NULL : promql_form_is_type(&form, wanted[count])), "the type of an object");
            count++;
        }
        check((form.event == PROMQL_FORM_TEXT || form.event == PROMQL_FORM_NUMBER) == (form.value != NULL), "what has a value");
        check(form.value != NULL || promql_form_text(&form, value, sizeof value) == 0, "no value has no bytes");
        if (form.event == PROMQL_FORM_TEXT && promql_form_is(&form, "value"))
            check(promql_form_text(&form, value, sizeof value) == 3 && memcmp(value, "\n\"d", 3) == 0, "the value of a matcher");
        if (form.event == PROMQL_FORM_LIST && promql_form_is(&form, "grouping"))
            check(promql_form_skip(&form) == PROMQL_FORM_LIST_END && form.depth == 1, "a list is left out");
    }
    check(count == 5 && form.event == PROMQL_FORM_DONE, "the end of the form");
}

static void test_texts(void)
{
    static const struct {
        const char *json, *text;
    } texts[] = {{"\"\"", ""},         {"\"a\"", "a"},           {"\"\\u00e9\"", "\xc3\xa9"},        {"\"\\u20ac\"", "\xe2\x82\xac"},
                 {"\"\\/\\b\"", "/\b"}, {"\"\\u0001\"", "\x01"}, {"\"\\ud83e\\uDD80\"", "\xf0\x9f\xa6\x80"}};
    static const char *const wrong[] = {"",       "\"",       "\"\\\"",   "\"\\ud83e\"", "\"\\udd80\"", "\"\\u12g4\"", "\"\\x\"", "\"\n\"", "[1,]", "{,}",
                                        "{\"a\"}", "{\"a\":}", "{\"a\":1,}", "[1 2]",       "01",         "-",            "1.",        "1e",     "tru",  "[}",
                                        "1 1",    "{1:1}",    "nul",      "+1",          ".5",         "]",            "\"\\ud83e\\n\""};
    for (size_t i = 0; i < sizeof texts / sizeof *texts; i++) {
        struct promql_form form;
        char buffer[8];
        size_t length = strlen(texts[i].text);
        promql_form_begin(&form, texts[i].json, strlen(texts[i].json));
        check(promql_form_next(&form) == PROMQL_FORM_TEXT && promql_form_text(&form, buffer, sizeof buffer) == length &&
                  memcmp(buffer, texts[i].text, length) == 0,
              texts[i].json);
        buffer[0] = '#';
        check(promql_form_text(&form, buffer, 0) == length && buffer[0] == '#', "no room for a text");
    }
    for (size_t i = 0; i < sizeof wrong / sizeof *wrong; i++)
        check(walk(wrong[i], strlen(wrong[i])) == PROMQL_FORM_WRONG, wrong[i]);
    check(walk(" [ 1 , { \"a\" : -0.5e+3 } ]\n", 27) == PROMQL_FORM_DONE && strncmp(written, "[1,{\"a\":-0.5e+3}]", written_length) == 0, "spaces");
}

static void test_depth(void)
{
    static char text[MOST];
    for (size_t depth = PROMQL_FORM_MOST - 1; depth <= PROMQL_FORM_MOST + 1; depth++) {
        memset(text, '[', depth);
        memset(text + depth, ']', depth);
        check((walk(text, 2 * depth) == PROMQL_FORM_DONE) == (depth <= PROMQL_FORM_MOST), "the most lists within one another");
    }
    memset(text, '[', sizeof text);
    check(walk(text, sizeof text) == PROMQL_FORM_WRONG, "more of them");
}

int main(int argc, char **argv)
{
    if (argc != 2)
        return 64;
    test_types();
    test_texts();
    test_depth();
    test_queries(argv[1]);
    printf("%d passed, %d failed\n", passed, failed);
    return failed != 0;
}
