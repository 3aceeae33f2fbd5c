/* A walk over the JSON text of a tree (docs/reference/json.md), as promql_print writes it with PROMQL_JSON, event by event. This header is all
 * of it: nothing is linked. It allocates nothing, has no recursion, and takes time that grows with the text.
 *
 *     struct promql_form form;
 *     promql_form_begin(&form, text, length);
 *     while (promql_form_next(&form) < PROMQL_FORM_DONE)
 *         if (form.event == PROMQL_FORM_OBJECT_END && promql_form_is_type(&form, "call"))
 *             calls++;
 *     if (form.event == PROMQL_FORM_WRONG)
 *         ... the text is no JSON
 *
 * Any text of JSON may be walked; its bytes outside of ASCII are not looked at. */
#ifndef PROMQL_FORM_H
#define PROMQL_FORM_H

#include <stddef.h>
#include <string.h>

#ifdef __cplusplus
extern "C" {
#endif

enum promql_form_event {
    PROMQL_FORM_OBJECT,     /* an object begins: a node, or a part of one */
    PROMQL_FORM_OBJECT_END, /* and ends; `type` has its type */
    PROMQL_FORM_LIST,
    PROMQL_FORM_LIST_END,
    PROMQL_FORM_TEXT,   /* a string, which promql_form_text copies */
    PROMQL_FORM_NUMBER, /* `value` has its digits */
    PROMQL_FORM_TRUE,
    PROMQL_FORM_FALSE,
    PROMQL_FORM_NULL,
    PROMQL_FORM_DONE, /* the text has no more */
    PROMQL_FORM_WRONG /* the text is no JSON from `at` on, or has more than PROMQL_FORM_MOST objects and lists within one another */
};

/* A query has no form with more. */
#define PROMQL_FORM_MOST 2048

struct promql_form {
    enum promql_form_event event;
    /* The name of the member that this is, without its quotes; NULL of an item of a list, of the whole, and of an end. */
    const char *name;
    size_t name_length;
    /* The bytes of a number or a string, with its escapes and without its quotes. */
    const char *value;
    size_t value_length;
    /* At the end of an object the text of its member `type`, or NULL where it has none after the last object within it. The library writes it
     * there. */
    const char *type;
    size_t type_length;
    /* How many objects and lists are open: at the beginning of one it is counted, and at its end no more. */
    size_t depth;
    /* What is left of the text. */
    const char *at;
    const char *end;
    /* Whether nothing came yet, of the whole or of what is open; and for each depth whether a list is open there. */
    int is_first;
    unsigned char lists[PROMQL_FORM_MOST / 8];
};

/* Begins the walk over a text, which has to stay as it is until the walk ends. */
static inline void promql_form_begin(struct promql_form *form, const char *text, size_t length)
{
    memset(form, 0, sizeof *form);
    form->event = PROMQL_FORM_NULL;
    form->at = text;
    form->end = text + length;
    form->is_first = 1;
}

/* ---- for the functions below */

static inline void promql_form_skip_space(struct promql_form *form)
{
    while (form->at < form->end && (*form->at == ' ' || *form->at == '\t' || *form->at == '\n' || *form->at == '\r'))
        form->at++;
}

static inline int promql_form_eat(struct promql_form *form, const char *text)
{
    size_t length = strlen(text);
    if ((size_t)(form->end - form->at) < length || memcmp(form->at, text, length) != 0)
        return 0;
    form->at += length;
    return 1;
}

/* The number of the four digits at a place, or -1. */
static inline long promql_form_hex(const char *at, const char *end)
{
    static const char digits[] = "0123456789abcdef0123456789ABCDEF";
    long number = 0;
    if (end - at < 4)
        return -1;
    for (int i = 0; i < 4; i++) {
        const char *digit = (const char *)memchr(digits, at[i], sizeof digits - 1);
        if (digit == NULL)
            return -1;
        number = 16 * number + (digit - digits) % 16;
    }
    return number;
}

/* The character of an escape, which the text begins with after its backslash, or -1; `length` is how many bytes it has. */
static inline long promql_form_escape(const char *at, const char *end, size_t *length)
{
    static const char signs[] = "\"\\/bfnrt", bytes[] = "\"\\/\b\f\n\r\t";
    const char *sign = at == end ? NULL : (const char *)memchr(signs, *at, sizeof signs - 1);
    long first, second;
    *length = 1;
    if (sign != NULL)
        return bytes[sign - signs];
    first = at != end && *at == 'u' ? promql_form_hex(at + 1, end) : -1;
    *length = 5;
    if (first < 0xd800 || first > 0xdfff)
        return first;
    second = first < 0xdc00 && end - at > 6 && at[5] == '\\' && at[6] == 'u' ? promql_form_hex(at + 7, end) : -1;
    *length = 11;
    return second < 0xdc00 || second > 0xdfff ? -1 : 0x10000 + ((first - 0xd800) << 10) + (second - 0xdc00);
}

/* Takes a string, of which these are the bytes between its quotes. */
static inline int promql_form_string(struct promql_form *form, const char **start, size_t *length)
{
    if (!promql_form_eat(form, "\""))
        return 0;
    *start = form->at;
    while (form->at < form->end && *form->at != '"' && (unsigned char)*form->at >= ' ') {
        size_t escaped = 0;
        if (*form->at++ == '\\' && promql_form_escape(form->at, form->end, &escaped) < 0)
            return 0;
        form->at += escaped;
    }
    *length = (size_t)(form->at - *start);
    return promql_form_eat(form, "\"");
}

static inline int promql_form_digits(struct promql_form *form)
{
    const char *start = form->at;
    while (form->at < form->end && *form->at >= '0' && *form->at <= '9')
        form->at++;
    return form->at != start;
}

static inline int promql_form_number(struct promql_form *form)
{
    form->value = form->at;
    promql_form_eat(form, "-");
    if (!promql_form_eat(form, "0") && !promql_form_digits(form))
        return 0;
    if (promql_form_eat(form, ".") && !promql_form_digits(form))
        return 0;
    if (promql_form_eat(form, "e") || promql_form_eat(form, "E")) {
        if (!promql_form_eat(form, "+"))
            promql_form_eat(form, "-");
        if (!promql_form_digits(form))
            return 0;
    }
    form->value_length = (size_t)(form->at - form->value);
    return 1;
}

static inline enum promql_form_event promql_form_open(struct promql_form *form, int is_list)
{
    unsigned char bit = (unsigned char)(1 << form->depth % 8);
    if (form->depth == PROMQL_FORM_MOST)
        return PROMQL_FORM_WRONG;
    form->lists[form->depth / 8] = (unsigned char)(is_list ? form->lists[form->depth / 8] | bit : form->lists[form->depth / 8] & ~bit);
    form->depth++;
    form->is_first = 1;
    form->type = NULL;
    return is_list ? PROMQL_FORM_LIST : PROMQL_FORM_OBJECT;
}

/* Whether what is open is a list. */
static inline int promql_form_in_list(const struct promql_form *form)
{
    return form->lists[(form->depth - 1) / 8] >> (form->depth - 1) % 8 & 1;
}

/* Whether this is the member of this name. (For callers, too.) */
static inline int promql_form_is(const struct promql_form *form, const char *name)
{
    size_t length = strlen(name);
    return form->name != NULL && form->name_length == length && memcmp(form->name, name, length) == 0;
}

static inline enum promql_form_event promql_form_value(struct promql_form *form)
{
    if (promql_form_eat(form, "{"))
        return promql_form_open(form, 0);
    if (promql_form_eat(form, "["))
        return promql_form_open(form, 1);
    form->is_first = 0;
    if (promql_form_string(form, &form->value, &form->value_length)) {
        if (promql_form_is(form, "type")) {
            form->type = form->value;
            form->type_length = form->value_length;
        }
        return PROMQL_FORM_TEXT;
    }
    if (promql_form_eat(form, "true"))
        return PROMQL_FORM_TRUE;
    if (promql_form_eat(form, "false"))
        return PROMQL_FORM_FALSE;
    if (promql_form_eat(form, "null"))
        return PROMQL_FORM_NULL;
    return promql_form_number(form) ? PROMQL_FORM_NUMBER : PROMQL_FORM_WRONG;
}

/* What is next of the object or the list that is open. */
static inline enum promql_form_event promql_form_item(struct promql_form *form)
{
    int in_list = promql_form_in_list(form);
    if (promql_form_eat(form, in_list ? "]" : "}")) {
        form->depth--;
        form->is_first = 0;
        return in_list ? PROMQL_FORM_LIST_END : PROMQL_FORM_OBJECT_END;
    }
    if (!form->is_first && !promql_form_eat(form, ","))
        return PROMQL_FORM_WRONG;
    promql_form_skip_space(form);
    if (!in_list) {
        if (!promql_form_string(form, &form->name, &form->name_length))
            return PROMQL_FORM_WRONG;
        promql_form_skip_space(form);
        if (!promql_form_eat(form, ":"))
            return PROMQL_FORM_WRONG;
        promql_form_skip_space(form);
    }
    return promql_form_value(form);
}

/* ---- the walk */

/* Goes to the next event, which is returned. After PROMQL_FORM_DONE and PROMQL_FORM_WRONG it stays there. */
static inline enum promql_form_event promql_form_next(struct promql_form *form)
{
    if (form->event >= PROMQL_FORM_DONE)
        return form->event;
    if (form->event == PROMQL_FORM_OBJECT_END)
        form->type = NULL;
    form->name = form->value = NULL;
    form->name_length = form->value_length = 0;
    promql_form_skip_space(form);
    if (form->depth > 0)
        form->event = promql_form_item(form);
    else if (form->is_first)
        form->event = promql_form_value(form);
    else
        form->event = form->at == form->end ? PROMQL_FORM_DONE : PROMQL_FORM_WRONG;
    return form->event;
}

/* Where an object or a list begins, goes to its end. */
static inline enum promql_form_event promql_form_skip(struct promql_form *form)
{
    size_t depth = form->depth;
    if (form->event == PROMQL_FORM_OBJECT || form->event == PROMQL_FORM_LIST)
        while (form->event < PROMQL_FORM_DONE && form->depth >= depth)
            promql_form_next(form);
    return form->event;
}

/* Whether an object that ends has this type. */
static inline int promql_form_is_type(const struct promql_form *form, const char *type)
{
    size_t length = strlen(type);
    return form->type != NULL && form->type_length == length && memcmp(form->type, type, length) == 0;
}

/* The bytes of a character in UTF-8, and how many they are. */
static inline size_t promql_form_utf8(long character, char bytes[4])
{
    static const int firsts[] = {0, 0xc0, 0xe0, 0xf0};
    size_t count = character < 0x80 ? 1 : character < 0x800 ? 2 : character < 0x10000 ? 3 : 4;
    for (size_t i = count - 1; i > 0; i--) {
        bytes[i] = (char)(0x80 | (character & 0x3f));
        character >>= 6;
    }
    bytes[0] = (char)(firsts[count - 1] | character);
    return count;
}

/* Copies a string without its escapes, in UTF-8, as far as it fits. Returns how many bytes it has; a byte of 0 may be among them. At any
 * other event there are none, but for a number its digits. */
static inline size_t promql_form_text(const struct promql_form *form, char *buffer, size_t size)
{
    const char *at = form->value, *end = at == NULL ? NULL : at + form->value_length;
    size_t length = 0;
    while (at != end) {
        char bytes[4];
        size_t count = 1, escaped = 0;
        bytes[0] = *at++;
        if (bytes[0] == '\\')
            count = promql_form_utf8(promql_form_escape(at, end, &escaped), bytes);
        at += escaped;
        for (size_t i = 0; i < count; i++, length++)
            if (length < size)
                buffer[length] = bytes[i];
    }
    return length;
}

#ifdef __cplusplus
}
#endif

#endif
