/* Reads trees of the text of the JSON form (docs/reference/json.md), as the library writes it: without a space, the members of each object
 * in the order of their bytes. So what a node is shows in its first members, and each is made as soon as it was read. */
#include "_native.h"

#include <string.h>

/* The most nodes above one another of a query, and so of calls of read_expr. */
enum { MOST_HEIGHT = 512 };

struct reader {
    const char *at;
    const char *end;
    const struct nodes *nodes;
    int height;
};

typedef PyObject *read_item(struct reader *reader);

static PyObject *read_expr(struct reader *reader);

/* ---- texts and numbers */

/* Takes a text that is next. */
static int eat(struct reader *reader, const char *text, size_t length)
{
    if ((size_t)(reader->end - reader->at) < length || memcmp(reader->at, text, length) != 0)
        return 0;
    reader->at += length;
    return 1;
}

#define EAT(reader, text) eat(reader, text, sizeof text - 1)

static PyObject *none(void)
{
    Py_IncRef(Py_None);
    return Py_None;
}

static int hex_value(char digit)
{
    if (digit >= '0' && digit <= '9')
        return digit - '0';
    return digit >= 'a' && digit <= 'f' ? digit - 'a' + 10 : -1;
}

/* The byte of an escape, whose backslash was taken, or -1. Of those with digits the library writes control characters alone. */
static int read_escape(struct reader *reader)
{
    static const char signs[] = "\"\\/bfnrt", bytes[] = "\"\\/\b\f\n\r\t";
    const char *sign;
    int high, low;
    if (reader->at == reader->end)
        return -1;
    sign = memchr(signs, *reader->at, sizeof signs - 1);
    if (sign != NULL) {
        reader->at++;
        return bytes[sign - signs];
    }
    if (!EAT(reader, "u00") || reader->end - reader->at < 2)
        return -1;
    high = hex_value(reader->at[0]);
    low = hex_value(reader->at[1]);
    reader->at += 2;
    return high < 0 || low < 0 || high > 7 ? -1 : 16 * high + low;
}

/* The end of what stands for itself in a string. */
static const char *end_of_plain(const struct reader *reader)
{
    const char *at = reader->at;
    while (at < reader->end && *at != '"' && *at != '\\' && (unsigned char)*at >= ' ')
        at++;
    return at;
}

/* Takes the rest of a string into a room that is as large as the whole. Returns its length, or -1 where it is none. */
static Py_ssize_t read_escaped(struct reader *reader, char *room)
{
    char *to = room;
    while (!EAT(reader, "\"")) {
        const char *end = end_of_plain(reader);
        size_t length = (size_t)(end - reader->at);
        int byte = 0;
        memcpy(to, reader->at, length);
        to += length;
        reader->at = end;
        if (EAT(reader, "\\")) {
            byte = read_escape(reader);
            *to++ = (char)byte;
        } else if (end == reader->end || *end != '"') {
            byte = -1;
        }
        if (byte < 0)
            return -1;
    }
    return to - room;
}

/* A string with escapes, whose first quote was taken. */
static PyObject *read_text_with_escapes(struct reader *reader)
{
    char *room = PyMem_Malloc((size_t)(reader->end - reader->at) + 1);
    PyObject *text = NULL;
    Py_ssize_t length;
    if (room == NULL)
        return PyErr_NoMemory();
    length = read_escaped(reader, room);
    if (length >= 0)
        text = PyUnicode_DecodeUTF8(room, length, NULL);
    PyMem_Free(room);
    return text;
}

static PyObject *read_text(struct reader *reader)
{
    const char *start, *end;
    if (!EAT(reader, "\""))
        return NULL;
    start = reader->at;
    end = end_of_plain(reader);
    if (end == reader->end || *end != '"')
        return read_text_with_escapes(reader);
    reader->at = end + 1;
    return PyUnicode_DecodeUTF8(start, end - start, NULL);
}

static PyObject *read_text_or_none(struct reader *reader)
{
    return EAT(reader, "null") ? none() : read_text(reader);
}

/* The text of an operator, of which there are few. */
static PyObject *read_operator(struct reader *reader)
{
    PyObject *text = read_text(reader);
    if (text != NULL)
        PyUnicode_InternInPlace(&text);
    return text;
}

/* One of the words from the first up to the last. */
static PyObject *read_word(struct reader *reader, enum word first, enum word last)
{
    for (enum word word = first; word <= last; word++) {
        if (eat(reader, word_texts[word], strlen(word_texts[word]))) {
            Py_IncRef(reader->nodes->words[word]);
            return reader->nodes->words[word];
        }
    }
    return NULL;
}

static PyObject *read_flag(struct reader *reader)
{
    if (EAT(reader, "true"))
        return PyBool_FromLong(1);
    return EAT(reader, "false") ? PyBool_FromLong(0) : NULL;
}

/* A whole number from -2^63 to 2^64 - 1. */
static PyObject *read_whole(struct reader *reader)
{
    int is_negative = EAT(reader, "-");
    const char *start = reader->at;
    uint64_t number = 0;
    for (; reader->at < reader->end && *reader->at >= '0' && *reader->at <= '9'; reader->at++) {
        unsigned int digit = (unsigned int)(*reader->at - '0');
        if (number > (UINT64_MAX - digit) / 10)
            return NULL;
        number = 10 * number + digit;
    }
    if (reader->at == start || (*start == '0' && (is_negative || reader->at - start > 1)))
        return NULL;
    if (!is_negative)
        return PyLong_FromUnsignedLongLong(number);
    return number > (uint64_t)INT64_MAX + 1 ? NULL : PyLong_FromLongLong(-(long long)(number - 1) - 1);
}

static PyObject *read_whole_or_none(struct reader *reader)
{
    return EAT(reader, "null") ? none() : read_whole(reader);
}

/* ---- lists and nodes */

/* The items of a list whose bracket was taken, as a tuple. */
static PyObject *read_items(struct reader *reader, read_item *item)
{
    PyObject *items, *tuple = NULL;
    int status = 0;
    if (EAT(reader, "]"))
        return PyTuple_New(0);
    items = PyList_New(0);
    if (items == NULL)
        return NULL;
    do {
        PyObject *made = item(reader);
        status = made == NULL ? -1 : PyList_Append(items, made);
        Py_DecRef(made);
    } while (status == 0 && EAT(reader, ","));
    if (status == 0 && EAT(reader, "]"))
        tuple = PyList_AsTuple(items);
    Py_DecRef(items);
    return tuple;
}

static PyObject *read_texts(struct reader *reader)
{
    return EAT(reader, "[") ? read_items(reader, read_text) : NULL;
}

/* A node with these values, whose references it takes, or NULL where one of them is. It is made without a call of its class: what that would
 * check holds of what was read. */
static PyObject *make(const struct reader *reader, enum kind kind, PyObject *const values[MOST_FIELDS])
{
    const struct node_class *class = &reader->nodes->classes[kind];
    PyObject *node = NULL;
    int there = 0;
    while (there < class->count && values[there] != NULL)
        there++;
    if (there == class->count)
        node = PyType_GenericAlloc((PyTypeObject *)class->type, 0);
    for (int i = 0; node != NULL && i < class->count; i++) {
        if (PyObject_GenericSetAttr(node, class->names[i], values[i]) != 0) {
            Py_DecRef(node);
            node = NULL;
        }
    }
    for (int i = 0; i < class->count; i++)
        Py_DecRef(values[i]);
    return node;
}

/* The same where the text ends the object so. */
static PyObject *make_at(struct reader *reader, const char *last, enum kind kind, PyObject *const values[MOST_FIELDS])
{
    PyObject *node = make(reader, kind, values);
    if (node != NULL && eat(reader, last, strlen(last)))
        return node;
    Py_DecRef(node);
    return NULL;
}

/* The value after the name of a member, which is next, or NULL where it is not or an earlier one is missing. */
static PyObject *read_member(struct reader *reader, const PyObject *earlier, const char *name, read_item *value)
{
    return earlier != NULL && eat(reader, name, strlen(name)) ? value(reader) : NULL;
}

static PyObject *read_match_op(struct reader *reader)
{
    return read_word(reader, EQUAL, NO_MATCH);
}

static PyObject *read_matcher(struct reader *reader)
{
    PyObject *name = EAT(reader, "{\"name\":") ? read_text(reader) : NULL;
    PyObject *op = read_member(reader, name, ",\"type\":", read_match_op);
    PyObject *value = read_member(reader, op, ",\"value\":", read_text);
    return make_at(reader, "}", MATCHER, (PyObject *[MOST_FIELDS]){name, op, value});
}

static PyObject *read_group(struct reader *reader)
{
    return EAT(reader, "[") ? read_items(reader, read_matcher) : NULL;
}

static PyObject *read_groups(struct reader *reader)
{
    if (!EAT(reader, ",\"or_matchers\":["))
        return PyTuple_New(0);
    return EAT(reader, "]") ? NULL : read_items(reader, read_group);
}

/* The time after `@`: the members `startOrEnd` and `timestamp`, between which a subquery has its step. */
static PyObject *read_time(struct reader *reader, PyObject **step)
{
    PyObject *word = NULL, *timestamp;
    if (!EAT(reader, ",\"startOrEnd\":"))
        return NULL;
    if (!EAT(reader, "null") && (word = read_word(reader, START, END)) == NULL)
        return NULL;
    if (step != NULL)
        *step = EAT(reader, ",\"step\":") ? read_whole_or_none(reader) : NULL;
    if (!EAT(reader, ",\"timestamp\":"))
        timestamp = NULL;
    else if (word != NULL)
        timestamp = EAT(reader, "null") ? word : NULL;
    else
        timestamp = read_whole_or_none(reader);
    if (timestamp != word)
        Py_DecRef(word);
    return timestamp;
}

/* (after `{"matchers":`) */
static PyObject *read_selector(struct reader *reader)
{
    PyObject *matchers = read_group(reader);
    PyObject *name = read_member(reader, matchers, ",\"name\":", read_text_or_none);
    PyObject *offset = read_member(reader, name, ",\"offset\":", read_whole);
    PyObject *groups = offset == NULL ? NULL : read_groups(reader);
    PyObject *range, *mode, *at;
    if (groups == NULL || !EAT(reader, ",\"range\":")) {
        at = groups == NULL ? NULL : read_time(reader, NULL);
        return make_at(reader, ",\"type\":\"vectorSelector\"}", SELECTOR, (PyObject *[MOST_FIELDS]){name, matchers, groups, offset, at});
    }
    range = read_whole(reader);
    mode = EAT(reader, ",\"rangeMode\":") ? read_word(reader, SMOOTHED, ANCHORED) : none();
    at = read_time(reader, NULL);
    return make_at(reader, ",\"type\":\"matrixSelector\"}", RANGE_SELECTOR,
                   (PyObject *[MOST_FIELDS]){name, range, matchers, groups, offset, at, mode});
}

static PyObject *read_expr_or_none(struct reader *reader)
{
    return EAT(reader, "null") ? none() : read_expr(reader);
}

/* (after its expression and the name of the next member) */
static PyObject *read_aggregation(struct reader *reader, PyObject *expr)
{
    PyObject *grouping = read_texts(reader);
    PyObject *op = read_member(reader, grouping, ",\"op\":", read_operator);
    PyObject *param = read_member(reader, op, ",\"param\":", read_expr_or_none);
    PyObject *without = read_member(reader, param, ",\"type\":\"aggregation\",\"without\":", read_flag);
    return make_at(reader, "}", AGGREGATION, (PyObject *[MOST_FIELDS]){op, expr, grouping, without, param});
}

static PyObject *read_subquery(struct reader *reader, PyObject *expr)
{
    PyObject *offset = read_whole(reader);
    PyObject *range = read_member(reader, offset, ",\"range\":", read_whole);
    PyObject *step = NULL;
    PyObject *at = range == NULL ? NULL : read_time(reader, &step);
    return make_at(reader, ",\"type\":\"subquery\"}", SUBQUERY, (PyObject *[MOST_FIELDS]){expr, range, step, offset, at});
}

/* (after `{"expr":`) */
static PyObject *read_over_expr(struct reader *reader)
{
    PyObject *expr = read_expr(reader);
    if (expr == NULL)
        return NULL;
    if (EAT(reader, ",\"grouping\":"))
        return read_aggregation(reader, expr);
    if (EAT(reader, ",\"offset\":"))
        return read_subquery(reader, expr);
    if (EAT(reader, ",\"op\":\"-\",\"type\":\"unaryExpr\"}"))
        return make(reader, UNARY, (PyObject *[MOST_FIELDS]){expr});
    return make_at(reader, ",\"type\":\"parenExpr\"}", PAREN, (PyObject *[MOST_FIELDS]){expr});
}

static PyObject *read_grouping(struct reader *reader, enum kind kind)
{
    return make_at(reader, "}", kind, (PyObject *[MOST_FIELDS]){read_texts(reader)});
}

static PyObject *read_cardinality(struct reader *reader)
{
    if (EAT(reader, "{\"many-to-one\":"))
        return read_grouping(reader, MANY_TO_ONE);
    if (EAT(reader, "{\"one-to-many\":"))
        return read_grouping(reader, ONE_TO_MANY);
    return read_word(reader, MANY_TO_MANY, ONE_TO_ONE);
}

static PyObject *read_matching(struct reader *reader)
{
    PyObject *card, *left, *right, *labels, *on;
    if (EAT(reader, "null"))
        return none();
    card = EAT(reader, "{\"card\":") ? read_cardinality(reader) : NULL;
    left = read_member(reader, card, ",\"fillValues\":{\"lhs\":", read_text_or_none);
    right = read_member(reader, left, ",\"rhs\":", read_text_or_none);
    labels = read_member(reader, right, "},\"include\":[],\"labels\":", read_texts);
    on = read_member(reader, labels, ",\"on\":", read_flag);
    return make_at(reader, "}", MATCHING, (PyObject *[MOST_FIELDS]){on, labels, card, left, right});
}

/* (after `{"bool":`) */
static PyObject *read_binary(struct reader *reader)
{
    PyObject *return_bool = read_flag(reader);
    PyObject *lhs = read_member(reader, return_bool, ",\"lhs\":", read_expr);
    PyObject *matching = read_member(reader, lhs, ",\"matching\":", read_matching);
    PyObject *op = read_member(reader, matching, ",\"op\":", read_operator);
    PyObject *rhs = read_member(reader, op, ",\"rhs\":", read_expr);
    return make_at(reader, ",\"type\":\"binaryExpr\"}", BINARY, (PyObject *[MOST_FIELDS]){lhs, op, rhs, return_bool, matching});
}

/* The name of a function, whose form is one of the table. */
static PyObject *read_function(struct reader *reader)
{
    const char *start = reader->at, *end = memchr(start, '}', (size_t)(reader->end - start));
    PyObject *form, *name;
    if (end == NULL)
        return NULL;
    form = PyBytes_FromStringAndSize(start, end + 1 - start);
    if (form == NULL)
        return NULL;
    name = PyDict_GetItem(reader->nodes->names, form);
    Py_IncRef(name);
    Py_DecRef(form);
    reader->at = end + 1;
    return name;
}

/* (after `{"args":[`) */
static PyObject *read_call(struct reader *reader)
{
    PyObject *args = read_items(reader, read_expr);
    PyObject *name = read_member(reader, args, ",\"func\":", read_function);
    return make_at(reader, ",\"type\":\"call\"}", CALL, (PyObject *[MOST_FIELDS]){name, args});
}

/* ---- expressions */

static PyObject *read_node(struct reader *reader)
{
    if (EAT(reader, "{\"matchers\":"))
        return read_selector(reader);
    if (EAT(reader, "{\"expr\":"))
        return read_over_expr(reader);
    if (EAT(reader, "{\"bool\":"))
        return read_binary(reader);
    if (EAT(reader, "{\"args\":["))
        return read_call(reader);
    if (EAT(reader, "{\"type\":\"numberLiteral\",\"val\":"))
        return make_at(reader, "}", NUMBER, (PyObject *[MOST_FIELDS]){read_text(reader)});
    if (EAT(reader, "{\"type\":\"stringLiteral\",\"val\":"))
        return make_at(reader, "}", STRING, (PyObject *[MOST_FIELDS]){read_text(reader)});
    return NULL;
}

static PyObject *read_expr(struct reader *reader)
{
    PyObject *expr = NULL;
    if (reader->height < MOST_HEIGHT) {
        reader->height++;
        expr = read_node(reader);
        reader->height--;
    }
    return expr;
}

PyObject *read_form(const struct nodes *nodes, const char *text, size_t length)
{
    struct reader reader = {.at = text, .end = text + length, .nodes = nodes};
    PyObject *expr = read_expr(&reader);
    if (expr != NULL && reader.at == reader.end)
        return expr;
    Py_DecRef(expr);
    if (PyErr_Occurred() && !PyErr_ExceptionMatches(PyExc_MemoryError))
        PyErr_Clear();
    return NULL;
}
