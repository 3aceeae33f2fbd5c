/* Writes the JSON form of trees (docs/reference/json.md), as the library writes it: without a space, the members of each object in the order
 * of their bytes. */
#include "_native.h"

#include <string.h>

/* No tree of more nodes above one another is read by the library: each node is an object. */
enum { MOST_DEPTH = 127 };

struct writer {
    struct text *text;
    size_t most;
    const struct nodes *nodes;
    int depth;
};

typedef int write_value(struct writer *writer, PyObject *value);

static int write_expr(struct writer *writer, PyObject *expr);

/* ---- texts and numbers */

void leave_text(struct text *text)
{
    if (text->start != text->room)
        PyMem_Free(text->start);
}

/* Makes room for so many bytes more. Returns 0, or -1 with an error. */
static int grow(struct text *text, size_t more)
{
    size_t size = text->length + more > 2 * text->size ? text->length + more : 2 * text->size;
    char *start = PyMem_Realloc(text->start == text->room ? NULL : text->start, size);
    if (start == NULL) {
        PyErr_NoMemory();
        return -1;
    }
    if (text->start == text->room)
        memcpy(start, text->room, text->length);
    text->start = start;
    text->size = size;
    return 0;
}

static int put(struct writer *writer, const char *bytes, size_t length)
{
    struct text *text = writer->text;
    if (length > writer->most - text->length || (length > text->size - text->length && grow(text, length) != 0))
        return -1;
    memcpy(text->start + text->length, bytes, length);
    text->length += length;
    return 0;
}

#define PUT(writer, text) put(writer, text, sizeof text - 1)

/* A byte that no string has as it is. */
static int put_escape(struct writer *writer, char byte)
{
    static const char bytes[] = "\"\\\b\f\n\r\t", signs[] = "\"\\bfnrt", digits[] = "0123456789abcdef";
    const char *found = memchr(bytes, byte, sizeof bytes - 1);
    char escape[6] = {'\\', 'u', '0', '0', digits[byte >> 4 & 15], digits[byte & 15]};
    if (found == NULL)
        return put(writer, escape, sizeof escape);
    escape[1] = signs[found - bytes];
    return put(writer, escape, 2);
}

static int put_string(struct writer *writer, const char *bytes, size_t length)
{
    const char *end = bytes + length, *start = bytes;
    int status = PUT(writer, "\"");
    for (const char *at = bytes; status == 0 && at < end; at++) {
        if (*at != '"' && *at != '\\' && (unsigned char)*at >= ' ')
            continue;
        status = put(writer, start, (size_t)(at - start));
        if (status == 0)
            status = put_escape(writer, *at);
        start = at + 1;
    }
    if (status == 0)
        status = put(writer, start, (size_t)(end - start));
    return status == 0 ? PUT(writer, "\"") : -1;
}

/* A str; one with a surrogate is none. */
static int write_text(struct writer *writer, PyObject *text)
{
    PyObject *encoded = PyUnicode_Check(text) ? PyUnicode_AsUTF8String(text) : NULL;
    int status;
    if (encoded == NULL)
        return -1;
    status = put_string(writer, PyBytes_AsString(encoded), (size_t)PyBytes_Size(encoded));
    Py_DecRef(encoded);
    return status;
}

static int write_text_or_none(struct writer *writer, PyObject *text)
{
    return text == Py_None ? PUT(writer, "null") : write_text(writer, text);
}

static int write_flag(struct writer *writer, PyObject *flag)
{
    if (flag == Py_True)
        return PUT(writer, "true");
    return flag == Py_False ? PUT(writer, "false") : -1;
}

static int put_number(struct writer *writer, int is_negative, uint64_t number)
{
    char digits[21], *start = digits + sizeof digits;
    do {
        *--start = (char)('0' + number % 10);
        number /= 10;
    } while (number != 0);
    if (is_negative)
        *--start = '-';
    return put(writer, start, (size_t)(digits + sizeof digits - start));
}

/* A whole number from -2^63 to 2^64 - 1. */
static int write_whole(struct writer *writer, PyObject *value)
{
    int overflow;
    long long number;
    unsigned long long large;
    if (Py_TYPE(value) != &PyLong_Type)
        return -1;
    number = PyLong_AsLongLongAndOverflow(value, &overflow);
    if (overflow == 0)
        return put_number(writer, number < 0, number < 0 ? 0 - (uint64_t)number : (uint64_t)number);
    large = overflow > 0 ? PyLong_AsUnsignedLongLong(value) : 0;
    return overflow < 0 || PyErr_Occurred() ? -1 : put_number(writer, 0, large);
}

static int write_whole_or_none(struct writer *writer, PyObject *value)
{
    return value == Py_None ? PUT(writer, "null") : write_whole(writer, value);
}

/* ---- fields and lists */

/* Writes the field of this number in a node of this kind, after a text. */
static int write_field(struct writer *writer, PyObject *node, enum kind kind, int number, const char *before, write_value *write)
{
    PyObject *value = PyObject_GenericGetAttr(node, writer->nodes->classes[kind].names[number]);
    int status = value == NULL ? -1 : put(writer, before, strlen(before));
    if (status == 0)
        status = write(writer, value);
    Py_DecRef(value);
    return status;
}

static int write_items(struct writer *writer, PyObject *items, write_value *write)
{
    Py_ssize_t count;
    int status;
    if (!PyTuple_Check(items))
        return -1;
    count = PyTuple_Size(items);
    status = PUT(writer, "[");
    for (Py_ssize_t i = 0; status == 0 && i < count; i++) {
        if (i > 0)
            status = PUT(writer, ",");
        if (status == 0)
            status = write(writer, PyTuple_GetItem(items, i));
    }
    return status == 0 ? PUT(writer, "]") : -1;
}

static int write_texts(struct writer *writer, PyObject *texts)
{
    return write_items(writer, texts, write_text);
}

static int is_of_kind(const struct writer *writer, PyObject *value, enum kind kind)
{
    return (PyObject *)Py_TYPE(value) == writer->nodes->classes[kind].type;
}

static int write_matcher(struct writer *writer, PyObject *matcher)
{
    if (!is_of_kind(writer, matcher, MATCHER) || write_field(writer, matcher, MATCHER, 0, "{\"name\":", write_text) != 0 ||
        write_field(writer, matcher, MATCHER, 1, ",\"type\":", write_text) != 0 ||
        write_field(writer, matcher, MATCHER, 2, ",\"value\":", write_text) != 0)
        return -1;
    return PUT(writer, "}");
}

static int write_matchers(struct writer *writer, PyObject *matchers)
{
    return write_items(writer, matchers, write_matcher);
}

/* The member `or_matchers`, which is left out where there are no groups. */
static int write_groups(struct writer *writer, PyObject *groups)
{
    if (PyTuple_Check(groups) && PyTuple_Size(groups) == 0)
        return 0;
    return PUT(writer, ",\"or_matchers\":") == 0 ? write_items(writer, groups, write_matchers) : -1;
}

/* The member `rangeMode`, which is left out where there is no word. */
static int write_mode(struct writer *writer, PyObject *mode)
{
    if (mode == Py_None)
        return 0;
    return PUT(writer, ",\"rangeMode\":") == 0 ? write_text(writer, mode) : -1;
}

/* The word after `@`, and null for a number. */
static int write_start_or_end(struct writer *writer, PyObject *at)
{
    return PyUnicode_Check(at) ? write_text(writer, at) : PUT(writer, "null");
}

/* The number after `@`, and null for a word. */
static int write_timestamp(struct writer *writer, PyObject *at)
{
    return PyUnicode_Check(at) ? PUT(writer, "null") : write_whole_or_none(writer, at);
}

/* ---- nodes */

static int write_aggregation(struct writer *writer, PyObject *node)
{
    if (write_field(writer, node, AGGREGATION, 1, "{\"expr\":", write_expr) != 0 ||
        write_field(writer, node, AGGREGATION, 2, ",\"grouping\":", write_texts) != 0 ||
        write_field(writer, node, AGGREGATION, 0, ",\"op\":", write_text) != 0 || PUT(writer, ",\"param\":") != 0)
        return -1;
    PyObject *param = PyObject_GenericGetAttr(node, writer->nodes->classes[AGGREGATION].names[4]);
    int status = param == NULL ? -1 : param == Py_None ? PUT(writer, "null") : write_expr(writer, param);
    Py_DecRef(param);
    if (status == 0)
        status = write_field(writer, node, AGGREGATION, 3, ",\"type\":\"aggregation\",\"without\":", write_flag);
    return status == 0 ? PUT(writer, "}") : -1;
}

static int write_cardinality(struct writer *writer, PyObject *card)
{
    int is_many_to_one = is_of_kind(writer, card, MANY_TO_ONE);
    enum kind kind = is_many_to_one ? MANY_TO_ONE : ONE_TO_MANY;
    if (!is_many_to_one && !is_of_kind(writer, card, ONE_TO_MANY))
        return write_text(writer, card);
    if (write_field(writer, card, kind, 0, is_many_to_one ? "{\"many-to-one\":" : "{\"one-to-many\":", write_texts) != 0)
        return -1;
    return PUT(writer, "}");
}

static int write_matching(struct writer *writer, PyObject *matching)
{
    if (matching == Py_None)
        return PUT(writer, "null");
    if (!is_of_kind(writer, matching, MATCHING) || write_field(writer, matching, MATCHING, 2, "{\"card\":", write_cardinality) != 0 ||
        write_field(writer, matching, MATCHING, 3, ",\"fillValues\":{\"lhs\":", write_text_or_none) != 0 ||
        write_field(writer, matching, MATCHING, 4, ",\"rhs\":", write_text_or_none) != 0 ||
        write_field(writer, matching, MATCHING, 1, "},\"include\":[],\"labels\":", write_texts) != 0 ||
        write_field(writer, matching, MATCHING, 0, ",\"on\":", write_flag) != 0)
        return -1;
    return PUT(writer, "}");
}

static int write_binary(struct writer *writer, PyObject *node)
{
    if (write_field(writer, node, BINARY, 3, "{\"bool\":", write_flag) != 0 ||
        write_field(writer, node, BINARY, 0, ",\"lhs\":", write_expr) != 0 ||
        write_field(writer, node, BINARY, 4, ",\"matching\":", write_matching) != 0 ||
        write_field(writer, node, BINARY, 1, ",\"op\":", write_text) != 0 ||
        write_field(writer, node, BINARY, 2, ",\"rhs\":", write_expr) != 0)
        return -1;
    return PUT(writer, ",\"type\":\"binaryExpr\"}");
}

static int write_args(struct writer *writer, PyObject *args)
{
    return write_items(writer, args, write_expr);
}

/* The form of the function of this name. */
static int write_function(struct writer *writer, PyObject *name)
{
    PyObject *form = PyDict_GetItemWithError(writer->nodes->forms, name);
    return form == NULL ? -1 : put(writer, PyBytes_AsString(form), (size_t)PyBytes_Size(form));
}

static int write_call(struct writer *writer, PyObject *node)
{
    if (write_field(writer, node, CALL, 1, "{\"args\":", write_args) != 0 ||
        write_field(writer, node, CALL, 0, ",\"func\":", write_function) != 0)
        return -1;
    return PUT(writer, ",\"type\":\"call\"}");
}

static int write_selector(struct writer *writer, PyObject *node)
{
    if (write_field(writer, node, SELECTOR, 1, "{\"matchers\":", write_matchers) != 0 ||
        write_field(writer, node, SELECTOR, 0, ",\"name\":", write_text_or_none) != 0 ||
        write_field(writer, node, SELECTOR, 3, ",\"offset\":", write_whole) != 0 ||
        write_field(writer, node, SELECTOR, 2, "", write_groups) != 0 ||
        write_field(writer, node, SELECTOR, 4, ",\"startOrEnd\":", write_start_or_end) != 0 ||
        write_field(writer, node, SELECTOR, 4, ",\"timestamp\":", write_timestamp) != 0)
        return -1;
    return PUT(writer, ",\"type\":\"vectorSelector\"}");
}

static int write_range_selector(struct writer *writer, PyObject *node)
{
    if (write_field(writer, node, RANGE_SELECTOR, 2, "{\"matchers\":", write_matchers) != 0 ||
        write_field(writer, node, RANGE_SELECTOR, 0, ",\"name\":", write_text_or_none) != 0 ||
        write_field(writer, node, RANGE_SELECTOR, 4, ",\"offset\":", write_whole) != 0 ||
        write_field(writer, node, RANGE_SELECTOR, 3, "", write_groups) != 0 ||
        write_field(writer, node, RANGE_SELECTOR, 1, ",\"range\":", write_whole) != 0 ||
        write_field(writer, node, RANGE_SELECTOR, 6, "", write_mode) != 0 ||
        write_field(writer, node, RANGE_SELECTOR, 5, ",\"startOrEnd\":", write_start_or_end) != 0 ||
        write_field(writer, node, RANGE_SELECTOR, 5, ",\"timestamp\":", write_timestamp) != 0)
        return -1;
    return PUT(writer, ",\"type\":\"matrixSelector\"}");
}

static int write_subquery(struct writer *writer, PyObject *node)
{
    if (write_field(writer, node, SUBQUERY, 0, "{\"expr\":", write_expr) != 0 ||
        write_field(writer, node, SUBQUERY, 3, ",\"offset\":", write_whole) != 0 ||
        write_field(writer, node, SUBQUERY, 1, ",\"range\":", write_whole) != 0 ||
        write_field(writer, node, SUBQUERY, 4, ",\"startOrEnd\":", write_start_or_end) != 0 ||
        write_field(writer, node, SUBQUERY, 2, ",\"step\":", write_whole_or_none) != 0 ||
        write_field(writer, node, SUBQUERY, 4, ",\"timestamp\":", write_timestamp) != 0)
        return -1;
    return PUT(writer, ",\"type\":\"subquery\"}");
}

static int write_number(struct writer *writer, PyObject *node)
{
    return write_field(writer, node, NUMBER, 0, "{\"type\":\"numberLiteral\",\"val\":", write_text) == 0 ? PUT(writer, "}") : -1;
}

static int write_string(struct writer *writer, PyObject *node)
{
    return write_field(writer, node, STRING, 0, "{\"type\":\"stringLiteral\",\"val\":", write_text) == 0 ? PUT(writer, "}") : -1;
}

static int write_paren(struct writer *writer, PyObject *node)
{
    return write_field(writer, node, PAREN, 0, "{\"expr\":", write_expr) == 0 ? PUT(writer, ",\"type\":\"parenExpr\"}") : -1;
}

static int write_unary(struct writer *writer, PyObject *node)
{
    return write_field(writer, node, UNARY, 0, "{\"expr\":", write_expr) == 0 ? PUT(writer, ",\"op\":\"-\",\"type\":\"unaryExpr\"}") : -1;
}

/* What writes the expressions of each kind. */
static write_value *const writers[] = {write_aggregation, write_binary, write_call, write_number, write_paren, write_range_selector,
                                       write_selector, write_string, write_subquery, write_unary};

static int write_expr(struct writer *writer, PyObject *expr)
{
    enum kind kind = AGGREGATION;
    int status;
    while (kind <= UNARY && !is_of_kind(writer, expr, kind))
        kind++;
    if (kind > UNARY || writer->depth == MOST_DEPTH)
        return -1;
    writer->depth++;
    status = writers[kind](writer, expr);
    writer->depth--;
    return status;
}

int write_form(const struct nodes *nodes, PyObject *tree, size_t most, struct text *text)
{
    struct writer writer = {.text = text, .most = most, .nodes = nodes};
    int status = write_expr(&writer, tree);
    if (status != 0 && PyErr_Occurred() && !PyErr_ExceptionMatches(PyExc_MemoryError))
        PyErr_Clear();
    return status;
}
