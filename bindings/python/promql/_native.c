/* The calls of libpromql.so over str, for CPython 3.8 and later: what _library.py does by ctypes, in less time. A function returns the
 * text of its call as a str; where there is none a tuple (status, message, start, end, line, column), of which _answers.py tells more.
 *
 * Only the limited API of Python 3.8 is used, so that one file serves all versions. Its functions are called, and not its macros, where
 * these are other code in other versions. */
#include "_native.h"

#include "promql.h"

#include <dlfcn.h>
#include <string.h>

/* Bytes of room on the stack; of the first room for a text, beside what is likely for each byte of its query; and the most of that, so that
 * a query that is too large takes little more than itself. */
enum { SMALL_ROOM = 4096, FIRST_ROOM = 1024, MOST_LIKELY = 16777216 };

/* The most bytes of the JSON text of a tree, where nothing else is said. */
enum { MAX_TREE = 4194304 };

/* How many queries canonical_many reads at once, of at most so many bytes together. */
enum { BATCH = 64, BATCH_BYTES = 65536 };

/* The lock of the interpreter is kept for a query of at most so many bytes (docs/guide/bindings.md, "Threads"). */
enum { MOST_WITH_LOCK = 1024 };

/* The calls of promql.h, of the library that `load` opened. */
struct library {
    __typeof__(promql_print) *print;
    __typeof__(promql_canonical) *canonical;
    __typeof__(promql_enforce) *enforce;
    __typeof__(promql_rename) *rename;
    __typeof__(promql_collect) *collect;
    __typeof__(promql_places) *places;
    __typeof__(promql_parts) *parts;
    __typeof__(promql_differences) *differences;
    __typeof__(promql_tokens) *tokens;
    __typeof__(promql_windows) *windows;
    __typeof__(promql_reaches) *reaches;
    __typeof__(promql_last_read) *last_read;
    __typeof__(promql_pinned) *pinned;
    __typeof__(promql_is_constant) *is_constant;
    __typeof__(promql_may_read) *may_read;
    __typeof__(promql_check) *check;
    __typeof__(promql_explain) *explain;
    __typeof__(promql_snippet) *snippet;
    __typeof__(promql_print_tree) *print_tree;
    __typeof__(promql_format_query) *format_query;
    __typeof__(promql_version) *version;
    __typeof__(promql_set_limits) *set_limits;
    __typeof__(promql_set_max_output) *set_max_output;
    __typeof__(promql_set_max_tree) *set_max_tree;
    __typeof__(promql_set_target) *set_target;
};

enum call { PRINT, CANONICAL, ENFORCE, RENAME, COLLECT, PLACES, PARTS, DIFFERENCES, TOKENS, WINDOWS, REACHES, LAST_READ, PINNED, IS_CONSTANT,
            MAY_READ, CHECK, EXPLAIN, SNIPPET, PRINT_TREE, FORMAT_QUERY, VERSION };

/* A call with what it is given. `other` is a matcher, or the labels of a series, and `room` how many bytes of text are likely for each byte
 * of the query. */
struct request {
    enum call call;
    size_t room;
    const char *query;
    size_t query_length;
    const char *other;
    size_t other_length;
    uint32_t kind;
    const char *from;
    size_t from_length;
    const char *to;
    size_t to_length;
    uint32_t mode;
    uint32_t level;
    size_t width;
    uint32_t parentheses;
    size_t indent_width;
    uint32_t spelling;
    uint32_t as_json;
    size_t start;
    size_t end;
    int64_t time;
    struct promql_times times;
};

/* What the module has of its own. The texts of trees that it writes have at most so many bytes: the library reads no longer ones. */
struct state {
    struct library library;
    struct nodes nodes;
    size_t max_tree;
};

static uint32_t make_call(const struct library *library, const struct request *request, char *buffer, size_t size,
                          struct promql_result *result)
{
    const char *query = request->query;
    size_t length = request->query_length;
    switch (request->call) {
    case PRINT:
        return library->print(query, length, request->mode, request->level, request->width, buffer, size, result);
    case CANONICAL:
        return library->canonical(query, length, buffer, size, result);
    case ENFORCE:
        return library->enforce(query, length, request->other, request->other_length, buffer, size, result);
    case RENAME:
        return library->rename(query, length, request->kind, request->from, request->from_length, request->to, request->to_length,
                               buffer, size, result);
    case COLLECT:
        return library->collect(query, length, buffer, size, result);
    case PLACES:
        return library->places(query, length, buffer, size, result);
    case PARTS:
        return library->parts(query, length, buffer, size, result);
    case DIFFERENCES:
        return library->differences(query, length, buffer, size, result);
    case TOKENS:
        return library->tokens(query, length, buffer, size, result);
    case WINDOWS:
        return library->windows(query, length, &request->times, buffer, size, result);
    case REACHES:
        return library->reaches(query, length, &request->times, buffer, size, result);
    case LAST_READ:
        return library->last_read(query, length, request->time, &request->times, buffer, size, result);
    case PINNED:
        return library->pinned(query, length, request->times.start, request->times.end, buffer, size, result);
    case IS_CONSTANT:
        return library->is_constant(query, length, buffer, size, result);
    case MAY_READ:
        return library->may_read(query, length, request->other, request->other_length, buffer, size, result);
    case CHECK:
        return library->check(query, length, buffer, size, result);
    case EXPLAIN:
        return library->explain(query, length, request->as_json, buffer, size, result);
    case SNIPPET:
        return library->snippet(query, length, request->start, request->end, buffer, size, result);
    case PRINT_TREE:
        return library->print_tree(query, length, request->mode, request->level, request->width, request->parentheses, buffer,
                                   size, result);
    case FORMAT_QUERY:
        return library->format_query(query, length, request->width, request->indent_width, request->spelling, buffer, size,
                                     result);
    default:
        return library->version(buffer, size, result);
    }
}

/* ---- texts of Python */

/* The state of the module, or NULL with an error where `load` was not called. */
static const struct state *state_of(PyObject *module)
{
    const struct state *state = PyModule_GetState(module);
    if (state == NULL || state->library.print == NULL) {
        PyErr_SetString(PyExc_RuntimeError, "the library is not loaded");
        return NULL;
    }
    return state;
}

/* The library of the module, or NULL with an error. */
static const struct library *library_of(PyObject *module)
{
    const struct state *state = state_of(module);
    return state == NULL ? NULL : &state->library;
}

/* A new reference to the bytes of a str, or NULL with an error. */
static PyObject *encode(PyObject *text)
{
    if (!PyUnicode_Check(text))
        return PyErr_Format(PyExc_TypeError, "expected a str, got %R", Py_TYPE(text));
    return PyUnicode_AsUTF8String(text);
}

/* The str of a call's text, or the tuple of its error. */
static PyObject *text_or_failure(const char *text, const struct promql_result *result)
{
    PyObject *decoded = PyUnicode_DecodeUTF8(text, (Py_ssize_t)result->length, NULL);
    if (decoded == NULL || result->status == PROMQL_OK)
        return decoded;
    return Py_BuildValue("(INnnnn)", (unsigned int)result->status, decoded, (Py_ssize_t)result->start, (Py_ssize_t)result->end,
                         (Py_ssize_t)result->line, (Py_ssize_t)result->column);
}

/* ---- one call */

/* A buffer, which is at first on the stack. */
struct room {
    char *start;
    size_t size;
    char small[SMALL_ROOM];
};

static void leave_room(struct room *room)
{
    if (room->start != room->small)
        PyMem_Free(room->start);
}

/* Makes room for at least so many bytes, and keeps none of those that it has. Returns 0, or -1 with an error. */
static int make_room(struct room *room, size_t size)
{
    char *start;
    leave_room(room);
    room->start = room->small;
    room->size = SMALL_ROOM;
    if (size <= SMALL_ROOM)
        return 0;
    start = PyMem_Malloc(size);
    if (start == NULL) {
        PyErr_NoMemory();
        return -1;
    }
    room->start = start;
    room->size = size;
    return 0;
}

static size_t first_room(const struct request *request)
{
    size_t likely = request->room * request->query_length;
    return FIRST_ROOM + (likely < MOST_LIKELY ? likely : MOST_LIKELY);
}

/* Whether the call takes less time than the 5 milliseconds that another thread waits for the lock before it asks for it: that is about a
 * short query without a pattern, which is neither laid out nor explained, with no other text beside it. */
static int is_quick(const struct request *request)
{
    if (request->other != NULL || request->mode == PROMQL_PRETTY || request->query_length > MOST_WITH_LOCK ||
        request->call == EXPLAIN || request->call == FORMAT_QUERY)
        return 0;
    return request->query_length == 0 || memchr(request->query, '~', request->query_length) == NULL;
}

static void call_with_room(const struct library *library, const struct request *request, struct room *room,
                           struct promql_result *result)
{
    if (is_quick(request)) {
        make_call(library, request, room->start, room->size, result);
        return;
    }
    Py_BEGIN_ALLOW_THREADS
    make_call(library, request, room->start, room->size, result);
    Py_END_ALLOW_THREADS
}

/* Makes the call with a room that is large enough. Returns 0, or -1 with an error. The caller leaves the room in either case. */
static int call_whole(const struct library *library, const struct request *request, struct room *room, struct promql_result *result)
{
    int status;
    room->start = room->small;
    result->length = first_room(request);
    do {
        status = make_room(room, result->length);
        if (status == 0)
            call_with_room(library, request, room, result);
    } while (status == 0 && result->length > room->size);
    return status;
}

/* Makes the call, and returns its text or its error. */
static PyObject *answer(const struct library *library, const struct request *request)
{
    struct room room;
    struct promql_result result;
    PyObject *made = NULL;
    if (call_whole(library, request, &room, &result) == 0)
        made = text_or_failure(room.start, &result);
    leave_room(&room);
    return made;
}

/* The answer to a request about a query, which has all but its bytes. */
static PyObject *answer_about(PyObject *module, PyObject *query, struct request request)
{
    const struct library *library = library_of(module);
    PyObject *encoded = library == NULL ? NULL : encode(query);
    PyObject *made;
    if (encoded == NULL)
        return NULL;
    request.query = PyBytes_AsString(encoded);
    request.query_length = (size_t)PyBytes_Size(encoded);
    made = answer(library, &request);
    Py_DecRef(encoded);
    return made;
}

static PyObject *canonical(PyObject *module, PyObject *query)
{
    return answer_about(module, query, (struct request){.call = CANONICAL, .room = 2});
}

static PyObject *collect(PyObject *module, PyObject *query)
{
    return answer_about(module, query, (struct request){.call = COLLECT, .room = 4});
}

static PyObject *places(PyObject *module, PyObject *query)
{
    return answer_about(module, query, (struct request){.call = PLACES, .room = 4});
}

static PyObject *parts(PyObject *module, PyObject *query)
{
    return answer_about(module, query, (struct request){.call = PARTS, .room = 8});
}

static PyObject *differences(PyObject *module, PyObject *query)
{
    return answer_about(module, query, (struct request){.call = DIFFERENCES, .room = 2});
}

static PyObject *tokens(PyObject *module, PyObject *text)
{
    return answer_about(module, text, (struct request){.call = TOKENS, .room = 16});
}

static PyObject *is_constant(PyObject *module, PyObject *query)
{
    return answer_about(module, query, (struct request){.call = IS_CONSTANT});
}

/* The answer about a query at the times beside it. */
static PyObject *answer_at_times(PyObject *module, PyObject *arguments, enum call call)
{
    PyObject *query;
    long long start, end;
    unsigned long long step, lookback, default_step;
    unsigned int left_open;
    if (!PyArg_ParseTuple(arguments, "OLLKKKI", &query, &start, &end, &step, &lookback, &default_step, &left_open))
        return NULL;
    return answer_about(module, query,
                        (struct request){.call = call, .times = {start, end, step, lookback, default_step, left_open}, .room = 4});
}

static PyObject *windows(PyObject *module, PyObject *arguments)
{
    return answer_at_times(module, arguments, WINDOWS);
}

static PyObject *reaches(PyObject *module, PyObject *arguments)
{
    return answer_at_times(module, arguments, REACHES);
}

static PyObject *last_read(PyObject *module, PyObject *arguments)
{
    PyObject *query;
    long long time, start, end;
    unsigned long long step, lookback, default_step;
    unsigned int left_open;
    if (!PyArg_ParseTuple(arguments, "OLLLKKKI", &query, &time, &start, &end, &step, &lookback, &default_step, &left_open))
        return NULL;
    return answer_about(module, query,
                        (struct request){.call = LAST_READ, .time = time, .times = {start, end, step, lookback, default_step, left_open}});
}

static PyObject *pinned(PyObject *module, PyObject *arguments)
{
    PyObject *query;
    long long start, end;
    if (!PyArg_ParseTuple(arguments, "OLL", &query, &start, &end))
        return NULL;
    return answer_about(module, query, (struct request){.call = PINNED, .times = {.start = start, .end = end}, .room = 2});
}

static PyObject *check(PyObject *module, PyObject *query)
{
    return answer_about(module, query, (struct request){.call = CHECK});
}

static PyObject *explain(PyObject *module, PyObject *query)
{
    return answer_about(module, query, (struct request){.call = EXPLAIN, .as_json = 1, .room = 2});
}

static PyObject *json(PyObject *module, PyObject *query)
{
    return answer_about(module, query, (struct request){.call = PRINT, .mode = PROMQL_JSON, .room = 32});
}

static PyObject *placed_json(PyObject *module, PyObject *query)
{
    return answer_about(module, query, (struct request){.call = PRINT, .mode = PROMQL_PLACED_JSON, .room = 40});
}

static PyObject *format(PyObject *module, PyObject *arguments)
{
    PyObject *query;
    unsigned int level;
    unsigned long long width;
    if (!PyArg_ParseTuple(arguments, "OIK", &query, &level, &width))
        return NULL;
    return answer_about(module, query,
                        (struct request){.call = PRINT, .mode = PROMQL_PRETTY, .level = level, .width = (size_t)width, .room = 4});
}

static PyObject *format_query(PyObject *module, PyObject *arguments)
{
    PyObject *query;
    unsigned long long width, indent_width;
    unsigned int spelling;
    if (!PyArg_ParseTuple(arguments, "OKKI", &query, &width, &indent_width, &spelling))
        return NULL;
    return answer_about(module, query,
                        (struct request){.call = FORMAT_QUERY, .width = (size_t)width, .indent_width = (size_t)indent_width,
                                         .spelling = spelling, .room = 4});
}

static PyObject *snippet(PyObject *module, PyObject *arguments)
{
    PyObject *query;
    unsigned long long start, end;
    if (!PyArg_ParseTuple(arguments, "OKK", &query, &start, &end))
        return NULL;
    return answer_about(module, query, (struct request){.call = SNIPPET, .start = (size_t)start, .end = (size_t)end, .room = 2});
}

static PyObject *print_tree(PyObject *module, PyObject *arguments)
{
    const struct library *library = library_of(module);
    PyObject *form;
    unsigned int mode, level, parentheses;
    unsigned long long width;
    if (library == NULL || !PyArg_ParseTuple(arguments, "OIIKI", &form, &mode, &level, &width, &parentheses))
        return NULL;
    if (library->print_tree == NULL)
        return PyErr_Format(PyExc_AttributeError, "the library has no promql_print_tree");
    return answer_about(module, form,
                        (struct request){.call = PRINT_TREE, .mode = mode, .level = level, .width = (size_t)width,
                                         .parentheses = parentheses, .room = 1});
}

/* The answer to a request about a query and another text. */
static PyObject *answer_about_both(PyObject *module, PyObject *arguments, struct request request)
{
    const struct library *library = library_of(module);
    PyObject *query, *other, *encoded, *encoded_other, *made = NULL;
    if (library == NULL || !PyArg_ParseTuple(arguments, "OO", &query, &other) || (encoded = encode(query)) == NULL)
        return NULL;
    encoded_other = encode(other);
    if (encoded_other != NULL) {
        request.query = PyBytes_AsString(encoded);
        request.query_length = (size_t)PyBytes_Size(encoded);
        request.other = PyBytes_AsString(encoded_other);
        request.other_length = (size_t)PyBytes_Size(encoded_other);
        made = answer(library, &request);
        Py_DecRef(encoded_other);
    }
    Py_DecRef(encoded);
    return made;
}

static PyObject *enforce(PyObject *module, PyObject *arguments)
{
    return answer_about_both(module, arguments, (struct request){.call = ENFORCE, .room = 2});
}

static PyObject *may_read(PyObject *module, PyObject *arguments)
{
    return answer_about_both(module, arguments, (struct request){.call = MAY_READ});
}

static PyObject *rename_in_query(PyObject *module, PyObject *arguments)
{
    const struct library *library = library_of(module);
    PyObject *query, *from, *to, *encoded_from, *encoded_to = NULL, *made = NULL;
    struct request request = {.call = RENAME, .room = 2};
    unsigned int kind;
    if (library == NULL || !PyArg_ParseTuple(arguments, "OIOO", &query, &kind, &from, &to) || (encoded_from = encode(from)) == NULL)
        return NULL;
    encoded_to = encode(to);
    if (encoded_to != NULL) {
        request.kind = kind;
        request.from = PyBytes_AsString(encoded_from);
        request.from_length = (size_t)PyBytes_Size(encoded_from);
        request.to = PyBytes_AsString(encoded_to);
        request.to_length = (size_t)PyBytes_Size(encoded_to);
        made = answer_about(module, query, request);
        Py_DecRef(encoded_to);
    }
    Py_DecRef(encoded_from);
    return made;
}

static PyObject *version(PyObject *module, PyObject *Py_UNUSED(nothing))
{
    const struct library *library = library_of(module);
    struct request request = {.call = VERSION};
    return library == NULL ? NULL : answer(library, &request);
}

static PyObject *set_limits(PyObject *module, PyObject *arguments)
{
    const struct library *library = library_of(module);
    unsigned long long max_len, max_pattern_size, max_output, max_tree;
    if (library == NULL || !PyArg_ParseTuple(arguments, "KKKK", &max_len, &max_pattern_size, &max_output, &max_tree))
        return NULL;
    library->set_limits((size_t)max_len, (size_t)max_pattern_size);
    library->set_max_output((size_t)max_output);
    library->set_max_tree((size_t)max_tree);
    ((struct state *)PyModule_GetState(module))->max_tree = (size_t)max_tree;
    return Py_BuildValue("");
}

static PyObject *set_target(PyObject *module, PyObject *number)
{
    const struct library *library = library_of(module);
    unsigned long target = PyLong_AsUnsignedLong(number);
    if (library == NULL || (target == (unsigned long)-1 && PyErr_Occurred()))
        return NULL;
    if (target > UINT32_MAX || library->set_target((uint32_t)target) != PROMQL_OK)
        return PyErr_Format(PyExc_ValueError, "no target has the number %lu", target);
    return Py_BuildValue("");
}

/* ---- nodes */

static PyObject *learn_nodes(PyObject *module, PyObject *arguments)
{
    struct state *state = PyModule_GetState(module);
    PyObject *classes, *forms;
    if (state == NULL || !PyArg_ParseTuple(arguments, "O!O!", &PyTuple_Type, &classes, &PyDict_Type, &forms))
        return NULL;
    return learn(&state->nodes, classes, forms) == 0 ? Py_BuildValue("") : NULL;
}

/* The nodes that were learned, or NULL with an error. */
static const struct nodes *nodes_of(PyObject *module)
{
    const struct state *state = state_of(module);
    if (state == NULL)
        return NULL;
    if (state->nodes.forms == NULL) {
        PyErr_SetString(PyExc_RuntimeError, "the nodes are not learned");
        return NULL;
    }
    return &state->nodes;
}

/* The tree of a text, or, where it is none of a query of this library, the text. */
static PyObject *tree_or_text(const struct nodes *nodes, const char *text, const struct promql_result *result)
{
    PyObject *tree = result->status == PROMQL_OK ? read_form(nodes, text, result->length) : NULL;
    return tree != NULL || PyErr_Occurred() ? tree : text_or_failure(text, result);
}

/* The tree of a query; the text of its form where the reader does not know it; or the tuple of an error. */
static PyObject *read_tree(PyObject *module, PyObject *query)
{
    const struct nodes *nodes = nodes_of(module);
    PyObject *encoded = nodes == NULL ? NULL : encode(query), *made = NULL;
    struct request request = {.call = PRINT, .mode = PROMQL_JSON, .room = 32};
    struct promql_result result;
    struct room room;
    if (encoded == NULL)
        return NULL;
    request.query = PyBytes_AsString(encoded);
    request.query_length = (size_t)PyBytes_Size(encoded);
    if (call_whole(library_of(module), &request, &room, &result) == 0)
        made = tree_or_text(nodes, room.start, &result);
    leave_room(&room);
    Py_DecRef(encoded);
    return made;
}

/* The tree of the text of a form; None where it is no text that the library writes. */
static PyObject *read_text_of_form(PyObject *module, PyObject *form)
{
    const struct nodes *nodes = nodes_of(module);
    PyObject *encoded = nodes == NULL ? NULL : encode(form), *made;
    if (encoded == NULL)
        return NULL;
    made = read_form(nodes, PyBytes_AsString(encoded), (size_t)PyBytes_Size(encoded));
    Py_DecRef(encoded);
    return made != NULL || PyErr_Occurred() ? made : Py_BuildValue("");
}

/* The text of a tree's form, or None where it is not written (write_form). */
static PyObject *form_text(PyObject *module, PyObject *tree)
{
    const struct nodes *nodes = nodes_of(module);
    char room[SMALL_ROOM];
    struct text text = {.start = room, .size = sizeof room, .room = room};
    PyObject *made = NULL;
    if (nodes == NULL)
        return NULL;
    if (write_form(nodes, tree, PTRDIFF_MAX, &text) == 0)
        made = PyUnicode_DecodeUTF8(text.start, (Py_ssize_t)text.length, NULL);
    else if (!PyErr_Occurred())
        made = Py_BuildValue("");
    leave_text(&text);
    return made;
}

/* The text of a tree, in parentheses where it needs them, or the tuple of an error; None where its form is not written. */
static PyObject *print_nodes(PyObject *module, PyObject *arguments)
{
    const struct nodes *nodes = nodes_of(module);
    char room[SMALL_ROOM];
    struct text text = {.start = room, .size = sizeof room, .room = room};
    struct request request = {.call = PRINT_TREE, .parentheses = 1, .room = 1};
    const struct state *state = PyModule_GetState(module);
    unsigned long long width;
    PyObject *tree, *made = NULL;
    if (nodes == NULL || !PyArg_ParseTuple(arguments, "OIIK", &tree, &request.mode, &request.level, &width))
        return NULL;
    request.width = (size_t)width;
    if (state->library.print_tree == NULL)
        return PyErr_Format(PyExc_AttributeError, "the library has no promql_print_tree");
    if (write_form(nodes, tree, state->max_tree, &text) == 0) {
        request.query = text.start;
        request.query_length = text.length;
        made = answer(&state->library, &request);
    } else if (!PyErr_Occurred()) {
        made = Py_BuildValue("");
    }
    leave_text(&text);
    return made;
}

/* ---- many queries */

/* Queries that are read together, while the lock is released. One that has no bytes in UTF-8 has NULL for them. */
struct batch {
    Py_ssize_t count;
    size_t bytes;
    PyObject *queries[BATCH];
    PyObject *encoded[BATCH];
    const char *starts[BATCH];
    size_t lengths[BATCH];
    struct promql_result results[BATCH];
};

static void empty_batch(struct batch *batch)
{
    for (Py_ssize_t i = 0; i < batch->count; i++) {
        Py_DecRef(batch->queries[i]);
        Py_DecRef(batch->encoded[i]);
    }
    batch->count = 0;
    batch->bytes = 0;
}

/* Puts a query, whose reference it takes, into the batch. Returns 0, or -1 with an error. */
static int add_query(struct batch *batch, PyObject *query)
{
    PyObject *encoded = encode(query);
    if (encoded == NULL && !PyErr_ExceptionMatches(PyExc_UnicodeEncodeError)) {
        Py_DecRef(query);
        return -1;
    }
    PyErr_Clear();
    batch->queries[batch->count] = query;
    batch->encoded[batch->count] = encoded;
    batch->starts[batch->count] = encoded == NULL ? NULL : PyBytes_AsString(encoded);
    batch->lengths[batch->count] = encoded == NULL ? 0 : (size_t)PyBytes_Size(encoded);
    batch->bytes += batch->lengths[batch->count];
    batch->count++;
    return 0;
}

/* Takes queries from the iterator until the batch is full. Returns 0, or -1 with an error. */
static int fill_batch(struct batch *batch, PyObject *iterator)
{
    while (batch->count < BATCH && batch->bytes < BATCH_BYTES) {
        PyObject *query = PyIter_Next(iterator);
        if (query == NULL)
            return PyErr_Occurred() ? -1 : 0;
        if (add_query(batch, query) != 0)
            return -1;
    }
    return 0;
}

/* Prints the queries from `first` on into the room, one after the other, as far as it goes. Returns the number of the first whose text does
 * not fit, and needs the room of its result; or how many there are. */
static Py_ssize_t print_batch(const struct library *library, struct batch *batch, Py_ssize_t first, struct room *room)
{
    size_t used = 0;
    Py_ssize_t i;
    for (i = first; i < batch->count; i++) {
        struct promql_result *result = &batch->results[i];
        *result = (struct promql_result){.status = PROMQL_NOT_UTF8};
        if (batch->starts[i] != NULL)
            library->canonical(batch->starts[i], batch->lengths[i], room->start + used, room->size - used, result);
        if (result->length > room->size - used)
            break;
        used += result->length;
    }
    return i;
}

/* Adds a line, or None and the number, the query and the error to the failures. Returns 0, or -1 with an error. */
static int add_line(PyObject *lines, PyObject *failures, PyObject *query, PyObject *made)
{
    PyObject *failure;
    int status;
    if (PyUnicode_Check(made))
        return PyList_Append(lines, made);
    failure = Py_BuildValue("(nOO)", PyList_Size(lines), query, made);
    status = failure == NULL ? -1 : PyList_Append(failures, failure);
    Py_DecRef(failure);
    return status == 0 ? PyList_Append(lines, Py_None) : -1;
}

/* Adds what the queries from `first` up to `end` gave. Returns 0, or -1 with an error. */
static int add_lines(PyObject *lines, PyObject *failures, const struct batch *batch, Py_ssize_t first, Py_ssize_t end,
                     const char *text)
{
    for (Py_ssize_t i = first; i < end; i++) {
        const struct promql_result *result = &batch->results[i];
        PyObject *made = batch->encoded[i] == NULL ? Py_BuildValue("") : text_or_failure(text, result);
        int status = made == NULL ? -1 : add_line(lines, failures, batch->queries[i], made);
        Py_DecRef(made);
        if (status != 0)
            return -1;
        text += result->length;
    }
    return 0;
}

/* Adds what the queries of the batch give. Returns 0, or -1 with an error. */
static int add_batch(const struct library *library, struct batch *batch, struct room *room, PyObject *lines, PyObject *failures)
{
    Py_ssize_t first = 0;
    while (first < batch->count) {
        Py_ssize_t end;
        Py_BEGIN_ALLOW_THREADS
        end = print_batch(library, batch, first, room);
        Py_END_ALLOW_THREADS
        if (add_lines(lines, failures, batch, first, end, room->start) != 0)
            return -1;
        if (end < batch->count && batch->results[end].length > room->size && make_room(room, batch->results[end].length) != 0)
            return -1;
        first = end;
    }
    return PyErr_CheckSignals();
}

static int add_all(const struct library *library, PyObject *iterator, PyObject *lines, PyObject *failures)
{
    struct batch batch;
    struct room room;
    int status;
    batch.count = 0;
    batch.bytes = 0;
    room.start = room.small;
    status = make_room(&room, BATCH_BYTES);
    while (status == 0) {
        status = fill_batch(&batch, iterator);
        if (status != 0 || batch.count == 0)
            break;
        status = add_batch(library, &batch, &room, lines, failures);
        empty_batch(&batch);
    }
    empty_batch(&batch);
    leave_room(&room);
    return status;
}

/* The lines of all queries, with None where there is none, and for each of these its number, the query, and the error: None for a query
 * that has no bytes in UTF-8. */
static PyObject *canonical_many(PyObject *module, PyObject *queries)
{
    const struct library *library = library_of(module);
    PyObject *iterator = library == NULL ? NULL : PyObject_GetIter(queries);
    PyObject *lines = PyList_New(0), *failures = PyList_New(0), *made = NULL;
    if (iterator != NULL && lines != NULL && failures != NULL && add_all(library, iterator, lines, failures) == 0)
        made = Py_BuildValue("(OO)", lines, failures);
    Py_DecRef(iterator);
    Py_DecRef(lines);
    Py_DecRef(failures);
    return made;
}

/* ---- YAML */

/* The events of a text (read_events), of so many nodes and levels at most. */
static PyObject *yaml_events(PyObject *Py_UNUSED(module), PyObject *arguments)
{
    PyObject *text, *encoded, *made;
    Py_ssize_t most, levels;
    if (!PyArg_ParseTuple(arguments, "Onn", &text, &most, &levels) || (encoded = encode(text)) == NULL)
        return NULL;
    made = read_events(PyBytes_AsString(encoded), (size_t)PyBytes_Size(encoded), most, levels);
    Py_DecRef(encoded);
    return made;
}

/* ---- the module */

/* Finds a call of the library. Returns 0, or -1 with an error. */
static int find(void *handle, const char *name, void *function)
{
    void *found = dlsym(handle, name);
    if (found == NULL) {
        PyErr_Format(PyExc_ImportError, "the library has no %s", name);
        return -1;
    }
    memcpy(function, &found, sizeof found);
    return 0;
}

/* Opens the library at a path, which is never closed. */
static PyObject *load(PyObject *module, PyObject *path)
{
    struct state *state = PyModule_GetState(module);
    struct library found;
    char *name = PyBytes_AsString(path);
    void *handle;
    if (name == NULL)
        return NULL;
    if (state == NULL)
        return PyErr_Format(PyExc_RuntimeError, "the module is not executed");
    handle = dlopen(name, RTLD_NOW | RTLD_LOCAL);
    if (handle == NULL)
        return PyErr_Format(PyExc_ImportError, "%s", dlerror());
    if (find(handle, "promql_print", &found.print) || find(handle, "promql_canonical", &found.canonical) ||
        find(handle, "promql_enforce", &found.enforce) || find(handle, "promql_rename", &found.rename) ||
        find(handle, "promql_collect", &found.collect) || find(handle, "promql_places", &found.places) ||
        find(handle, "promql_parts", &found.parts) || find(handle, "promql_tokens", &found.tokens) ||
        find(handle, "promql_differences", &found.differences) || find(handle, "promql_windows", &found.windows) ||
        find(handle, "promql_last_read", &found.last_read) || find(handle, "promql_pinned", &found.pinned) ||
        find(handle, "promql_is_constant", &found.is_constant) || find(handle, "promql_reaches", &found.reaches) ||
        find(handle, "promql_may_read", &found.may_read) ||
        find(handle, "promql_check", &found.check) || find(handle, "promql_explain", &found.explain) ||
        find(handle, "promql_snippet", &found.snippet) ||
        find(handle, "promql_version", &found.version) || find(handle, "promql_set_limits", &found.set_limits) ||
        find(handle, "promql_set_max_output", &found.set_max_output) ||
        find(handle, "promql_set_max_tree", &found.set_max_tree) || find(handle, "promql_set_target", &found.set_target) ||
        find(handle, "promql_format_query", &found.format_query))
        return NULL;
    /* (an older library has none) */
    if (find(handle, "promql_print_tree", &found.print_tree)) {
        PyErr_Clear();
        found.print_tree = NULL;
    }
    state->library = found;
    state->max_tree = MAX_TREE;
    return Py_BuildValue("");
}

static int traverse(PyObject *module, visitproc visit, void *arg)
{
    struct state *state = PyModule_GetState(module);
    return state == NULL ? 0 : visit_nodes(&state->nodes, visit, arg);
}

static int clear(PyObject *module)
{
    struct state *state = PyModule_GetState(module);
    if (state != NULL)
        forget_nodes(&state->nodes);
    return 0;
}

static void release(void *module)
{
    clear(module);
}

static PyMethodDef methods[] = {
    {"load", load, METH_O, "Opens the library at this path, in bytes."},
    {"canonical", canonical, METH_O, NULL},
    {"canonical_many", canonical_many, METH_O, NULL},
    {"check", check, METH_O, NULL},
    {"collect", collect, METH_O, NULL},
    {"differences", differences, METH_O, NULL},
    {"enforce", enforce, METH_VARARGS, NULL},
    {"explain", explain, METH_O, NULL},
    {"form_text", form_text, METH_O, NULL},
    {"format", format, METH_VARARGS, NULL},
    {"format_query", format_query, METH_VARARGS, NULL},
    {"is_constant", is_constant, METH_O, NULL},
    {"json", json, METH_O, NULL},
    {"last_read", last_read, METH_VARARGS, NULL},
    {"learn_nodes", learn_nodes, METH_VARARGS, NULL},
    {"may_read", may_read, METH_VARARGS, NULL},
    {"parts", parts, METH_O, NULL},
    {"placed_json", placed_json, METH_O, NULL},
    {"pinned", pinned, METH_VARARGS, NULL},
    {"places", places, METH_O, NULL},
    {"print_nodes", print_nodes, METH_VARARGS, NULL},
    {"print_tree", print_tree, METH_VARARGS, NULL},
    {"reaches", reaches, METH_VARARGS, NULL},
    {"read_form", read_text_of_form, METH_O, NULL},
    {"read_tree", read_tree, METH_O, NULL},
    {"rename", rename_in_query, METH_VARARGS, NULL},
    {"set_limits", set_limits, METH_VARARGS, NULL},
    {"set_target", set_target, METH_O, NULL},
    {"snippet", snippet, METH_VARARGS, NULL},
    {"tokens", tokens, METH_O, NULL},
    {"version", version, METH_NOARGS, NULL},
    {"windows", windows, METH_VARARGS, NULL},
    {"yaml_events", yaml_events, METH_VARARGS, NULL},
    {NULL, NULL, 0, NULL},
};

static struct PyModuleDef definition = {
    PyModuleDef_HEAD_INIT,
    .m_name = "promql._native",
    .m_doc = "The calls of libpromql.so over str.",
    .m_size = sizeof(struct state),
    .m_methods = methods,
    .m_slots = (PyModuleDef_Slot[]){{0, NULL}},
    .m_traverse = traverse,
    .m_clear = clear,
    .m_free = release,
};

PyMODINIT_FUNC PyInit__native(void)
{
    return PyModuleDef_Init(&definition);
}
