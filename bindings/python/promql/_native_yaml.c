/* Reads the events of a YAML text by libyaml. That is opened when it is first asked for, and nothing is linked against it, so that the
 * extension loads where there is none. Where <yaml.h> is missing when this is compiled, there is no reader. */
#include "_native.h"

#if defined __has_include
#if __has_include(<yaml.h>)
#define HAS_YAML_H
#endif
#endif

#ifdef HAS_YAML_H
#include <yaml.h>

#include <dlfcn.h>
#include <string.h>

/* The functions of libyaml that are called. */
struct libyaml {
    __typeof__(yaml_get_version) *get_version;
    __typeof__(yaml_parser_initialize) *initialize;
    __typeof__(yaml_parser_set_input_string) *set_input;
    __typeof__(yaml_parser_parse) *parse;
    __typeof__(yaml_event_delete) *delete_event;
    __typeof__(yaml_parser_delete) *delete_parser;
};

enum event_kind { SCALAR_EVENT, MAPPING_EVENT, SEQUENCE_EVENT, ALIAS_EVENT, END_EVENT, DOCUMENT_EVENT, ERROR_EVENT, EVENT_KINDS };

/* What is read, and the objects that its events share: their kinds, the text of what there is none of, and the whole event where a list or a
 * mapping ends. */
struct events {
    PyObject *list;
    PyObject *kinds[EVENT_KINDS];
    PyObject *empty;
    PyObject *end;
    /* How many nodes more are read, and how many levels deeper; less than 0 after the last one. */
    Py_ssize_t nodes_left;
    Py_ssize_t levels_left;
};

static const char *const kind_texts[EVENT_KINDS] = {"scalar", "mapping", "sequence", "alias", "end", "document", "error"};

/* What a scalar of each style begins with, or NULL. */
static const char *const signs[] = {
    [YAML_PLAIN_SCALAR_STYLE] = NULL,
    [YAML_SINGLE_QUOTED_SCALAR_STYLE] = "'",
    [YAML_DOUBLE_QUOTED_SCALAR_STYLE] = "\"",
    [YAML_LITERAL_SCALAR_STYLE] = "|",
    [YAML_FOLDED_SCALAR_STYLE] = ">",
};

/* ---- libyaml */

/* Finds a function of libyaml. Returns whether it is there. */
static int finds(void *handle, const char *name, void *function)
{
    void *found = dlsym(handle, name);
    memcpy(function, &found, sizeof found);
    return found != NULL;
}

/* Opens libyaml, which is never closed. Returns whether it has the structs of <yaml.h>, as each one of version 0.2 has. */
static int open_libyaml(struct libyaml *library)
{
    int major, minor, patch;
    void *handle = dlopen("libyaml-0.so.2", RTLD_NOW | RTLD_LOCAL);
    if (handle == NULL || !finds(handle, "yaml_get_version", &library->get_version) ||
        !finds(handle, "yaml_parser_initialize", &library->initialize) ||
        !finds(handle, "yaml_parser_set_input_string", &library->set_input) || !finds(handle, "yaml_parser_parse", &library->parse) ||
        !finds(handle, "yaml_event_delete", &library->delete_event) || !finds(handle, "yaml_parser_delete", &library->delete_parser))
        return 0;
    library->get_version(&major, &minor, &patch);
    return major == 0 && minor == 2;
}

/* libyaml, or NULL where there is none. It is looked for once. */
static const struct libyaml *find_libyaml(void)
{
    static enum { UNKNOWN, MISSING, FOUND } state = UNKNOWN;
    static struct libyaml library;
    if (state == UNKNOWN)
        state = open_libyaml(&library) ? FOUND : MISSING;
    return state == FOUND ? &library : NULL;
}

/* ---- events */

static PyObject *new_reference(PyObject *object)
{
    Py_IncRef(object);
    return object;
}

/* A text of libyaml that ends with a zero, or an empty one for NULL. */
static PyObject *text_of(const struct events *events, const void *text)
{
    return text == NULL ? new_reference(events->empty) : PyUnicode_DecodeUTF8(text, (Py_ssize_t)strlen(text), NULL);
}

/* A tuple of an event. It takes the reference of the value, and returns NULL with an error where that is NULL. */
static PyObject *make_event(const struct events *events, enum event_kind kind, PyObject *value, const char *style, const void *anchor,
                            const void *tag, size_t start, size_t end, size_t column)
{
    PyObject *const fields[] = {new_reference(events->kinds[kind]), value, text_of(events, style), text_of(events, anchor),
                                text_of(events, tag), PyLong_FromSize_t(start), PyLong_FromSize_t(end), PyLong_FromSize_t(column)};
    enum { FIELDS = sizeof fields / sizeof *fields };
    PyObject *tuple = PyTuple_New(FIELDS);
    int is_whole = tuple != NULL;
    for (int i = 0; i < FIELDS; i++) {
        is_whole = is_whole && fields[i] != NULL;
        if (tuple != NULL)
            PyTuple_SetItem(tuple, i, fields[i]);
        else
            Py_DecRef(fields[i]);
    }
    if (is_whole)
        return tuple;
    Py_DecRef(tuple);
    return NULL;
}

/* An event that is no node, with its place. */
static PyObject *make_sign(const struct events *events, enum event_kind kind, PyObject *value, size_t index)
{
    return make_event(events, kind, value, NULL, NULL, NULL, index, index, 0);
}

static PyObject *make_node(struct events *events, const yaml_event_t *event, enum event_kind kind, PyObject *value, const char *style,
                           const yaml_char_t *anchor, const yaml_char_t *tag)
{
    events->nodes_left--;
    return make_event(events, kind, value, style, anchor, tag, event->start_mark.index, event->end_mark.index, event->start_mark.column);
}

/* The first event of a list or a mapping. */
static PyObject *make_begin(struct events *events, const yaml_event_t *event, enum event_kind kind, int is_flow, const yaml_char_t *anchor,
                            const yaml_char_t *tag)
{
    events->levels_left--;
    return make_node(events, event, kind, new_reference(events->empty), is_flow ? "{" : NULL, anchor, tag);
}

/* A new reference to what is told of an event that has a meaning here, or NULL with an error. */
static PyObject *told_event(struct events *events, const yaml_event_t *event)
{
    switch (event->type) {
    case YAML_SCALAR_EVENT:
        return make_node(events, event, SCALAR_EVENT,
                         PyUnicode_DecodeUTF8((const char *)event->data.scalar.value, (Py_ssize_t)event->data.scalar.length, NULL),
                         signs[event->data.scalar.style], event->data.scalar.anchor, event->data.scalar.tag);
    case YAML_ALIAS_EVENT:
        return make_node(events, event, ALIAS_EVENT, new_reference(events->empty), NULL, event->data.alias.anchor, NULL);
    case YAML_SEQUENCE_START_EVENT:
        return make_begin(events, event, SEQUENCE_EVENT, event->data.sequence_start.style == YAML_FLOW_SEQUENCE_STYLE,
                          event->data.sequence_start.anchor, event->data.sequence_start.tag);
    case YAML_MAPPING_START_EVENT:
        return make_begin(events, event, MAPPING_EVENT, event->data.mapping_start.style == YAML_FLOW_MAPPING_STYLE,
                          event->data.mapping_start.anchor, event->data.mapping_start.tag);
    case YAML_DOCUMENT_START_EVENT:
        return make_sign(events, DOCUMENT_EVENT, new_reference(events->empty), event->start_mark.index);
    default:
        events->levels_left++;
        return new_reference(events->end);
    }
}

/* The error of libyaml, or NULL with one of Python where there is no memory. */
static PyObject *told_error(const struct events *events, const yaml_parser_t *parser)
{
    if (parser->error == YAML_MEMORY_ERROR)
        return PyErr_NoMemory();
    return make_sign(events, ERROR_EVENT, text_of(events, parser->problem), parser->problem_mark.index);
}

/* The error of Python that is set, as the last event, where it is that the bytes of a tag are no text; or else NULL, and it stays. */
static PyObject *told_exception(struct events *events)
{
    PyObject *type, *error, *trace, *message;
    if (!PyErr_ExceptionMatches(PyExc_UnicodeDecodeError))
        return NULL;
    events->nodes_left = -1;
    PyErr_Fetch(&type, &error, &trace);
    PyErr_NormalizeException(&type, &error, &trace);
    message = PyObject_Str(error);
    Py_DecRef(type);
    Py_DecRef(error);
    Py_DecRef(trace);
    return make_sign(events, ERROR_EVENT, message, 0);
}

/* Adds an event, whose reference it takes. Returns 0, or -1 with an error. */
static int add(struct events *events, PyObject *event)
{
    int status;
    if (event == NULL && (event = told_exception(events)) == NULL)
        return -1;
    status = PyList_Append(events->list, event);
    Py_DecRef(event);
    return status;
}

static int has_meaning(yaml_event_type_t type)
{
    return type != YAML_STREAM_START_EVENT && type != YAML_DOCUMENT_END_EVENT && type != YAML_STREAM_END_EVENT;
}

/* Adds the events of the parser's text, up to the first error or beyond a bound. Returns 0, or -1 with an error. */
static int add_all(const struct libyaml *library, yaml_parser_t *parser, struct events *events)
{
    yaml_event_type_t type;
    int status = 0;
    do {
        yaml_event_t event;
        if (!library->parse(parser, &event))
            return add(events, told_error(events, parser));
        type = event.type;
        if (has_meaning(type))
            status = add(events, told_event(events, &event));
        library->delete_event(&event);
    } while (status == 0 && type != YAML_STREAM_END_EVENT && events->nodes_left >= 0 && events->levels_left >= 0);
    return status;
}

/* Makes what the events share. Returns 0, or -1 with an error. */
static int make_shared(struct events *events)
{
    for (int i = 0; i < EVENT_KINDS; i++)
        if ((events->kinds[i] = PyUnicode_InternFromString(kind_texts[i])) == NULL)
            return -1;
    events->empty = PyUnicode_FromString("");
    if (events->empty != NULL)
        events->end = make_sign(events, END_EVENT, new_reference(events->empty), 0);
    return events->end == NULL ? -1 : 0;
}

/* Adds the events of a text to the list. Returns 0, or -1 with an error. */
static int parse(const struct libyaml *library, const char *text, size_t length, struct events *events)
{
    yaml_parser_t parser;
    int status;
    if (!library->initialize(&parser)) {
        PyErr_NoMemory();
        return -1;
    }
    library->set_input(&parser, (const unsigned char *)text, length);
    status = add_all(library, &parser, events);
    library->delete_parser(&parser);
    return status;
}

PyObject *read_events(const char *text, size_t length, Py_ssize_t most, Py_ssize_t levels)
{
    const struct libyaml *library = find_libyaml();
    struct events events = {.nodes_left = most, .levels_left = levels};
    if (library == NULL)
        return Py_BuildValue("");
    events.list = PyList_New(0);
    if (events.list != NULL && (make_shared(&events) != 0 || parse(library, text, length, &events) != 0)) {
        Py_DecRef(events.list);
        events.list = NULL;
    }
    for (int i = 0; i < EVENT_KINDS; i++)
        Py_DecRef(events.kinds[i]);
    Py_DecRef(events.empty);
    Py_DecRef(events.end);
    return events.list;
}

#else

PyObject *read_events(const char *Py_UNUSED(text), size_t Py_UNUSED(length), Py_ssize_t Py_UNUSED(most), Py_ssize_t Py_UNUSED(levels))
{
    return Py_BuildValue("");
}

#endif
