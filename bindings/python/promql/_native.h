/* What the files of the extension share: the classes of the nodes of promql.tree, what reads them of the library's JSON text, and what
 * writes that text of them; and what reads YAML. */
#define Py_LIMITED_API 0x03080000
#define PY_SSIZE_T_CLEAN
#include <Python.h>

/* The classes of nodes and of their parts, in the order in which _printing.py gives them. */
enum kind { AGGREGATION, BINARY, CALL, NUMBER, PAREN, RANGE_SELECTOR, SELECTOR, STRING, SUBQUERY, UNARY, MATCHER, MATCHING, MANY_TO_ONE,
            ONE_TO_MANY, KINDS };

/* The words that are the same object wherever they are in trees. */
enum word { EQUAL, NOT_EQUAL, MATCHES, NO_MATCH, START, END, SMOOTHED, ANCHORED, MANY_TO_MANY, ONE_TO_ONE, WORDS };

enum { MOST_FIELDS = 7 };

struct node_class {
    PyObject *type;
    /* The names of its fields, and how many there are. */
    PyObject *names[MOST_FIELDS];
    int count;
};

/* What is known of the nodes; all NULL before they are learned. */
struct nodes {
    struct node_class classes[KINDS];
    PyObject *words[WORDS];
    /* The form of each function, bytes, by its name; and the names by the forms. */
    PyObject *forms;
    PyObject *names;
};

/* The texts of the words, as JSON. */
extern const char *const word_texts[WORDS];

/* Learns the classes, in the order of `enum kind`, each a tuple of the class and the names of its fields; and of a dictionary the forms of the
 * functions. Returns 0, or -1 with an error. */
int learn(struct nodes *nodes, PyObject *classes, PyObject *forms);

/* What the garbage collector asks of a module. */
int visit_nodes(struct nodes *nodes, visitproc visit, void *arg);
void forget_nodes(struct nodes *nodes);

/* The tree of the text of a form. NULL with an error where there is no memory; NULL without one where the text is no form that the library
 * writes of a query: _printing.py then reads it, and tells what is wrong. */
PyObject *read_form(const struct nodes *nodes, const char *text, size_t length);

/* A text that grows, which is at first in the caller's room. */
struct text {
    char *start;
    size_t length;
    size_t size;
    char *room;
};

void leave_text(struct text *text);

/* Writes the form of a tree, as the library would write it, of at most so many bytes. Returns 0. -1 with an error where there is no memory;
 * -1 without one where it is not written: it is longer, deeper than the library reads, or not of these classes with fields of their types.
 * _printing.py then writes it, and tells what is wrong. */
int write_form(const struct nodes *nodes, PyObject *tree, size_t most, struct text *text);

/* The events of a YAML text in UTF-8, as libyaml tells them, in a list of tuples, or None where there is no libyaml; NULL with an error where
 * there is no memory. The list ends with the first node beyond so many, or the first list or mapping within so many, or with what is wrong.
 *
 * Each tuple has the kind, "scalar", "mapping", "sequence", "alias", "end", "document" or "error"; the text of a scalar, or the problem; a
 * quote, `|` or `>`, or `{` for a collection in braces or brackets; the anchor, or that which an alias names; the tag; and where it begins and
 * ends, and the column of its begin, all in characters. What there is none of is an empty str or 0. An end has no place. */
PyObject *read_events(const char *text, size_t length, Py_ssize_t most, Py_ssize_t levels);
