/* What the extension learns of the nodes of promql.tree. */
#include "_native.h"

#include <string.h>

const char *const word_texts[WORDS] = {"\"=\"", "\"!=\"", "\"=~\"", "\"!~\"", "\"start\"", "\"end\"", "\"smoothed\"", "\"anchored\"",
                                       "\"many-to-many\"", "\"one-to-one\""};

/* Replaces a reference to an object, which may be NULL, by one to another. */
static void set(PyObject **place, PyObject *object)
{
    PyObject *before = *place;
    Py_IncRef(object);
    *place = object;
    Py_DecRef(before);
}

/* Learns a class, and the names of its fields, of a tuple of both. Returns 0, or -1 with an error. */
static int learn_class(struct node_class *class, PyObject *class_and_fields)
{
    PyObject *type, *names;
    if (!PyArg_ParseTuple(class_and_fields, "O!O!", &PyType_Type, &type, &PyTuple_Type, &names))
        return -1;
    if (PyTuple_Size(names) > MOST_FIELDS) {
        PyErr_SetString(PyExc_ValueError, "a class has too many fields");
        return -1;
    }
    set(&class->type, type);
    class->count = (int)PyTuple_Size(names);
    for (int i = 0; i < class->count; i++)
        set(&class->names[i], PyTuple_GetItem(names, i));
    return 0;
}

/* Makes the words. Returns 0, or -1 with an error. */
static int learn_words(struct nodes *nodes)
{
    for (int i = 0; i < WORDS; i++) {
        PyObject *word = PyUnicode_FromStringAndSize(word_texts[i] + 1, (Py_ssize_t)strlen(word_texts[i]) - 2);
        if (word == NULL)
            return -1;
        PyUnicode_InternInPlace(&word);
        set(&nodes->words[i], word);
        Py_DecRef(word);
    }
    return 0;
}

/* The dictionary of the values, with the keys. */
static PyObject *turned(PyObject *dictionary)
{
    PyObject *made = PyDict_New(), *key, *value;
    Py_ssize_t at = 0;
    while (made != NULL && PyDict_Next(dictionary, &at, &key, &value)) {
        if (!PyBytes_Check(value))
            PyErr_SetString(PyExc_TypeError, "a form is no bytes");
        else if (PyDict_SetItem(made, value, key) == 0)
            continue;
        Py_DecRef(made);
        made = NULL;
    }
    return made;
}

int learn(struct nodes *nodes, PyObject *classes, PyObject *forms)
{
    PyObject *names;
    if (PyTuple_Size(classes) != KINDS) {
        PyErr_Format(PyExc_ValueError, "expected %d classes", (int)KINDS);
        return -1;
    }
    for (int i = 0; i < KINDS; i++)
        if (learn_class(&nodes->classes[i], PyTuple_GetItem(classes, i)) != 0)
            return -1;
    if (learn_words(nodes) != 0 || (names = turned(forms)) == NULL)
        return -1;
    set(&nodes->names, names);
    set(&nodes->forms, forms);
    Py_DecRef(names);
    return 0;
}

int visit_nodes(struct nodes *nodes, visitproc visit, void *arg)
{
    for (int i = 0; i < KINDS; i++)
        Py_VISIT(nodes->classes[i].type);
    Py_VISIT(nodes->forms);
    Py_VISIT(nodes->names);
    return 0;
}

void forget_nodes(struct nodes *nodes)
{
    for (int i = 0; i < KINDS; i++) {
        set(&nodes->classes[i].type, NULL);
        for (int j = 0; j < MOST_FIELDS; j++)
            set(&nodes->classes[i].names[j], NULL);
    }
    for (int i = 0; i < WORDS; i++)
        set(&nodes->words[i], NULL);
    set(&nodes->forms, NULL);
    set(&nodes->names, NULL);
}
