/* The module `_jskw`, on which the package `jskw` stands: a class `Schema` over the handles of include/jskw.h, and the
 * JSON texts of Python's values. It keeps to the stable ABI, so one wheel serves CPython 3.9 and all later ones. */
#define PY_SSIZE_T_CLEAN
#include <Python.h>

#include <math.h>
#include <string.h>

#include "jskw.h"

/* Both are in the stable ABI from 3.10 on, and 3.9, of which there will be no other version, has them as well. */
PyAPI_FUNC(const char *) PyUnicode_AsUTF8AndSize(PyObject *text, Py_ssize_t *size);
#ifndef METH_FASTCALL
#define METH_FASTCALL 0x0080
#endif

enum {
    DEPTH = 127,    /* the most levels that the library reads */
    LONG = 2048,    /* a text of so many bytes is checked without the interpreter's lock; to pass the lock on takes
                     * longer than to check a shorter one */
    FIRST = 1 << 16, /* the bytes of the first buffer for an answer */
    KEPT = 1 << 20, /* the most bytes of a buffer that are kept between calls */
    MANY = 1 << 18, /* for so many errors there is room at once */
    NAMES = 32      /* for so many names of members the texts are kept */
};

static const char ALLOWED[] = "which JSON allows and jskw does not";

/* The class Decimal, its own `__str__`, and the name of an attribute of errors. */
static PyObject *decimal, *decimal_text, *told_name;

/* ---- buffers */

struct block {
    uint8_t *bytes;
    size_t size, room;
};

static int grow(struct block *block, size_t more) {
    size_t room = block->size + more < 2 * block->room ? 2 * block->room : block->size + more + 1024;
    uint8_t *bytes = PyMem_Realloc(block->bytes, room);
    if (bytes == NULL) return PyErr_NoMemory() != NULL;
    block->bytes = bytes;
    block->room = room;
    return 1;
}

/* Makes room for `more` bytes behind those that are there; raises MemoryError and returns 0 if there are none. */
static inline int reserve(struct block *block, size_t more) {
    return block->room - block->size >= more || grow(block, more);
}

static int append(struct block *block, const char *bytes, size_t size) {
    if (!reserve(block, size)) return 0;
    memcpy(block->bytes + block->size, bytes, size);
    block->size += size;
    return 1;
}

static inline int put(struct block *block, char byte) {
    if (!reserve(block, 1)) return 0;
    block->bytes[block->size++] = byte;
    return 1;
}

static void drop_block(struct block *block, size_t most) {
    if (block->room <= most) return;
    PyMem_Free(block->bytes);
    *block = (struct block){0};
}

/* ---- the text of a value */

/* The text of a name with its colon, by the object that it is: objects often have the same names. */
struct name { PyObject *name; size_t size; char text[48]; };

/* A text, and if it is refused the reason and the path, from its end to its beginning. */
struct writer {
    struct block *out;
    struct name *names;
    PyObject *reason, *path;
};

static int write_whole(struct writer *writer, PyObject *value, int depth);

/* Returns 0, as all that fails to write does: with a reason, or an exception of its own. */
static int refuse(struct writer *writer, const char *format, ...) {
    va_list words;
    va_start(words, format);
    writer->path = PyList_New(0);
    writer->reason = writer->path ? PyUnicode_FromFormatV(format, words) : NULL;
    va_end(words);
    return 0;
}

/* Says that what was refused stands at a step, a name or an index; takes over the reference. */
static int at_step(struct writer *writer, PyObject *step) {
    if (step && writer->reason && PyList_Append(writer->path, step) < 0) PyErr_Clear();
    Py_XDECREF(step);
    return 0;
}

/* The bytes that stand for themselves in a string. */
static const char PLAIN[256] = {[' ' ... '!'] = 1, ['#' ... '['] = 1, [']' ... 255] = 1};

/* Returns whether the eight bytes of a word do. */
static inline int are_plain(uint64_t bytes) {
    const uint64_t each = 0x0101010101010101u;
    uint64_t quotes = bytes ^ each * '"', slashes = bytes ^ each * '\\';
    uint64_t found = ((bytes - each * ' ') & ~bytes) | ((quotes - each) & ~quotes) | ((slashes - each) & ~slashes);
    return !(found & each << 7);
}

/* Copies up to eight bytes, and returns whether they do. */
static inline int copy_plain(uint8_t *to, const unsigned char *at, size_t size) {
    uint64_t bytes = 0x2020202020202020u;
    if (size >= 8) {
        memcpy(&bytes, at, 8);
    } else if (size >= 4) {
        memcpy(&bytes, at, 4);
        memcpy((char *)&bytes + 4, at + size - 4, 4);
        memcpy(to + size - 4, at + size - 4, 4);
    } else if (size) {
        char three[] = {at[0], at[size / 2], at[size - 1]};
        to[size / 2] = three[1];
        to[size - 1] = three[2];
        memcpy(&bytes, three, 3);
    }
    memcpy(to, &bytes, size < 4 ? size > 0 : size < 8 ? 4 : 8);
    return are_plain(bytes);
}

/* Writes a string, and a byte behind it if that is not 0. */
static int write_string(struct writer *writer, PyObject *string, char after) {
    Py_ssize_t size;
    const unsigned char *at = (const unsigned char *)PyUnicode_AsUTF8AndSize(string, &size);
    if (at == NULL) {
        if (!PyErr_ExceptionMatches(PyExc_UnicodeEncodeError)) return 0;
        PyErr_Clear();
        return refuse(writer, "has the escape of a lone surrogate, %s", ALLOWED);
    }
    const unsigned char *end = at + size;
    struct block *out = writer->out;
    if (!reserve(out, size + 3)) return 0;
    uint8_t *to = out->bytes + out->size;
    for (*to++ = '"';; at++) {
        for (size_t part; at < end && copy_plain(to, at, part = end - at < 8 ? end - at : 8); at += part) to += part;
        for (; at < end && PLAIN[*at]; at++) *to++ = *at;
        if (at == end) break;
        out->size = to - out->bytes;
        if (!reserve(out, end - at + 8)) return 0;
        to = out->bytes + out->size;
        to += sprintf((char *)to, *at < ' ' ? "\\u%04x" : "\\%c", *at);
    }
    *to++ = '"';
    if (after) *to++ = after;
    out->size = to - out->bytes;
    return 1;
}

/* Writes number / 10^decimals. */
static int write_digits(struct writer *writer, long long number, int decimals) {
    char digits[32], *at = digits + sizeof digits;
    unsigned long long rest = number < 0 ? 0 - (unsigned long long)number : (unsigned long long)number;
    for (int count = 0; rest || count <= decimals; count++, rest /= 10) {
        if (count && count == decimals) *--at = '.';
        *--at = '0' + rest % 10;
    }
    if (number < 0) *--at = '-';
    return append(writer->out, at, digits + sizeof digits - at);
}

/* Writes the text of a number, unless it could not be made; takes over the reference. */
static int write_text(struct writer *writer, PyObject *text, const char *kind) {
    Py_ssize_t size;
    const char *digits = text ? PyUnicode_AsUTF8AndSize(text, &size) : NULL;
    int written = 0;
    if (digits && strspn(digits, "0123456789+-.eE") == (size_t)size)
        written = append(writer->out, digits, size);
    else if (digits)
        refuse(writer, "is not JSON: the %s %s is no number", kind, digits);
    Py_XDECREF(text);
    return written;
}

static int write_integer(struct writer *writer, PyObject *integer) {
    int overflow;
    long long number = PyLong_AsLongLongAndOverflow(integer, &overflow);
    if (!overflow) return write_digits(writer, number, 0);
    if (PyLong_AsDouble(integer) != -1 || !PyErr_Occurred())
        return write_text(writer, PyNumber_ToBase(integer, 10), "int");
    /* any number that is too large for a double is refused alike, and Python may not write its digits */
    PyErr_Clear();
    return append(writer->out, "1e999", 5);
}

static int write_float(struct writer *writer, PyObject *value) {
    double number = PyFloat_AsDouble(value), power = 1;
    /* no two decimals of up to 15 digits are the same float: one that is this float is its shortest text */
    for (int decimals = 1; decimals <= 4 && fabs(number) < 1e11 && number != 0; decimals++) {
        power *= 10;
        long long digits = (long long)(number * power + (number < 0 ? -0.5 : 0.5));
        if (digits / power == number) return write_digits(writer, digits, decimals);
    }
    PyObject *plain = PyFloat_FromDouble(number);
    int written = plain && write_text(writer, PyObject_Repr(plain), "float");
    Py_XDECREF(plain);
    return written;
}

/* Writes a value of exactly one of Python's types that have no parts: that runs no program's own code while it reads
 * the value, so it needs no reference to it. Returns -1 for any other. */
static int write_leaf(struct writer *writer, PyObject *value) {
    PyTypeObject *type = Py_TYPE(value);
    if (type == &PyUnicode_Type) return write_string(writer, value, 0);
    if (type == &PyLong_Type) return write_integer(writer, value);
    if (type == &PyFloat_Type) return write_float(writer, value);
    if (value == Py_None) return append(writer->out, "null", 4);
    if (value == Py_True) return append(writer->out, "true", 4);
    if (value == Py_False) return append(writer->out, "false", 5);
    return -1;
}

/* Appends the text of a value that stands `depth` levels deep, to which the caller may have no reference. */
static inline int write_value(struct writer *writer, PyObject *value, int depth) {
    int written = write_leaf(writer, value);
    return written >= 0 ? written : write_whole(writer, value, depth);
}

static int write_array(struct writer *writer, PyObject *array, int is_list, int depth) {
    char before = '[';
    for (Py_ssize_t i = 0; i < (is_list ? PyList_Size(array) : PyTuple_Size(array)); i++) {
        if (!put(writer->out, before)) return 0;
        PyObject *value = is_list ? PyList_GetItem(array, i) : PyTuple_GetItem(array, i);
        if (!write_value(writer, value, depth)) return at_step(writer, PyLong_FromSsize_t(i));
        before = ',';
    }
    return (before == ',' || put(writer->out, before)) && put(writer->out, ']');
}

/* Writes a name and its colon. */
static int write_name(struct writer *writer, PyObject *name) {
    struct name *kept = writer->names + (uintptr_t)name / 16 % NAMES;
    if (kept->name == name) return append(writer->out, kept->text, kept->size);
    size_t begin = writer->out->size, written = write_string(writer, name, ':'), size = writer->out->size - begin;
    if (!written || size > sizeof kept->text || Py_TYPE(name) != &PyUnicode_Type) return (int)written;
    Py_INCREF(name);
    Py_XDECREF(kept->name);
    kept->name = name;
    memcpy(kept->text, writer->out->bytes + begin, kept->size = size);
    return 1;
}

static int write_object(struct writer *writer, PyObject *object, int depth) {
    char before = '{';
    PyObject *name, *value;
    Py_ssize_t at = 0, size = PyDict_Size(object);
    while (PyDict_Next(object, &at, &name, &value)) {
        int is_named = Py_TYPE(name) == &PyUnicode_Type || PyUnicode_Check(name);
        int written = is_named && put(writer->out, before) && write_name(writer, name) ? write_leaf(writer, value) : 0;
        before = ',';
        if (written > 0) continue;
        /* what follows may run a program's own code */
        Py_INCREF(name);
        if (!is_named) refuse(writer, "is not JSON: the name %R of a member is no string", name);
        if (is_named && !(written && write_whole(writer, value, depth))) return at_step(writer, name);
        Py_DECREF(name);
        if (!is_named) return 0;
        if (PyDict_Size(object) != size)
            return PyErr_Format(PyExc_RuntimeError, "a dict was changed while it was written") != NULL;
    }
    return (before == ',' || put(writer->out, before)) && put(writer->out, '}');
}

/* Writes what is no value of exactly one of Python's own types: an instance of a class below one, or a Decimal. */
static int write_other(struct writer *writer, PyObject *value, int depth) {
    PyObject *plain = NULL;
    int written = 0;
    if (PyUnicode_Check(value)) return write_string(writer, value, 0);
    if (PyLong_Check(value)) return write_integer(writer, value);
    if (PyFloat_Check(value)) return write_float(writer, value);
    if (PyType_IsSubtype(Py_TYPE(value), (PyTypeObject *)decimal))
        return write_text(writer, PyObject_CallFunctionObjArgs(decimal_text, value, NULL), "Decimal");
    if (PyList_Check(value) || PyTuple_Check(value)) {
        plain = PySequence_List(value);
        written = plain && write_value(writer, plain, depth);
    } else if (PyDict_Check(value)) {
        plain = PyDict_New();
        written = plain && PyDict_Update(plain, value) == 0 && write_value(writer, plain, depth);
    } else {
        PyObject *name = PyObject_GetAttrString((PyObject *)Py_TYPE(value), "__name__");
        if (name) refuse(writer, "is not JSON: %S is no type of JSON", name);
        Py_XDECREF(name);
    }
    Py_XDECREF(plain);
    return written;
}

/* Writes a value that is no leaf. */
static int write_whole(struct writer *writer, PyObject *value, int depth) {
    PyTypeObject *type = Py_TYPE(value);
    int is_own = type == &PyDict_Type || type == &PyList_Type || type == &PyTuple_Type;
    /* to write a part may run a program's own code, which may take the value out of where it stands */
    Py_INCREF(value);
    int written = !is_own ? write_other(writer, value, depth)
        : depth == DEPTH ? refuse(writer, "nests more than %d levels, %s", DEPTH, ALLOWED)
        : type == &PyDict_Type ? write_object(writer, value, depth + 1)
        : write_array(writer, value, type == &PyList_Type, depth + 1);
    Py_DECREF(value);
    return written;
}

/* Lets the package raise its NotJson for what was refused, unless there is an exception already. */
static int raise_refusal(struct writer *writer, const char *what) {
    PyObject *module = writer->reason ? PyImport_ImportModule("jskw.exceptions") : NULL;
    PyObject *refusal = module && PyList_Reverse(writer->path) == 0
        ? PyObject_CallMethod(module, "NotJson", "sOzzzO", what, writer->reason, NULL, NULL, NULL, writer->path)
        : NULL;
    if (refusal) PyErr_SetObject((PyObject *)Py_TYPE(refusal), refusal);
    Py_XDECREF(refusal);
    Py_XDECREF(module);
    Py_XDECREF(writer->reason);
    Py_XDECREF(writer->path);
    return 0;
}

/* ---- handles */

/* What one call needs: a handle, a text, and buffers. The object has the text's bytes, unless the first buffer has. */
struct caller {
    jskw_schema schema;
    struct caller *next;
    struct block written, answer;
    struct name names[NAMES];
    const uint8_t *bytes;
    size_t size;
    PyObject *owner;
};

/* A schema: a handle that only makes the others, and the callers that no call has. The interpreter's lock guards both,
 * and a call takes its caller out of the list, so that any number of threads may ask. */
typedef struct {
    PyObject_HEAD
    enum { EMPTY, OPEN, CLOSED } state;
    jskw_schema first;
    struct caller *idle;
} Schema;

static void drop_caller(struct caller *caller) {
    if (caller == NULL) return;
    jskw_free(&caller->schema);
    Py_XDECREF(caller->owner);
    for (int i = 0; i < NAMES; i++) Py_XDECREF(caller->names[i].name);
    drop_block(&caller->written, 0);
    drop_block(&caller->answer, 0);
    PyMem_Free(caller);
}

static struct caller *new_caller(void) {
    struct caller *caller = PyMem_Calloc(1, sizeof *caller);
    return caller ? caller : (struct caller *)PyErr_NoMemory();
}

static int is_open(Schema *self) {
    if (self->state != OPEN) PyErr_SetString(PyExc_ValueError, "the validator is closed");
    return self->state == OPEN;
}

static struct caller *take_caller(Schema *self) {
    if (!is_open(self)) return NULL;
    struct caller *caller = self->idle;
    if (caller) {
        self->idle = caller->next;
    } else if ((caller = new_caller()) && jskw_share(&self->first, &caller->schema) != JSKW_VALID) {
        drop_caller(caller);
        return (struct caller *)PyErr_NoMemory();
    }
    return caller;
}

static void put_back(Schema *self, struct caller *caller) {
    /* the last reference to an object of the caller's class may run its code, which may close the schema */
    Py_CLEAR(caller->owner);
    if (self->state != OPEN) return drop_caller(caller);
    drop_block(&caller->written, KEPT);
    drop_block(&caller->answer, KEPT);
    caller->next = self->idle;
    self->idle = caller;
}

static PyObject *close_schema(Schema *self, PyObject *unused) {
    (void)unused;
    self->state = CLOSED;
    jskw_free(&self->first);
    while (self->idle) {
        struct caller *caller = self->idle;
        self->idle = caller->next;
        drop_caller(caller);
    }
    Py_RETURN_NONE;
}

static void drop_schema(Schema *self) {
    PyTypeObject *type = Py_TYPE(self);
    Py_DECREF(close_schema(self, NULL));
    ((freefunc)PyType_GetSlot(type, Py_tp_free))(self);
    Py_DECREF(type);
}

static PyObject *share_schema(Schema *self, PyObject *unused) {
    (void)unused;
    if (!is_open(self)) return NULL;
    Schema *copy = (Schema *)PyType_GenericNew(Py_TYPE(self), NULL, NULL);
    if (copy && jskw_share(&self->first, &copy->first) == JSKW_VALID) {
        copy->state = OPEN;
        return (PyObject *)copy;
    }
    Py_XDECREF(copy);
    return PyErr_NoMemory();
}

/* ---- calls */

/* Takes the text of a value, which is the value itself if it is one in bytes. */
static int take_text(struct caller *caller, PyObject *value, const char *what) {
    if (PyBytes_Check(value) || PyByteArray_Check(value) || PyMemoryView_Check(value)) {
        if ((caller->owner = PyBytes_FromObject(value)) == NULL) return 0;
        caller->bytes = (const uint8_t *)PyBytes_AsString(caller->owner);
        caller->size = PyBytes_Size(caller->owner);
        return 1;
    }
    struct writer writer = {&caller->written, caller->names, NULL, NULL};
    caller->written.size = 0;
    int written = write_value(&writer, value, 0) || raise_refusal(&writer, what);
    caller->bytes = caller->written.bytes;
    caller->size = caller->written.size;
    return written;
}

/* Lets other threads run during a call on a long text. */
static PyThreadState *unlock(size_t size) { return size < LONG ? NULL : PyEval_SaveThread(); }
static void lock(PyThreadState *thread) { if (thread) PyEval_RestoreThread(thread); }

static PyObject *is_valid(Schema *self, PyObject *const *args, Py_ssize_t count, PyObject *names) {
    Py_ssize_t named = names ? PyTuple_Size(names) : 0;
    if (count + named != 1 || (named && PyUnicode_CompareWithASCIIString(PyTuple_GetItem(names, 0), "instance") != 0))
        return PyErr_Format(PyExc_TypeError, "is_valid() takes one argument, the instance");
    struct caller *caller = take_caller(self);
    if (caller == NULL) return NULL;
    uint32_t status = JSKW_NO_MEMORY;
    int is_taken = take_text(caller, args[0], "instance");
    if (is_taken) {
        PyThreadState *thread = unlock(caller->size);
        status = jskw_is_valid(&caller->schema, caller->bytes, caller->size);
        lock(thread);
    }
    put_back(self, caller);
    if (!is_taken) return NULL;
    if (status <= JSKW_INVALID) return PyBool_FromLong(status == JSKW_VALID);
    /* raises why there is no verdict, unless another thread has changed the value meanwhile */
    PyObject *errors = PyObject_CallMethod((PyObject *)self, "_ask", "sO", "first_error", args[0]);
    int valid = errors ? PyObject_Not(errors) : -1;
    Py_XDECREF(errors);
    return valid < 0 ? NULL : PyBool_FromLong(valid);
}

/* ---- answers */

/* Returns where a word that begins at `at` ends: before a byte, or at the end. */
static const char *stop_of(const char *at, const char *end, char stop) {
    const char *found = memchr(at, stop, end - at);
    return found ? found : end;
}

/* Returns a word without its escapes: those of a line begin with a backslash, those of a location's step with `~`. */
static PyObject *unescaped(const char *at, const char *end, char escape) {
    const char *meant = "t\tn\n1/0~";
    if (stop_of(at, end, escape) == end) return PyUnicode_DecodeUTF8(at, end - at, NULL);
    char *plain = PyMem_Malloc(end - at), *to = plain;
    if (plain == NULL) return PyErr_NoMemory();
    for (; at < end; at++) {
        const char *found = *at == escape && at + 1 < end ? strchr(meant, *++at) : NULL;
        *to++ = found && *found ? found[1] : *at;
    }
    PyObject *word = PyUnicode_DecodeUTF8(plain, to - plain, NULL);
    PyMem_Free(plain);
    return word;
}

/* Returns what stands in a value at a step, or None if nothing does, as borrowed from the value, and the step. It runs
 * no method of the caller's classes: one with `__missing__` would get a new member. */
static PyObject *below(PyObject *value, const char *at, const char *end, PyObject **step) {
    int is_list = PyList_Check(value), is_array = is_list || PyTuple_Check(value);
    const char *digit = at;
    Py_ssize_t index = 0;
    PyObject *found = NULL;
    for (; is_array && digit < end && *digit >= '0' && *digit <= '9' && index < PY_SSIZE_T_MAX / 16; digit++)
        index = 10 * index + (*digit - '0');
    if (at < digit && digit == end) {
        *step = PyLong_FromSsize_t(index);
        found = is_list ? PyList_GetItem(value, index) : PyTuple_GetItem(value, index);
        if (found == NULL) PyErr_Clear();
    } else if ((*step = unescaped(at, end, '~')) && PyDict_Check(value)) {
        found = PyDict_GetItemWithError(value, *step);
    }
    return *step == NULL || PyErr_Occurred() ? NULL : found ? found : Py_None;
}

/* Returns a tuple of what stands in a value at a location, and the path there. */
static PyObject *found_at(PyObject *value, PyObject *location) {
    Py_ssize_t size, count = 1;
    const char *at = PyUnicode_AsUTF8AndSize(location, &size);
    if (at == NULL) return NULL;
    const char *end = at + size;
    for (const char *byte = at; byte < end; byte++) count += *byte == '/';
    PyObject *found = PyTuple_New(count);
    if (found == NULL) return NULL;
    Py_INCREF(value);
    for (Py_ssize_t i = 1; value && i < count; i++) {
        const char *stop = stop_of(++at, end, '/');
        PyObject *step = NULL, *next = below(value, at, stop, &step);
        Py_XINCREF(next);
        Py_DECREF(value);
        value = next;
        if (step) PyTuple_SetItem(found, i, step);
        at = stop;
    }
    if (value == NULL)
        Py_CLEAR(found);
    else
        PyTuple_SetItem(found, 0, value);
    return found;
}

static PyObject *find(PyObject *module, PyObject *args) {
    PyObject *value, *location;
    (void)module;
    return PyArg_ParseTuple(args, "OU:find", &value, &location) ? found_at(value, location) : NULL;
}

/* What is asked of a text, and what the errors of the answer are made of: their class, what all errors of a keyword
 * have, the instance, and if that is a text what reads it, else None. */
struct question {
    const char *name;
    unsigned long long number; /* a draft or a limit */
    unsigned int vocabularies;
    const char *overridden;
    Py_ssize_t overridden_size, skipped; /* so many lines are passed over */
    PyObject *type, *keywords, *instance, *reader;
};

/* Returns what all errors of a keyword have, as it is kept by the words that say which, or as the package makes it. */
static PyObject *keyword_of(PyObject *keywords, const char *const *words, struct block *key) {
    key->size = 0;
    for (int i = 0; i <= 4; i += 2) /* kind, keyword location and expected value */
        if (!append(key, words[i], words[i + 1] - words[i])) return NULL;
    PyObject *name = PyBytes_FromStringAndSize((const char *)key->bytes, key->size);
    PyObject *keyword = name ? PyDict_GetItemWithError(keywords, name) : NULL;
    Py_XINCREF(keyword);
    if (name && keyword == NULL && !PyErr_Occurred())
        keyword = PyObject_CallMethod(keywords, "add", "ONNN", name, unescaped(words[0], words[1] - 1, '\\'),
                                      unescaped(words[2], words[3] - 1, '\\'), unescaped(words[4], words[5] - 1, '\\'));
    Py_XDECREF(name);
    return keyword;
}

/* Returns the error of a line. Until an attribute is asked for, it has what all errors of its keyword have, None, and
 * the value at fault with its path; or what reads the text in place of None, and the location. */
static PyObject *error_of(const struct question *with, const char *const *words, struct block *key) {
    newfunc make = (newfunc)PyType_GetSlot((PyTypeObject *)with->type, Py_tp_new);
    PyObject *location = unescaped(words[1], words[2] - 1, '\\'), *message = unescaped(words[3], words[4] - 1, '\\');
    PyObject *keyword = location && message ? keyword_of(with->keywords, words, key) : NULL;
    PyObject *given = keyword ? PyTuple_Pack(1, message) : NULL;
    PyObject *found = given && with->reader == Py_None ? found_at(with->instance, location) : NULL;
    PyObject *place = with->reader == Py_None ? found : location;
    PyObject *told = given && place ? PyTuple_Pack(3, keyword, with->reader, place) : NULL;
    PyObject *error = told && make ? make((PyTypeObject *)with->type, given, NULL) : NULL;
    if (error && PyObject_SetAttr(error, told_name, told) < 0) Py_CLEAR(error);
    Py_XDECREF(location);
    Py_XDECREF(message);
    Py_XDECREF(found);
    Py_XDECREF(keyword);
    Py_XDECREF(given);
    Py_XDECREF(told);
    return error;
}

/* Returns the words of a line, of which each ends one byte before the next. */
static PyObject *words_of(const char *const *words, int count) {
    PyObject *found = PyTuple_New(count);
    for (int i = 0; found && i < count; i++) {
        PyObject *word = unescaped(words[i], words[i + 1] - 1, '\\');
        if (word == NULL || PyTuple_SetItem(found, i, word) < 0) Py_CLEAR(found);
    }
    return found;
}

/* Returns the words of each line of an answer, at most five, or the errors of the lines behind the first. */
static PyObject *lines_of(const struct block *answer, const struct question *with, uint32_t status) {
    const char *at = (const char *)answer->bytes, *end = at + answer->size, *words[6];
    int has_errors = with->type && status == JSKW_INVALID, count;
    Py_ssize_t skipped = has_errors ? with->skipped : 0;
    struct block key = {0};
    PyObject *lines = PyList_New(0);
    for (const char *stop; lines && (stop = memchr(at, '\n', end - at)); at = stop + 1) {
        if (skipped-- > 0) continue;
        for (words[0] = at, count = 0; count < 5 && words[count] <= stop; count++)
            words[count + 1] = stop_of(words[count], stop, '\t') + 1;
        PyObject *line = has_errors && count == 5 ? error_of(with, words, &key) : words_of(words, count);
        if (line == NULL || PyList_Append(lines, line) < 0) Py_CLEAR(lines);
        Py_XDECREF(line);
    }
    drop_block(&key, 0);
    return lines;
}

static int is_call(const struct question *with, const char *name) { return strcmp(with->name, name) == 0; }

/* Calls jskw_NAME. */
static uint32_t ask(const struct question *with, struct caller *caller) {
    jskw_schema *schema = &caller->schema;
    const uint8_t *bytes = caller->bytes, *names = (const uint8_t *)with->overridden;
    uint8_t *to = caller->answer.bytes;
    size_t size = caller->size, many = with->overridden_size, room = caller->answer.room, *told = &caller->answer.size;
    uint32_t draft = (uint32_t)with->number, chosen = with->vocabularies;
    if (is_call(with, "errors")) return jskw_errors(schema, bytes, size, with->number, to, room, told);
    if (is_call(with, "first_error")) return jskw_first_error(schema, bytes, size, to, room, told);
    if (is_call(with, "evaluate")) return jskw_evaluate(schema, bytes, size, to, room, told);
    if (is_call(with, "compile")) return jskw_compile(draft, chosen, names, many, bytes, size, schema, to, room, told);
    if (is_call(with, "unchecked")) return jskw_unchecked(draft, chosen, names, many, bytes, size, to, room, told);
    if (is_call(with, "answer")) return jskw_answer(bytes, size, to, room, told);
    return jskw_version(to, room, told);
}

/* Returns the status and the answer, a text, lines or errors, after a schema is compiled with its handle. */
static PyObject *answered(Schema *self, const struct question *with, struct caller *caller) {
    struct block *answer = &caller->answer;
    uint32_t status;
    /* at first room for some lines of usual length, then the length for which that was too small */
    size_t room = FIRST + 128 * (!is_call(with, "errors") ? 0 : with->number < MANY ? with->number : MANY);
    do {
        answer->size = 0;
        if (!reserve(answer, room)) return NULL;
        PyThreadState *thread = unlock(caller->size);
        status = ask(with, caller);
        lock(thread);
        room = answer->size;
    } while (status == JSKW_TOO_SMALL);
    if (is_call(with, "compile") && status == JSKW_VALID && self->state == EMPTY) {
        status = jskw_share(&caller->schema, &self->first);
        if (status == JSKW_VALID) self->state = OPEN;
    }
    if (status == JSKW_NO_MEMORY) return PyErr_NoMemory();
    int is_text = is_call(with, "answer") || (is_call(with, "evaluate") && status <= JSKW_INVALID);
    PyObject *told = is_text ? PyUnicode_DecodeUTF8((const char *)answer->bytes, answer->size, NULL)
                             : lines_of(answer, with, status);
    answer->size = 0;
    return Py_BuildValue("iN", (int)status, told);
}

static PyObject *call(Schema *self, PyObject *args) {
    struct question with = {.overridden = ""};
    PyObject *value, *told = NULL;
    if (!PyArg_ParseTuple(args, "sO|KIy#n(O!O!OO):_call", &with.name, &value, &with.number, &with.vocabularies,
                          &with.overridden, &with.overridden_size, &with.skipped, &PyType_Type, &with.type,
                          &PyDict_Type, &with.keywords, &with.instance, &with.reader))
        return NULL;
    if (is_call(&with, "compile") && self->state != EMPTY)
        return PyErr_Format(PyExc_ValueError, "the validator has its schema already");
    int is_checked = is_call(&with, "errors") || is_call(&with, "first_error") || is_call(&with, "evaluate");
    struct caller *caller = is_checked ? take_caller(self) : new_caller();
    if (caller == NULL) return NULL;
    if (take_text(caller, value, is_checked ? "instance" : is_call(&with, "answer") ? "request" : "schema"))
        told = answered(self, &with, caller);
    is_checked ? put_back(self, caller) : drop_caller(caller);
    return told;
}

static PyObject *text_of(PyObject *module, PyObject *args) {
    PyObject *value, *text = NULL;
    const char *what;
    (void)module;
    if (!PyArg_ParseTuple(args, "Os:text_of", &value, &what)) return NULL;
    struct caller *caller = new_caller();
    if (caller && take_text(caller, value, what)) {
        text = caller->owner ? caller->owner : PyBytes_FromStringAndSize((const char *)caller->bytes, caller->size);
        caller->owner = NULL;
    }
    drop_caller(caller);
    return text;
}

/* ---- the module */

static PyMethodDef schema_methods[] = {
    {"is_valid", (PyCFunction)(void (*)(void))is_valid, METH_FASTCALL | METH_KEYWORDS,
     "is_valid($self, instance)\n--\n\nReturns whether the instance is valid.\n\n"
     "This and the other calls raise NotJson, InexactNumber if the instance has such a number, ValueError if the\n"
     "validator is closed, and MemoryError."},
    /* calls jskw_NAME of a text or a value, and returns the status and the answer: a text, the words of its lines, or
     * the errors that these are */
    {"_call", (PyCFunction)(void (*)(void))call, METH_VARARGS, NULL},
    {"close", (PyCFunction)(void (*)(void))close_schema, METH_NOARGS, NULL},
    /* returns another object of the class with the compiled schema, and with nothing else */
    {"_share", (PyCFunction)(void (*)(void))share_schema, METH_NOARGS, NULL},
    {NULL, NULL, 0, NULL},
};

static PyType_Slot schema_slots[] = {
    {Py_tp_new, PyType_GenericNew},
    {Py_tp_dealloc, drop_schema},
    {Py_tp_methods, schema_methods},
    {Py_tp_doc, "A compiled schema, which any number of threads may use at once."},
    {0, NULL},
};

static PyType_Spec schema_spec = {"jskw._jskw.Schema", sizeof(Schema), 0, Py_TPFLAGS_DEFAULT | Py_TPFLAGS_BASETYPE,
                                  schema_slots};

static PyMethodDef module_methods[] = {
    {"text_of", text_of, METH_VARARGS,
     "Returns the JSON text of a value, which is the value itself if it is one in bytes."},
    {"find", find, METH_VARARGS, "Returns what stands in a value at a location, or None, and the location's path."},
    {NULL, NULL, 0, NULL},
};

static PyModuleDef module_definition = {
    .m_base = PyModuleDef_HEAD_INIT, .m_name = "jskw._jskw", .m_size = -1, .m_methods = module_methods};

PyMODINIT_FUNC PyInit__jskw(void) {
    PyObject *decimals = PyImport_ImportModule("decimal"), *module = NULL, *schema = NULL;
    decimal = decimals ? PyObject_GetAttrString(decimals, "Decimal") : NULL;
    decimal_text = decimal ? PyObject_GetAttrString(decimal, "__str__") : NULL;
    told_name = PyUnicode_InternFromString("_told");
    Py_XDECREF(decimals);
    if (decimal_text && told_name) module = PyModule_Create(&module_definition);
    if (module) schema = PyType_FromSpec(&schema_spec);
    if (schema == NULL || PyModule_AddObject(module, "Schema", schema) < 0) {
        Py_XDECREF(schema);
        Py_CLEAR(module);
    }
    return module;
}
