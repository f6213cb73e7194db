/* Tests jskw.h: the README's example, lines, empty and shared handles, NULL, and the rows of bindings/rows.txt; for each
 * row each call with buffers of every length from 0 to one too many, and with each of its allocations refused in turn. Each
 * text and each buffer is a block of its own, so that valgrind notices a byte beside it. The argument is rows.txt. The
 * last line is `N passed, M failed`. Link with
 * -Wl,--wrap=malloc,--wrap=realloc,--wrap=calloc,--wrap=aligned_alloc,--wrap=posix_memalign. */
#include <errno.h>
#include <stdio.h>
#include <stdlib.h>
#include <string.h>

#include "jskw.h"

#define BYTES(text) (const uint8_t *)(text), strlen(text)
#define ROOM 4096

static int passed, failed;

static void check(const char *what, int holds) {
    if (holds) passed++; else failed++, printf("FAILED: %s\n", what);
}

/* ---- allocations: the one with the number `refused` fails, and with `and_later` all that follow; `size_seen` is the
 * size in bytes of the last */

static unsigned long seen, refused, and_later;
static size_t size_seen;

static int refuses(size_t size) {
    seen++;
    size_seen = size;
    return refused && (seen == refused || (and_later && seen > refused));
}

void *__real_malloc(size_t);
void *__real_realloc(void *, size_t);
void *__real_calloc(size_t, size_t);
void *__real_aligned_alloc(size_t, size_t);
int __real_posix_memalign(void **, size_t, size_t);
void *__wrap_malloc(size_t size) { return refuses(size) ? NULL : __real_malloc(size); }
void *__wrap_realloc(void *old, size_t size) { return refuses(size) ? NULL : __real_realloc(old, size); }
void *__wrap_calloc(size_t count, size_t size) {
    return refuses(count * size) ? NULL : __real_calloc(count, size);
}
void *__wrap_aligned_alloc(size_t align, size_t size) {
    return refuses(size) ? NULL : __real_aligned_alloc(align, size);
}
int __wrap_posix_memalign(void **to, size_t align, size_t size) {
    return refuses(size) ? ENOMEM : __real_posix_memalign(to, align, size);
}

/* ---- texts, each in a block of exactly its size */

struct text {
    uint8_t *bytes;
    size_t size;
};

static struct text text_of(const char *bytes) {
    struct text text = {malloc(strlen(bytes) ? strlen(bytes) : 1), strlen(bytes)};
    memcpy(text.bytes, bytes, text.size);
    /* of no bytes: behind the only one */
    if (text.size == 0) text.bytes++;
    return text;
}

static void free_text(struct text text) { free(text.size ? text.bytes : text.bytes - 1); }

/* What a row asks. */
struct asked {
    uint32_t draft, vocabularies;
    struct text overridden, schema, instance, request;
};

static struct asked asked_of(const char *draft, const char *vocabularies, const char *overridden, const char *schema,
                             const char *instance) {
    char request[ROOM];
    snprintf(request, sizeof request, "{\"overridden\":%s,\"schema\":%s,\"instance\":%s}", overridden, schema, instance);
    struct asked asked = {(uint32_t)atoi(draft), (uint32_t)atoi(vocabularies), text_of(overridden), text_of(schema),
                          text_of(instance), text_of(request)};
    return asked;
}

static void free_asked(struct asked asked) {
    free_text(asked.overridden);
    free_text(asked.schema);
    free_text(asked.instance);
    free_text(asked.request);
}

/* ---- the calls, by number */

static const char *const SCHEMA = "{\"required\":[\"name\",\"age\"],\"minProperties\":2}";
static const char *const INVALID = "{\"age\":36}";

enum { VERSION, IS_VALID, FIRST_ERROR, TWO_ERRORS, ERRORS, EVALUATE, ANSWER, UNCHECKED, COMPILE, CALLS };
static const char *const NAMES[] = {"version", "is_valid", "first_error", "two errors", "errors", "evaluate", "answer",
                                    "unchecked", "compile"};

static uint32_t call(int which, struct asked a, jskw_schema *handle, uint8_t *buffer, size_t room, size_t *length) {
    const uint8_t *bytes = a.instance.bytes;
    size_t size = a.instance.size;
    switch (which) {
    case VERSION: return jskw_version(buffer, room, length);
    case IS_VALID: *length = 0; return jskw_is_valid(handle, bytes, size);
    case FIRST_ERROR: return jskw_first_error(handle, bytes, size, buffer, room, length);
    case ERRORS: return jskw_errors(handle, bytes, size, 0, buffer, room, length);
    case TWO_ERRORS: return jskw_errors(handle, bytes, size, 2, buffer, room, length);
    case EVALUATE: return jskw_evaluate(handle, bytes, size, buffer, room, length);
    case ANSWER: return jskw_answer(a.request.bytes, a.request.size, buffer, room, length);
    case UNCHECKED: return jskw_unchecked(a.draft, a.vocabularies, a.overridden.bytes, a.overridden.size,
                                          a.schema.bytes, a.schema.size, buffer, room, length);
    default: return jskw_compile(a.draft, a.vocabularies, a.overridden.bytes, a.overridden.size, a.schema.bytes,
                                 a.schema.size, handle, buffer, room, length);
    }
}

static uint32_t compile(jskw_schema *handle, const char *schema) {
    uint8_t buffer[1];
    size_t length;
    return jskw_compile(2020, JSKW_ALL, BYTES(""), BYTES(schema), handle, buffer, 0, &length);
}

/* Whether the handle has SCHEMA. */
static int has_schema(jskw_schema *handle) {
    return jskw_is_valid(handle, BYTES("{\"name\":1,\"age\":2}")) == JSKW_VALID
        && jskw_is_valid(handle, BYTES(INVALID)) == JSKW_INVALID;
}

/* The handle for a call: SCHEMA for a compile, which has to leave it there or to take its place, else the row's own, or
 * none if it does not compile. */
static jskw_schema handle_for(int which, struct asked a) {
    jskw_schema handle = JSKW_SCHEMA_EMPTY;
    uint8_t buffer[ROOM];
    size_t length;
    if (which == COMPILE) compile(&handle, SCHEMA);
    else call(COMPILE, a, &handle, buffer, ROOM, &length);
    return handle;
}

/* Whether a call's status is the wanted one, and its text these bytes. */
static int gives(uint32_t status, uint32_t wanted, const uint8_t *buffer, size_t length, const char *text) {
    return status == wanted && length == strlen(text) && !memcmp(buffer, text, length);
}

/* Whether a text is one line that begins with this one. */
static int begins(const uint8_t *buffer, size_t length, const char *text) {
    return length >= strlen(text) && !memcmp(buffer, text, strlen(text))
        && memchr(buffer, '\n', length) == buffer + length - 1;
}

static void readme(void) {
    uint8_t buffer[ROOM];
    size_t length;
    jskw_schema handle = JSKW_SCHEMA_EMPTY;
    check("compiles", compile(&handle, SCHEMA) == JSKW_VALID && has_schema(&handle));
    uint32_t status = jskw_errors(&handle, BYTES(INVALID), 0, buffer, ROOM, &length);
    check("errors", gives(status, JSKW_INVALID, buffer, length,
        "minProperties\t\t/minProperties\thas 1 member, needs at least 2\t2\n"
        "required\t\t/required\thas no member \"name\"\t\"name\"\n"));
    const char *request =
        "{\"schema\":{\"required\":[\"name\",\"age\"],\"minProperties\":2},\"instance\":{\"age\":36}}";
    status = jskw_answer(BYTES(request), buffer, ROOM, &length);
    check("answer", gives(status, JSKW_INVALID, buffer, length,
        "minProperties\t\t/minProperties\nrequired\t\t/required\n"));
    status = jskw_answer(BYTES(""), buffer, ROOM, &length);
    check("answer, no request", gives(status, JSKW_REFUSED, buffer, length, "refused: request\n"));
    status = jskw_answer(BYTES("{\"schema\":true,\"instance\":0.5}"), buffer, ROOM, &length);
    check("answer, a float", gives(status, JSKW_REFUSED, buffer, length, "refused: float\t\n"));
    status = jskw_version(buffer, ROOM, &length);
    const char *version = "jskw " JSKW_VERSION "\n";
    check("version", status == JSKW_VALID && !memcmp(buffer, version, strlen(version)));
    snprintf((char *)buffer, ROOM, "%d.%d.%d", JSKW_VERSION_MAJOR, JSKW_VERSION_MINOR, JSKW_VERSION_PATCH);
    check("version in numbers", !strcmp((char *)buffer, JSKW_VERSION));
    check("status names", !strcmp(jskw_status_name(JSKW_VALID), "JSKW_VALID") && !strcmp(jskw_status_name(10), "?")
        && !strcmp(jskw_status_name(JSKW_INEXACT), "JSKW_INEXACT")
        && !strcmp(jskw_status_name(JSKW_TOO_SMALL), "JSKW_TOO_SMALL"));
    jskw_free(&handle);
    check("freed", !handle.compiled);
}

/* What each keyword expected. */
static void expected(void) {
    static const char *const rows[][4] = {
        {"2019", "{\"items\":[],\"additionalItems\":false}", "[1]", "0"},
        {"2020", "{\"const\":{\"b\":[1,null],\"a\":\"\\t\\\\\"}}", "0.5", "{\"a\":\"\\\\t\\\\\\\\\",\"b\":[1,null]}"},
        {"2020", "{\"enum\":[\"a\",-1]}", "0.5", "[\"a\",-1]"},
        {"2020", "{\"exclusiveMaximum\":-9223372036854775808}", "0.5", "-9223372036854775808"},
        {"2020", "{\"exclusiveMinimum\":18446744073709551615}", "0.5", "18446744073709551615"},
        {"2020", "{\"maximum\":0}", "0.5", "0"},
        {"2020", "{\"minimum\":-5}", "-5.5", "-5"},
        {"2020", "{\"maxItems\":0}", "[1]", "0"},
        {"2020", "{\"minItems\":18446744073709551615}", "[1]", "18446744073709551615"},
        {"2020", "{\"maxProperties\":0}", "{\"a\":1}", "0"},
        {"2020", "{\"minProperties\":2}", "{}", "2"},
        {"2020", "{\"multipleOf\":7}", "0.5", "7"},
        {"2020", "{\"required\":[\"\\t\\\"\"]}", "{}", "\"\\\\t\\\\\"\""},
        {"2020", "{\"type\":\"integer\"}", "0.5", "\"integer\""},
        {"2020", "{\"type\":[\"string\",\"object\",\"array\"]}", "0.5", "[\"array\",\"object\",\"string\"]"},
        {"2020", "{\"type\":[]}", "0.5", "[]"},
        {"2020", "{\"contains\":true}", "[]", ""},
        {"2020", "{\"uniqueItems\":true}", "[1,1.0]", ""},
        {"2020", "false", "1", ""},
        {"2020", "{\"minItems\":-1}", NULL, "0"},
        {"2020", "{\"multipleOf\":0}", NULL, "0"},
        {"2020", "{\"required\":5}", NULL, "\"array\""},
        {"2020", "{\"type\":5}", NULL, "[\"array\",\"string\"]"},
        {"2020", "{\"type\":[\"foo\",\"string\"]}", NULL,
         "[\"array\",\"boolean\",\"integer\",\"null\",\"number\",\"object\",\"string\"]"},
        {"2020", "{\"type\":\"foo\"}", NULL, ""},
    };
    for (size_t i = 0; i < sizeof rows / sizeof *rows; i++) {
        uint8_t buffer[ROOM];
        size_t length;
        jskw_schema handle = JSKW_SCHEMA_EMPTY;
        uint32_t draft = (uint32_t)atoi(rows[i][0]), wanted = rows[i][2] ? JSKW_INVALID : JSKW_BAD_SCHEMA;
        uint32_t status =
            jskw_compile(draft, JSKW_ALL, BYTES(""), BYTES(rows[i][1]), &handle, buffer, ROOM, &length);
        if (rows[i][2]) status = jskw_first_error(&handle, BYTES(rows[i][2]), buffer, ROOM, &length);
        buffer[length ? length - 1 : 0] = 0;
        const char *last = strrchr((char *)buffer, '\t');
        check(rows[i][1], status == wanted && last && !strcmp(last + 1, rows[i][3]));
        jskw_free(&handle);
    }
}

/* The text of a constant or of options, of so many bytes: in the line, or left out of it. */
static void long_values(void) {
    static const char *const around[][2] = {{"{\"const\":", "}"}, {"{\"enum\":", "}"}};
    for (size_t size = 1000; size < 1030; size++)
        for (int i = 0; i < 6; i++) {
            uint8_t buffer[ROOM];
            char value[ROOM], schema[ROOM];
            size_t length;
            jskw_schema handle = JSKW_SCHEMA_EMPTY;
            /* an array of a string, of numbers (of which an even size has one with two digits), or of objects */
            memset(value, 'x', size);
            memcpy(value, "[\"", 2);
            memcpy(value + size - 2, "\"]", 3);
            if (i / 2 == 1)
                for (size_t at = 1; at < size - 1; at++) value[at] = at % 2 || at == size - 2 ? '1' : ',';
            if (i / 2 == 2) memcpy(value, "[{\"a\":2},\"", 10);
            snprintf(schema, sizeof schema, "%s%s%s", around[i % 2][0], value, around[i % 2][1]);
            compile(&handle, schema);
            uint32_t status = jskw_first_error(&handle, BYTES("0"), buffer, ROOM, &length);
            buffer[length ? length - 1 : 0] = 0;
            const char *last = strrchr((char *)buffer, '\t');
            check("a long value", status == JSKW_INVALID && last && !strcmp(last + 1, size <= 1024 ? value : ""));
            jskw_free(&handle);
        }
}

/* NULL stands for no bytes, and asks for a length. */
static void nulls(void) {
    uint8_t buffer[ROOM];
    size_t length = 1, size;
    jskw_schema handle = JSKW_SCHEMA_EMPTY;
    check("NULL, overridden", jskw_compile(2020, JSKW_ALL, NULL, 0, BYTES(SCHEMA), &handle, NULL, 0, &length) == JSKW_VALID
        && length == 0 && has_schema(&handle));
    check("NULL, a schema", jskw_compile(2020, JSKW_ALL, NULL, 0, NULL, 0, &handle, NULL, 0, &length) == JSKW_TOO_SMALL
        && length > 0 && has_schema(&handle));
    check("NULL, unchecked", jskw_unchecked(2020, JSKW_ALL, NULL, 0, BYTES("{\"a\":1}"), NULL, 0, &length) == JSKW_TOO_SMALL
        && length == strlen("/a\tunknown\n"));
    check("NULL, a schema unchecked", jskw_unchecked(2020, JSKW_ALL, NULL, 0, NULL, 0, buffer, ROOM, &length) == JSKW_NOT_JSON);
    check("NULL, an instance", jskw_is_valid(&handle, NULL, 0) == JSKW_NOT_JSON);
    check("NULL, a request", jskw_answer(NULL, 0, buffer, ROOM, &length) == JSKW_REFUSED);
    check("NULL, the version", jskw_version(NULL, 0, &length) == JSKW_TOO_SMALL && length > 0);
    struct asked asked = asked_of("2020", "7", "", SCHEMA, INVALID), none = asked_of("2020", "7", "", SCHEMA, "");
    struct text empty = none.instance;
    none.instance.bytes = NULL;
    for (int which = FIRST_ERROR; which <= EVALUATE; which++) {
        uint32_t status = call(which, asked, &handle, buffer, ROOM, &size);
        check("NULL, a buffer", status == JSKW_INVALID && call(which, asked, &handle, NULL, 0, &length) == JSKW_TOO_SMALL
            && length == size);
        check("NULL, no instance", call(which, none, &handle, buffer, ROOM, &length) == JSKW_NOT_JSON);
    }
    free_asked(asked);
    none.instance = empty;
    free_asked(none);
    jskw_free(&handle);
}

/* Where texts stop being JSON, and why: offset, line, column, the reason as a word, and its beginning in words. */
static void places(void) {
    static char deep[129];
    memset(deep, '[', 128);
    static const char *const rows[][2] = {
        {"\"\xff\"", "1\t1\t2\tnotUtf8\tnot JSON: the bytes"},
        {"\xef\xbb\xbf""1", "0\t1\t1\tbyteOrderMark\tnot JSON: the text"},
        {"", "0\t1\t1\tearlyEnd\tnot JSON: the text"},
        {"{", "1\t1\t2\tearlyEnd\t"}, {"1 2", "2\t1\t3\tmoreText\tnot JSON: there"},
        {"[1]\n]", "4\t2\t1\tmoreText\t"}, {"[1,\n  2,,3]", "8\t2\t5\tcomma\tnot JSON: a comma where"},
        {"[\"\xc3\xa9\" 1]", "6\t1\t6\tmissingComma\tnot JSON: a comma is missing\n"},
        {"{\"a\":1,}", "7\t1\t8\ttrailingComma\tnot JSON: a comma before"},
        {"[:", "1\t1\t2\tcolon\tnot JSON: a colon where"},
        {"{\"a\" 1}", "5\t1\t6\tmissingColon\tnot JSON: a colon is"}, {"{1", "1\t1\t2\tname\tnot JSON: a name"},
        {"[}", "1\t1\t2\tbracket\tnot JSON: a closing"}, {"tru", "0\t1\t1\tword\tnot JSON: a word"},
        {"[01]", "1\t1\t2\tnumber\tnot JSON: a number"}, {"\"a", "0\t1\t1\tunclosedString\tnot JSON: a string"},
        {"[\"a\n\"]", "1\t1\t2\tcontrolCharacter\tnot JSON: a control"}, {"\"\\x\"", "0\t1\t1\tescape\tnot JSON: an"},
        {"[\"\\ud800\"]", "1\t1\t2\tloneSurrogate\thas the escape"}, {deep, "127\t1\t128\ttooDeep\tnests"},
    };
    for (size_t i = 0; i < sizeof rows / sizeof *rows; i++) {
        uint8_t buffer[ROOM];
        size_t length;
        jskw_schema handle = JSKW_SCHEMA_EMPTY;
        uint32_t status = jskw_compile(7, JSKW_ALL, BYTES(""), BYTES(rows[i][0]), &handle, buffer, ROOM, &length);
        check("place in a schema", status == JSKW_NOT_JSON && begins(buffer, length, rows[i][1]));
        compile(&handle, "true");
        status = jskw_errors(&handle, BYTES(rows[i][0]), 1, buffer, ROOM, &length);
        check("place in an instance", status == JSKW_NOT_JSON && begins(buffer, length, rows[i][1])
            && jskw_is_valid(&handle, BYTES(rows[i][0])) == JSKW_NOT_JSON);
        if (!begins(buffer, length, rows[i][1])) printf("  %s: %.*s", rows[i][0], (int)length, buffer);
        jskw_free(&handle);
    }
    uint8_t buffer[ROOM];
    size_t length;
    jskw_schema handle = JSKW_SCHEMA_EMPTY;
    uint32_t status =
        jskw_compile(7, JSKW_ALL, BYTES(""), BYTES("{\"minimum\":1e999}"), &handle, buffer, ROOM, &length);
    check("no place in a schema", gives(status, JSKW_NOT_JSON, buffer, length, ""));
    compile(&handle, "true");
    status = jskw_errors(&handle, BYTES("{\"a\\tb\":\n [1, 1e400]}"), 1, buffer, ROOM, &length);
    check("place of a number", gives(status, JSKW_INEXACT, buffer, length, "/a\\tb/1\t14\t2\t6\n"));
    jskw_free(&handle);
}

/* A name in a line of what is not checked: as in a JSON pointer, and then as in any word. */
static void names(void) {
    uint8_t buffer[ROOM];
    size_t length;
    const char *schema = "{\"a\\t\\n\\\\/~\":1,\"pattern\":\"\",\"type\":5}";
    uint32_t status = jskw_unchecked(7, JSKW_ALL, BYTES(""), BYTES(schema), buffer, ROOM, &length);
    check("names", gives(status, JSKW_INVALID, buffer, length,
        "/a\\t\\n\\\\~1~0\tunknown\n/pattern\tnotImplemented\n"));
    status = jskw_unchecked(7, JSKW_ALL, BYTES(""), BYTES("{\"minimum\":1e999}"), buffer, ROOM, &length);
    check("names, no place", gives(status, JSKW_NOT_JSON, buffer, length, ""));
    /* a name that comes again, also by an escape or within what is not looked at; not below what is replaced */
    schema = "{\"items\":{\"a\":1,\"a\":2},\"items\":[{\"const\":{\"x/\":[],\"y\":0,\"x\\/\":{\"b\":1,\"b\":2}}}],"
        "\"type\":1,\"typ\\u0065\":2,\"type\":\"null\"}";
    status = jskw_unchecked(7, JSKW_ALL, BYTES(""), BYTES(schema), buffer, ROOM, &length);
    check("names that come again", gives(status, JSKW_INVALID, buffer, length,
        "/type\trepeated\n/type\trepeated\n/items/0/const/x~1/b\trepeated\n/items/0/const/x~1\trepeated\n"
        "/items\trepeated\n"));
}

/* An empty handle gets a status from each call, and another schema takes its place after each. */
static void empty_handles(void) {
    uint8_t buffer[ROOM];
    size_t length = 1;
    jskw_schema handle = JSKW_SCHEMA_EMPTY;
    struct asked bad = asked_of("7", "7", "", "{\"items\":{\"type\":\"foo\"}}", "1");
    for (int which = IS_VALID; which <= EVALUATE; which++)
        check(NAMES[which], call(which, bad, &handle, buffer, ROOM, &length) == JSKW_NO_SCHEMA && length == 0);
    check("compile, refused", call(COMPILE, bad, &handle, buffer, ROOM, &length) == JSKW_BAD_SCHEMA);
    check("still empty", !handle.compiled && jskw_is_valid(&handle, BYTES("1")) == JSKW_NO_SCHEMA);
    jskw_free(&handle);
    check("compile, after free", compile(&handle, SCHEMA) == JSKW_VALID && has_schema(&handle));
    check("compile, refused", call(COMPILE, bad, &handle, buffer, ROOM, &length) == JSKW_BAD_SCHEMA && has_schema(&handle));
    check("compile, in its place", compile(&handle, "false") == JSKW_VALID && jskw_is_valid(&handle, BYTES("1")) == JSKW_INVALID);
    jskw_free(&handle);
    jskw_free(&handle);
    free_asked(bad);
}

/* Whether a call with a buffer of each length from 0 to one too many gives the whole text, or says that the buffer is
 * too small and leaves it unchanged. */
static int buffers(int which, struct asked a) {
    uint8_t whole[ROOM];
    size_t size, length;
    jskw_schema handle = handle_for(which, a);
    uint32_t status = call(which, a, &handle, whole, ROOM, &size);
    int holds = status < JSKW_NO_MEMORY && size < ROOM;
    for (size_t room = 0; room <= size + 1; room++) {
        uint8_t *buffer = malloc(room ? room : 1);
        memset(buffer, '.', room ? room : 1);
        /* a buffer of no bytes is behind the only one */
        uint32_t told = call(which, a, &handle, buffer + (room == 0), room, &length);
        holds &= length == size && told == (room < size ? (uint32_t)JSKW_TOO_SMALL : status);
        size_t written = room < size ? 0 : size;
        holds &= !memcmp(buffer, whole, written);
        for (size_t i = written; i < room; i++) holds &= buffer[i] == '.';
        free(buffer);
    }
    jskw_free(&handle);
    return holds;
}

/* Whether a call with one of its allocations refused, alone or with all later ones, tells that memory ran out and leaves
 * handle and buffer unchanged; each allocation in turn. Adds how many were refused. */
static int refusals(int which, struct asked a, unsigned long *times) {
    uint8_t whole[ROOM], buffer[ROOM];
    size_t size = 0, length = 0;
    int holds = 1;
    for (and_later = 0; and_later < 2; and_later++) {
        jskw_schema handle = handle_for(which, a);
        uint32_t status = call(which, a, &handle, whole, ROOM, &size);
        for (unsigned long turn = 1;; turn++, ++*times) {
            if (which == COMPILE) compile(&handle, SCHEMA);
            void *compiled = handle.compiled;
            memset(buffer, '.', ROOM);
            seen = 0, refused = turn, length = 0;
            uint32_t told = call(which, a, &handle, buffer, ROOM, &length);
            refused = 0;
            int same = told == status && length == size && !memcmp(buffer, whole, size);
            if (seen < turn && same) break;
            /* a growing block may be refused without need */
            holds &= same || (told == JSKW_NO_MEMORY && length == 0 && buffer[0] == '.' && handle.compiled == compiled
                && (which != COMPILE || has_schema(&handle)));
        }
        jskw_free(&handle);
    }
    return holds;
}

/* ---- rows */

/* Appends the first words of each line, with a bar between two words and a space between two lines. */
static void tell(char *told, const char *text, size_t size, int words) {
    int word = 0;
    size_t at = 0;
    for (size_t i = 0; i < size; i++) {
        if (text[i] == '\t' && ++word < words) told[at++] = '|';
        else if (text[i] == '\n') word = 0, told[at++] = ' ';
        else if (text[i] != '\t' && word < words) told[at++] = text[i];
    }
    told[at ? at - 1 : 0] = 0;
}

static const char *const RESULTS[] = {"valid", "invalid", "", "not JSON", "inexact", "bad schema", "bad setting"};

/* The length of the first lines of a text: of so many, or of all if there are fewer. */
static size_t lines(const uint8_t *text, size_t size, uint64_t count) {
    size_t at = 0;
    for (; at < size && count > 0; at++) count -= text[at] == '\n';
    return at;
}

/* Whether a limit on errors gives the first lines of the text that has them all. */
static int limits(jskw_schema *handle, struct asked a, uint32_t wanted, const uint8_t *all, size_t size) {
    uint8_t buffer[ROOM];
    /* of the last ones a part of 8, 16 or 32 bits says less */
    const uint64_t of[] = {1, 2, 3, 4, 5, 6, 7, 1 << 8, 1 << 16, 1ull << 32, (1ull << 32) + 1, 1ull << 63, UINT64_MAX};
    int holds = 1;
    for (size_t i = 0; i < sizeof of / sizeof *of; i++) {
        size_t length;
        uint32_t status = jskw_errors(handle, a.instance.bytes, a.instance.size, of[i], buffer, ROOM, &length);
        holds &= status == wanted && length == lines(all, size, of[i]) && !memcmp(buffer, all, length);
    }
    return holds;
}

/* Splits a line of rows.txt. */
static void split(char *line, char *part[8]) {
    for (int i = 0; i < 8; i++) {
        part[i] = line;
        line += strcspn(line, "\t\n");
        if (*line) *line++ = 0;
    }
}

/* Whether the calls agree, and say what the row says. */
static int says(struct asked a, const char *result, const char *wanted) {
    uint8_t buffer[ROOM], first[ROOM], tree[ROOM];
    char told[ROOM] = "";
    size_t length, first_length, none;
    jskw_schema handle = JSKW_SCHEMA_EMPTY;
    uint32_t status = call(COMPILE, a, &handle, buffer, ROOM, &length);
    int agree = 1;
    if (status == JSKW_VALID) {
        status = call(IS_VALID, a, &handle, buffer, ROOM, &none);
        agree &= status == call(FIRST_ERROR, a, &handle, first, ROOM, &first_length);
        agree &= status == call(EVALUATE, a, &handle, tree, ROOM, &none);
        agree &= status == call(ERRORS, a, &handle, buffer, ROOM, &length);
        agree &= first_length == lines(buffer, length, 1) && !memcmp(first, buffer, first_length);
        agree &= limits(&handle, a, status, buffer, length);
    }
    tell(told, (char *)buffer, status == JSKW_NOT_JSON ? 0 : length,
         status == JSKW_INEXACT ? 1 : status == JSKW_BAD_SCHEMA ? 2 : 3);
    jskw_free(&handle);
    return agree && status < 7 && !strcmp(RESULTS[status], result) && !strcmp(told, wanted);
}

/* Whether the list of what is not checked is the wanted one; or there is none, as there is no compiled schema. */
static int lists(struct asked a, const char *wanted) {
    uint8_t buffer[ROOM], refusal[ROOM];
    char told[ROOM];
    size_t length, refusal_length;
    jskw_schema handle = JSKW_SCHEMA_EMPTY;
    uint32_t compiled = call(COMPILE, a, &handle, refusal, ROOM, &refusal_length);
    uint32_t status = call(UNCHECKED, a, &handle, buffer, ROOM, &length);
    jskw_free(&handle);
    if (compiled == JSKW_NOT_JSON || compiled == JSKW_BAD_SETTING)
        return status == compiled && length == refusal_length && !memcmp(buffer, refusal, length) && !*wanted;
    tell(told, (char *)buffer, length, 2);
    return status == (uint32_t)(length ? JSKW_INVALID : JSKW_VALID) && !strcmp(told, wanted);
}

static void row(char *line, unsigned long times[CALLS]) {
    char *part[8], name[ROOM], what[ROOM + 64];
    snprintf(name, sizeof name, "%.*s", (int)strcspn(line, "\n"), line);
    split(line, part);
    struct asked a = asked_of(part[0], part[1], part[2], part[3], part[4]);
    check(name, says(a, part[5], part[6]));
    snprintf(what, sizeof what, "what is not checked: %s", name);
    check(what, lists(a, part[7]));
    for (int which = 0; which < CALLS; which++) {
        snprintf(what, sizeof what, "%s, buffers: %s", NAMES[which], name);
        check(what, buffers(which, a));
        snprintf(what, sizeof what, "%s, memory refused: %s", NAMES[which], name);
        check(what, refusals(which, a, &times[which]));
    }
    free_asked(a);
}

/* A schema is shared: each handle has it, and keeps it when the others are freed. A handle is unchanged if there is no
 * schema or no memory. */
static void shares(void) {
    jskw_schema first = JSKW_SCHEMA_EMPTY, second = JSKW_SCHEMA_EMPTY, third = JSKW_SCHEMA_EMPTY;
    check("share, empty", jskw_share(&first, &second) == JSKW_NO_SCHEMA && !first.compiled && !second.compiled);
    compile(&second, SCHEMA);
    check("share, empty, to one that is not", jskw_share(&first, &second) == JSKW_NO_SCHEMA && has_schema(&second));
    check("share", jskw_share(&second, &first) == JSKW_VALID && has_schema(&first) && has_schema(&second));
    compile(&third, "false");
    seen = 0, refused = 1, and_later = 1;
    uint32_t told = jskw_share(&first, &third);
    refused = 0;
    check("share, memory refused", told == JSKW_NO_MEMORY && seen == 1 && size_seen == 272 && has_schema(&first)
        && jskw_is_valid(&third, BYTES("1")) == JSKW_INVALID);
    check("share, in its place", jskw_share(&first, &third) == JSKW_VALID && has_schema(&third));
    check("share, again", jskw_share(&first, &third) == JSKW_VALID && has_schema(&third));
    jskw_free(&second);
    check("share, the first freed", has_schema(&first) && has_schema(&third));
    check("share, another compiled", compile(&first, "false") == JSKW_VALID && has_schema(&third));
    jskw_free(&first);
    check("share, the last", has_schema(&third));
    jskw_free(&third);
}

/* A schema is freed without an allocation. */
static void frees(void) {
    jskw_schema handle = JSKW_SCHEMA_EMPTY;
    compile(&handle, SCHEMA);
    seen = 0, and_later = 1, refused = 1;
    jskw_free(&handle);
    refused = 0;
    check("free, memory refused", seen == 0 && !handle.compiled);
}

int main(int count, char **words) {
    unsigned long times[CALLS] = {0};
    readme();
    expected();
    long_values();
    nulls();
    places();
    names();
    empty_handles();
    shares();
    frees();
    FILE *file = count > 1 ? fopen(words[1], "r") : NULL;
    check("rows", file != NULL);
    char line[ROOM];
    while (file && fgets(line, sizeof line, file))
        if (line[0] != '#') row(line, times);
    if (file) fclose(file);
    for (int which = 0; which < CALLS; which++) {
        printf("%s: %lu allocations refused\n", NAMES[which], times[which]);
        check(NAMES[which], (times[which] > 0) == (which != VERSION));
    }
    printf("%d passed, %d failed\n", passed, failed);
    return failed != 0;
}
