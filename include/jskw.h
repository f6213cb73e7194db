/* jskw: a proved JSON Schema validator (value and array keywords), called in process. `bindings/build` makes the
 * libraries libjskw.a and libjskw.so; link with one of them.
 *
 * Proved of each function: its contract in crates/jskw_c/src/lib.rt, for callers that keep to the rules below. Not
 * proved: that this header agrees with those functions, that NULL does as other pointers do, and the C compiler.
 *
 * What a caller owes; nothing checks it:
 *   - `bytes` and `size` are one block of that many bytes, at most PTRDIFF_MAX, which no one writes during the call. A
 *     `buffer` has `buffer_size` bytes that can be written; it overlaps no other block, `length` or handle. Of the size
 *     0 each of them may be NULL. No other pointer is NULL.
 *   - A jskw_schema begins as JSKW_SCHEMA_EMPTY. After that only these functions read or write it, and it is not
 *     copied: jskw_share makes another handle of its schema. A handle is in one call at a time, also in one that only
 *     checks an instance. It may pass to another thread, by a lock, by that thread's start or join, or by an atomic in
 *     sequential order (memory_order_seq_cst). Two handles of one schema may be in calls at once, each on its own
 *     thread.
 *   - malloc, realloc and free are one allocator, with blocks aligned to 16 bytes as in any C library. No call is made
 *     in a signal handler, or in a forked child of a process with threads.
 *   - There is stack: 704 KB are enough for all JSON text, which nests at most 127 levels. Of a schema that is so deep
 *     jskw_compile takes 600 KB, jskw_evaluate 390 KB, and a check 290 KB, with 352 KB more for a long `uniqueItems`.
 *
 * No function keeps a pointer to `bytes` or `buffer`. None ends the process, prints, or waits. A handle that is not
 * freed is lost memory, and nothing else; a schema is freed with the last of its handles. A handle keeps the memory
 * that instances of up to 64 KB took, for those that follow: some 10 to 20 times the largest, and 4 MB at most. It is
 * freed with the handle.
 *
 * Texts. *length becomes the length of the text, also if the buffer is too small for it; then the buffer is unchanged,
 * and the call can be made again with a larger one. No text ends with a 0 byte. A text of lines has a line feed at the
 * end of each line and a tab between two words; in a word a tab, a line feed and a backslash are written \t, \n and
 * \\. Locations are JSON pointers.
 *
 * Numbers of an instance are exact: c / 10^k with c from -2^63 to 2^64-1 and k from 0 to 18, or from 1 to 18 if it is
 * written with a point or an exponent (docs/USE.md, "Decimals"). Numbers in the keywords of a schema are whole, from
 * -2^63 to 2^64-1.
 *
 * Versions. Within a minor version (0.3.*) no function, number or word of a line is changed or taken away, so that a
 * program need not be compiled again; words may be added at the end of a line. Another minor version may differ in all
 * of it, and its file has another name: this one is libjskw.so.0.3. */
#ifndef JSKW_H
#define JSKW_H

#include <stddef.h>
#include <stdint.h>

#ifdef __cplusplus
extern "C" {
#endif

#define JSKW_VERSION "0.3.0"
#define JSKW_VERSION_MAJOR 0
#define JSKW_VERSION_MINOR 3
#define JSKW_VERSION_PATCH 0

enum {
    JSKW_VALID = 0,       /* the instance is valid; of jskw_compile and jskw_share: the handle has the schema; of
                           * jskw_unchecked: nothing is unchecked */
    JSKW_INVALID = 1,     /* the instance has errors; of jskw_unchecked: the text has lines */
    JSKW_REFUSED = 2,     /* of jskw_answer: no verdict, and the text says why */
    JSKW_NOT_JSON = 3,    /* the schema or the instance is not JSON in UTF-8, or nests more than 127 levels, or has the
                           * escape of a lone surrogate; or the schema has a number that is too large for a double */
    JSKW_INEXACT = 4,     /* the instance contains a number that is not exact; the text is the line of its place */
    JSKW_BAD_SCHEMA = 5,  /* the schema does not compile; the text is the line of the refusal */
    JSKW_BAD_SETTING = 6, /* no such draft or set of vocabularies, or `overridden` is no JSON array of strings */
    JSKW_NO_SCHEMA = 7,   /* the handle is empty, or it is in another call, in which it must not be */
    JSKW_NO_MEMORY = 8,   /* malloc refused; handle and buffer are unchanged, *length is 0 */
    JSKW_TOO_SMALL = 9    /* the text is longer than the buffer; handle and buffer are unchanged */
};

/* The name of a status, as "JSKW_VALID", or "?" for any other number. */
static inline const char *jskw_status_name(uint32_t status) {
    static const char *const names[] = {
        "JSKW_VALID", "JSKW_INVALID", "JSKW_REFUSED", "JSKW_NOT_JSON", "JSKW_INEXACT", "JSKW_BAD_SCHEMA",
        "JSKW_BAD_SETTING", "JSKW_NO_SCHEMA", "JSKW_NO_MEMORY", "JSKW_TOO_SMALL",
    };
    return status < sizeof names / sizeof *names ? names[status] : "?";
}

/* Vocabularies, to be added up. Drafts 4, 6 and 7 have all three, whatever set is given. */
enum { JSKW_CORE = 1, JSKW_APPLICATOR = 2, JSKW_VALIDATION = 4, JSKW_ALL = 7 };

/* A handle: a compiled schema, or none. */
typedef struct jskw_schema { void *compiled; } jskw_schema;
#define JSKW_SCHEMA_EMPTY { 0 }

/* The version of this library and that of the logic that it was proved in, a line each. Of a library that was not
 * proved the second line is `unproved`. */
uint32_t jskw_version(uint8_t *buffer, size_t buffer_size, size_t *length);

/* Answers a request, a JSON object with `schema` and `instance` (docs/USE.md), as the program jskw does: JSKW_VALID,
 * JSKW_INVALID or JSKW_REFUSED, and the text that the program prints. Words of that text are not escaped. It refuses an
 * instance with a float: a number with a point or an exponent, `-0`, or one outside the range of whole numbers. */
uint32_t jskw_answer(const uint8_t *bytes, size_t size, uint8_t *buffer, size_t buffer_size, size_t *length);

/* Compiles a schema into a handle, which is in no other call, and frees the schema that it had. `draft` is 4, 6, 7,
 * 2019 or 2020. `overridden` is a JSON array of the names of overridden keywords, or has the size 0. If the schema does
 * not compile, the handle is unchanged, and the text of JSKW_BAD_SCHEMA is a line: keyword, keyword location, message,
 * expected value. The text of JSKW_NOT_JSON is the line that jskw_first_error has for an instance, or empty if the
 * schema is JSON with a number that is too large for a double, such as 1e999. */
uint32_t jskw_compile(uint32_t draft, uint32_t vocabularies, const uint8_t *overridden, size_t overridden_size,
                      const uint8_t *bytes, size_t size, jskw_schema *schema, uint8_t *buffer, size_t buffer_size,
                      size_t *length);

/* What is not checked of a schema: a line for each of its members that asserts nothing under this setting, keyword
 * location and reason, in the order of the names' bytes. Members of the subschemas that items, prefixItems,
 * additionalItems and contains apply have their lines too; what stands below a member that has a line is not looked at.
 * The reason is
 *     notImplemented  a keyword of the draft that asserts or applies something, which this library does not have
 *     unknown         no keyword of the draft, such as a misspelt one
 *     inactive        a keyword of this library that asserts nothing as it stands: the draft or the vocabularies do not
 *                     have it, it is overridden, what it goes with is absent, or it passes over such a value
 *     repeated        a member, wherever in the text it stands, that a later one of its object replaces, since it has
 *                     the same name; behind all other lines, the members of an object from the last to the first
 * Annotations such as `title` have no line (docs/USE.md). The name of the member is what stands behind the last `/` of
 * the location, where ~1 is a `/` and ~0 a `~`.
 *
 * JSKW_VALID and an empty text: all that the schema says is asserted, if jskw_compile takes it with the same setting;
 * else JSKW_INVALID. JSKW_NOT_JSON, with the line that jskw_compile has; JSKW_BAD_SETTING, JSKW_NO_MEMORY,
 * JSKW_TOO_SMALL. A schema that jskw_compile refuses has its lines too. */
uint32_t jskw_unchecked(uint32_t draft, uint32_t vocabularies, const uint8_t *overridden, size_t overridden_size,
                        const uint8_t *bytes, size_t size, uint8_t *buffer, size_t buffer_size, size_t *length);

/* Puts the schema of the handle `from` into the handle `to` too, without compiling it again, and frees the schema that
 * `to` had. The two are different handles, and neither is in another call. JSKW_VALID; JSKW_NO_SCHEMA or
 * JSKW_NO_MEMORY, and both are unchanged. It allocates 272 bytes. Calls write to their handles: those of two threads
 * are best 64 bytes apart. */
uint32_t jskw_share(jskw_schema *from, jskw_schema *to);

/* Whether an instance is valid: JSKW_VALID, JSKW_INVALID, JSKW_NOT_JSON, JSKW_INEXACT, JSKW_NO_SCHEMA,
 * JSKW_NO_MEMORY. The whole text is checked, as by the functions below. But memory and most of the time are taken only
 * for what the schema looks at: of an object its names, unless const, enum or uniqueItems compare it.
 *
 * The handle is in no other call, although this one leaves it with the same schema: threads that check at once have a
 * handle each, by jskw_share. That is so of the next three functions too. Where a caller lets two calls meet on one
 * handle all the same, one of them finds no schema, which is no verdict: compare a status with JSKW_VALID. */
uint32_t jskw_is_valid(jskw_schema *schema, const uint8_t *bytes, size_t size);

/* The same, and the line of the first error: keyword, instance location, keyword location, message, expected value. It
 * is not proved what the messages of these two functions and of jskw_compile say.
 *
 * The keyword says what kind of error it is, and the expected value is JSON without spaces:
 *     additionalItems, maxItems, minItems, maxProperties, minProperties      the limit, from 0 to 2^64-1
 *     maximum, exclusiveMaximum, minimum, exclusiveMinimum                   the limit, from -2^63 to 2^64-1
 *     multipleOf                                                             the divisor, from 1 to 2^64-1
 *     const             the constant, or an empty word if its text is longer than 1,024 bytes: the schema has it
 *     enum              the array of the options, or an empty word as of const (of a refusal: the seven types' names)
 *     type              the name of the type, as "string", or an array of names in alphabetical order
 *     required          the name that is missing, as "age"
 *     contains, uniqueItems, falseSchema (the schema `false`), compileError (of a refusal)       an empty word
 * Members of an object in a constant or an option are in the order of their names.
 *
 * If the status is JSKW_INEXACT, the text is a line with the location of the first such number and its place in the
 * text: the offset in bytes, and the line and the column, from 1 on; a column counts characters. If it is
 * JSKW_NOT_JSON, the text is a line with the place at which the instance stops being JSON (docs/USE.md, "Decimals"), as
 * three such numbers, and then why, as a word and in words for people, which may change. The word is one of
 *     notUtf8 byteOrderMark earlyEnd moreText comma missingComma trailingComma colon missingColon name bracket word
 *     number unclosedString controlCharacter escape, or of what JSON allows: loneSurrogate tooDeep */
uint32_t jskw_first_error(jskw_schema *schema, const uint8_t *bytes, size_t size, uint8_t *buffer, size_t buffer_size,
                          size_t *length);

/* The same, and a line for each of the first `limit` errors, or for each error if `limit` is 0. */
uint32_t jskw_errors(jskw_schema *schema, const uint8_t *bytes, size_t size, uint64_t limit, uint8_t *buffer,
                     size_t buffer_size, size_t *length);

/* The same as jskw_first_error, but for a verdict the text is the evaluation tree as JSON. A node is an object with
 * `valid`, `keywordLocation`, `instanceLocation`, `annotation` (a boolean, a number, an array of numbers, or null),
 * `errors` (the keywords of its errors) and `details` (the nodes below). */
uint32_t jskw_evaluate(jskw_schema *schema, const uint8_t *bytes, size_t size, uint8_t *buffer, size_t buffer_size,
                       size_t *length);

/* Frees the schema of a handle, which is in no other call. It is empty then and can be used again. An empty handle is
 * unchanged. */
void jskw_free(jskw_schema *schema);

#ifdef __cplusplus
}
#endif

#endif
