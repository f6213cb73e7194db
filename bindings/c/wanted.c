/* Tests that jskw_is_valid takes no memory for what the schema does not look at, keyword by keyword: no clause says
 * so, since one that reads all is right too; and that it sees what the schema looks at, and what is not JSON in what it
 * passes over. Each `#` of an instance is an object of many members. The last line is
 * `N passed, M failed`. Link with
 * -Wl,--wrap=malloc,--wrap=realloc,--wrap=calloc,--wrap=aligned_alloc,--wrap=posix_memalign. */
#include <stdio.h>
#include <stdlib.h>
#include <string.h>

#include "jskw.h"

#define MEMBERS 2000
/* the bytes that a call may take: some nodes and lists; the tree of one `#` takes more than the other number */
#define MOST 10000
#define LEAST_OF_TREE 200000

/* ---- the bytes that were asked for */

static size_t taken;

void *__real_malloc(size_t);
void *__real_realloc(void *, size_t);
void *__real_calloc(size_t, size_t);
void *__real_aligned_alloc(size_t, size_t);
int __real_posix_memalign(void **, size_t, size_t);
void *__wrap_malloc(size_t size) { return taken += size, __real_malloc(size); }
void *__wrap_realloc(void *old, size_t size) { return taken += size, __real_realloc(old, size); }
void *__wrap_calloc(size_t count, size_t size) { return taken += count * size, __real_calloc(count, size); }
void *__wrap_aligned_alloc(size_t align, size_t size) { return taken += size, __real_aligned_alloc(align, size); }
int __wrap_posix_memalign(void **to, size_t align, size_t size) {
    return taken += size, __real_posix_memalign(to, align, size);
}

/* ---- schemas, each with an instance that is valid, or invalid if `fails` */

static const struct {
    uint32_t draft;
    const char *schema, *instance;
    int fails;
} CASES[] = {
    {2020, "{\"type\":\"object\"}", "#", 0},
    {2020, "{\"type\":[\"null\",\"string\"]}", "#", 1},
    {2020, "{\"minItems\":2}", "[#,#]", 0},
    {2020, "{\"maxItems\":2}", "[#,#,#]", 1},
    {2020, "{\"items\":{\"type\":\"object\"}}", "[#,#]", 0},
    {2020, "{\"prefixItems\":[{\"type\":\"object\"}]}", "[#,#]", 0},
    {2020, "{\"prefixItems\":[{}],\"items\":{\"type\":\"object\"}}", "[#,#]", 0},
    {7, "{\"items\":[{}],\"additionalItems\":{\"type\":\"object\"}}", "[#,#]", 0},
    {7, "{\"items\":[{\"type\":\"null\"}]}", "[#]", 1},
    {2020, "{\"contains\":{\"type\":\"object\"}}", "[#]", 0},
    {2020, "{\"contains\":{\"type\":\"object\"},\"minContains\":2}", "[#,#]", 0},
    {2020, "{\"contains\":{\"type\":\"object\"},\"maxContains\":1}", "[#,#]", 1},
    {2020, "{\"uniqueItems\":true}", "#", 0},
    {2020, "{\"items\":{\"uniqueItems\":true}}", "[#,[1,2]]", 0},
    {2020, "{\"const\":5}", "#", 1},
    {2020, "{\"const\":\"a\"}", "#", 1},
    {2020, "{\"items\":{\"const\":{}}}", "#", 0},
    {2020, "{\"enum\":[1,\"a\",null]}", "#", 1},
    {2020, "{\"items\":{\"enum\":[[1],2]}}", "#", 0},
    {2020, "{\"enum\":[[1],2]}", "#", 1},
    {2020, "{\"items\":{\"const\":[\"a\"]}}", "[#]", 1},
    {2020, "{\"minimum\":1}", "#", 0},
    {2020, "{\"maximum\":1}", "#", 0},
    {2020, "{\"exclusiveMinimum\":1}", "#", 0},
    {2020, "{\"exclusiveMaximum\":1}", "#", 0},
    {4, "{\"minimum\":1,\"exclusiveMinimum\":true}", "#", 0},
    {2020, "{\"multipleOf\":2}", "#", 0},
    {2020, "{\"minProperties\":1}", "{\"a\":#}", 0},
    {2020, "{\"maxProperties\":1}", "{\"a\":#,\"b\":#}", 1},
    {2020, "{\"required\":[\"a\"]}", "{\"a\":#,\"b\":#}", 0},
    {2020, "{\"required\":[\"a\"]}", "#", 1},
    {2020, "{\"type\":\"array\",\"minItems\":1,\"maxItems\":2,\"items\":{\"type\":\"object\"}}", "[#]", 0},
    {2020, "{\"properties\":{\"a\":{\"minItems\":1}}}", "{\"a\":#}", 0},
    {2020, "true", "#", 0},
    {2020, "false", "#", 1},
};

/* Schemas that compare the instance, which is invalid: what they take is its tree. */
static const struct {
    const char *schema, *instance;
} WHOLE[] = {
    {"{\"const\":{}}", "#"},
    {"{\"enum\":[[1],2]}", "[#]"},
    {"{\"uniqueItems\":true}", "[#,#]"},
};

/* Instances that are small, and all of which the schema looks at. */
#define NAMES17 \
    "\"a\",\"b\",\"c\",\"d\",\"e\",\"f\",\"g\",\"h\",\"i\",\"j\",\"k\",\"l\",\"m\",\"n\",\"o\",\"p\",\"q\""
#define MEMBERS16 \
    "\"a\":1,\"b\":1,\"c\":1,\"d\":1,\"e\":1,\"f\":1,\"g\":1,\"h\":1," \
    "\"i\":1,\"j\":1,\"k\":1,\"l\":1,\"m\":1,\"n\":1,\"o\":1,\"p\":1"

static const struct {
    uint32_t draft;
    const char *schema, *instance;
    int fails;
} SEEN[] = {
    {2020, "{\"const\":\"a\"}", "\"a\"", 0},
    {2020, "{\"const\":\"a\"}", "\"b\"", 1},
    {2020, "{\"enum\":[1,\"a\"]}", "\"a\"", 0},
    {2020, "{\"const\":{\"a\":[1]}}", "{\"a\":[2]}", 1},
    {2020, "{\"enum\":[0,[{\"a\":1}]]}", "[{\"a\":1}]", 0},
    {2020, "{\"const\":[\"a\"]}", "[\"b\"]", 1},
    {2020, "{\"uniqueItems\":true}", "[\"a\",\"b\",{\"c\":1},{\"c\":2}]", 0},
    {2020, "{\"required\":[" NAMES17 "]}", "{" MEMBERS16 ",\"q\":1}", 0},
    {2020, "{\"required\":[" NAMES17 "]}", "{" MEMBERS16 "}", 1},
    {2020, "{\"minProperties\":2}", "{\"a\":1,\"b\":1}", 0},
    {2020, "{\"maxProperties\":1}", "{\"a\":1,\"b\":1}", 1},
    {2020, "{\"items\":{\"required\":[\"a\"]}}", "[{\"a\":1}]", 0},
    {2020, "{\"prefixItems\":[{\"required\":[\"a\"]}]}", "[{\"a\":1}]", 0},
    {2020, "{\"contains\":{\"required\":[\"a\"]}}", "[1,{\"a\":1}]", 0},
    {7, "{\"items\":[{}],\"additionalItems\":{\"required\":[\"a\"]}}", "[1,{\"a\":1}]", 0},
    {7, "{\"items\":[{},{\"required\":[\"a\"]}]}", "[1,{\"a\":1}]", 0},
};

/* Texts that are not JSON, nor as the value of a member, of which a schema that accepts everything looks at nothing. */
static const char *const BROKEN[] = {
    "[2 1]", "[1 1]", "[[1] [1]]", "{\"a\":1]", "[1}", "{\"a\" 1}", "{\"a\":[{\"b\" 1}]}", "{a:1}", "[1,]",
    "{\"a\":1,}", "[01]", "[tru]", "{\"a\":\"b}", "[\"\\x\"]", "[1", "{\"a\":{}", "[] 1", "{\"a\":1 \"b\":1}",
};

/* The text of an instance, each `#` of which is an object of many members. */
static char *text_of(const char *instance) {
    char *text = __real_malloc(strlen(instance) * (MEMBERS * 32 + 2) + 1);
    size_t length = 0;
    for (; *instance; instance++) {
        if (*instance != '#') {
            text[length++] = *instance;
            continue;
        }
        for (int i = 0; i < MEMBERS; i++)
            length += (size_t)sprintf(text + length, "%s\"name%d\":\"0123456789\"", i ? "," : "{", i);
        text[length++] = '}';
    }
    text[length] = 0;
    return text;
}

static int passed, failed;

/* Checks the status of an instance under a schema, and whether the call took from so many bytes to so many. */
static void check(uint32_t draft, const char *schema, const char *instance, uint32_t wanted, size_t least,
                  size_t most) {
    jskw_schema handle = JSKW_SCHEMA_EMPTY;
    uint8_t out[256];
    size_t length;
    char *text = text_of(instance);
    uint32_t compiled = jskw_compile(draft, JSKW_ALL, NULL, 0, (const uint8_t *)schema, strlen(schema), &handle, out,
                                     sizeof out, &length);
    taken = 0;
    uint32_t status = jskw_is_valid(&handle, (const uint8_t *)text, strlen(text));
    size_t bytes = taken;
    if (compiled == JSKW_VALID && status == wanted && least <= bytes && bytes <= most)
        passed++;
    else
        failed++, printf("FAILED: %s, %s: %s, %zu bytes\n", schema, instance, jskw_status_name(status), bytes);
    jskw_free(&handle);
    free(text);
}

int main(void) {
    for (size_t i = 0; i < sizeof CASES / sizeof *CASES; i++)
        check(CASES[i].draft, CASES[i].schema, CASES[i].instance, CASES[i].fails ? JSKW_INVALID : JSKW_VALID, 0, MOST);
    for (size_t i = 0; i < sizeof WHOLE / sizeof *WHOLE; i++)
        check(2020, WHOLE[i].schema, WHOLE[i].instance, JSKW_INVALID, LEAST_OF_TREE, (size_t)-1);
    for (size_t i = 0; i < sizeof SEEN / sizeof *SEEN; i++)
        check(SEEN[i].draft, SEEN[i].schema, SEEN[i].instance, SEEN[i].fails ? JSKW_INVALID : JSKW_VALID, 0, MOST);
    for (size_t i = 0; i < sizeof BROKEN / sizeof *BROKEN; i++) {
        char member[64];
        sprintf(member, "{\"z\":%s}", BROKEN[i]);
        check(2020, "true", BROKEN[i], JSKW_NOT_JSON, 0, (size_t)-1);
        check(2020, "true", member, JSKW_NOT_JSON, 0, (size_t)-1);
    }
    for (int depth = 127; depth < 129; depth++) {
        char text[128 * 6 + 2] = "";
        for (int i = 0; i < depth; i++) strcat(text, i + 1 < depth ? "{\"a\":" : "{");
        for (int i = 0; i < depth; i++) strcat(text, "}");
        check(2020, "true", text, depth < 128 ? JSKW_VALID : JSKW_NOT_JSON, 0, (size_t)-1);
    }
    printf("%d passed, %d failed\n", passed, failed);
    return failed > 0;
}
