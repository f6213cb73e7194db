/* Prints the errors of the JSON text in each line of standard input. After bindings/build, at the root:
 *     cc -O2 -Iinclude -o example bindings/c/example.c bindings/out/libjskw.a && echo '{"age":36}' | ./example */
#define _POSIX_C_SOURCE 200809L
#include <stdio.h>
#include <stdlib.h>
#include <string.h>
#include <sys/types.h>

#include "jskw.h"

/* The most errors of a line that are printed. */
#define LIMIT 100

/* Calls jskw_errors with a buffer that is large enough. The caller frees the text, which is NULL if there is none. */
static uint32_t errors_of(jskw_schema *schema, const char *text, size_t size, char **errors, size_t *length) {
    size_t room = 4096;
    for (;;) {
        *errors = malloc(room);
        if (!*errors) return JSKW_NO_MEMORY;
        uint32_t status =
            jskw_errors(schema, (const uint8_t *)text, size, LIMIT, (uint8_t *)*errors, room, length);
        if (status != JSKW_TOO_SMALL) return status;
        free(*errors);
        room = *length;
    }
}

int main(void) {
    const char *text = "{\"required\":[\"name\",\"age\"],\"minProperties\":2}";
    jskw_schema schema = JSKW_SCHEMA_EMPTY;
    char refusal[256];
    size_t length;
    uint32_t status = jskw_compile(2020, JSKW_ALL, (const uint8_t *)"", 0, (const uint8_t *)text, strlen(text), &schema,
                                   (uint8_t *)refusal, sizeof refusal, &length);
    if (status != JSKW_VALID) return fprintf(stderr, "no schema: %s\n", jskw_status_name(status)), 2;
    char *line = NULL, *errors = NULL;
    size_t room = 0;
    for (ssize_t size; (size = getline(&line, &room, stdin)) >= 0; free(errors)) {
        status = errors_of(&schema, line, (size_t)size, &errors, &length);
        if (status == JSKW_VALID) puts("valid");
        else if (status == JSKW_INVALID) fwrite(errors, 1, length, stdout);
        else printf("not checked: %s\n", jskw_status_name(status));
    }
    free(line);
    jskw_free(&schema);
    return 0;
}
