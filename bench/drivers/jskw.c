/* Times jskw_is_valid from C: texts, as timing.py describes. */
#define _POSIX_C_SOURCE 200809L
#include <stdio.h>
#include <stdlib.h>
#include <string.h>
#include <time.h>

#include "jskw.h"

static double now(void) {
    struct timespec t;
    clock_gettime(CLOCK_MONOTONIC, &t);
    return (double)t.tv_sec * 1e9 + (double)t.tv_nsec;
}

static int answer_line(const char *name, const char *schema, const char *text, long count) {
    size_t size = strlen(text), length;
    uint8_t none[1];
    jskw_schema handle = JSKW_SCHEMA_EMPTY;
    uint32_t status = jskw_compile(7, JSKW_ALL, none, 0, (const uint8_t *)schema, strlen(schema), &handle, none, 0, &length);
    if (status != JSKW_VALID) return 2;
    double start = now();
    for (long i = 0; i < count; i++)
        if ((status = jskw_is_valid(&handle, (const uint8_t *)text, size)) > JSKW_INVALID) return 2;
    printf("%s\t%s\t%.1f\n", name, status == JSKW_VALID ? "valid" : "invalid", (now() - start) / (double)count);
    jskw_free(&handle);
    return 0;
}

int main(int words, char **word) {
    char *line = NULL;
    size_t room = 0;
    int status = words == 2 ? 0 : 2;
    while (status == 0 && getline(&line, &room, stdin) > 0) {
        char *name = strtok(line, "\t"), *schema = strtok(NULL, "\t"), *text = strtok(NULL, "\n");
        status = text ? answer_line(name, schema, text, atol(word[1])) : 2;
    }
    free(line);
    return status;
}
