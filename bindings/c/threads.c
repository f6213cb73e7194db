/* Tests that threads share schemas: eight threads ask handles of their own, each made by jskw_share, of which the main
 * thread frees its own before they begin; two others compile, share and free all the while. Every answer is compared.
 *
 *     threads ROUNDS         so many rounds in each thread; under valgrind's helgrind 50 are enough
 *     threads KB stack       each call in a thread with so much stack, on the deepest schema and instance that there are
 *     threads ROUNDS meet    what no caller may do: two threads check by one handle, while a third compiles into it and
 *                            frees it; each call answers, or finds no schema, and the schema is there in the end
 *     threads SECONDS s      as many rounds as each does in so many seconds
 *     threads SECONDS rate   the calls of jskw_is_valid in a second by 1, 2 and 4 threads, the most of several turns:
 *                            threads, the calls by the clock, those by the time that processors spent in the threads,
 *                            and the share of a processor that a thread had (bench/threads prints a table of them)
 *
 * The last line is `N passed, M failed`. */
#include <pthread.h>
#include <stdio.h>
#include <stdlib.h>
#include <string.h>
#include <time.h>

#include "jskw.h"

#define BYTES(text) (const uint8_t *)(text), strlen(text)
#define MEMBER "{\"required\":[\"name\",\"age\"],\"minProperties\":2}"
#define LIST "{\"items\":{\"type\":\"integer\",\"minimum\":0},\"uniqueItems\":true,\"enum\":[[1,2,3,4,5],[7]]}"

enum { ASKERS = 8, COMPILERS = 2, THREADS = ASKERS + COMPILERS };

/* A call writes to its handle: those of two threads are not to share a line of the cache. */
struct job {
    _Alignas(128) pthread_t thread;
    jskw_schema member, list;
    long rounds, wrong, done;
    double seconds, used;
};

static double read_clock(clockid_t clock) {
    struct timespec time;
    clock_gettime(clock, &time);
    return (double)time.tv_sec + (double)time.tv_nsec / 1e9;
}

static double now(void) { return read_clock(CLOCK_MONOTONIC); }

static uint32_t compile(jskw_schema *handle, const char *schema) {
    uint8_t buffer[1];
    size_t length;
    return jskw_compile(2020, JSKW_ALL, BYTES(""), BYTES(schema), handle, buffer, 0, &length);
}

/* Whether there is a round left to do. */
static int goes_on(struct job *job, double begun) {
    job->done++;
    return job->seconds > 0 ? now() - begun < job->seconds : job->done <= job->rounds;
}

static void *ask(void *of) {
    static const char wanted[] = "minProperties\t\t/minProperties\thas 1 member, needs at least 2\t2\n";
    struct job *job = of;
    uint8_t buffer[1024];
    size_t length;
    for (double begun = now(); goes_on(job, begun);) {
        job->wrong += jskw_is_valid(&job->member, BYTES("{\"name\":\"Ada\",\"age\":36}")) != JSKW_VALID;
        uint32_t status = jskw_errors(&job->member, BYTES("{\"age\":36}"), 1, buffer, sizeof buffer, &length);
        job->wrong += status != JSKW_INVALID || length != strlen(wanted) || memcmp(buffer, wanted, length);
        job->wrong += jskw_is_valid(&job->list, BYTES("[1,2,3.0,4,5]")) != JSKW_VALID;
        job->wrong += jskw_evaluate(&job->list, BYTES("[1.5]"), buffer, sizeof buffer, &length) != JSKW_INVALID;
        jskw_schema another = JSKW_SCHEMA_EMPTY;
        job->wrong += jskw_share(&job->list, &another) != JSKW_VALID;
        job->wrong += jskw_is_valid(&another, BYTES("[1,2,1]")) != JSKW_INVALID;
        jskw_free(&another);
    }
    jskw_free(&job->member);
    jskw_free(&job->list);
    return NULL;
}

static void *make(void *of) {
    struct job *job = of;
    for (double begun = now(); goes_on(job, begun);) {
        jskw_schema another = JSKW_SCHEMA_EMPTY;
        job->wrong += compile(&another, MEMBER) != JSKW_VALID || jskw_share(&another, &job->member) != JSKW_VALID;
        job->wrong += compile(&another, "false") != JSKW_VALID;
        job->wrong += jskw_is_valid(&another, BYTES("1")) != JSKW_INVALID;
        job->wrong += jskw_is_valid(&job->member, BYTES("{\"age\":36,\"name\":1}")) != JSKW_VALID;
        jskw_free(&another);
    }
    jskw_free(&job->member);
    jskw_free(&job->list);
    return NULL;
}

/* Appends a text so many times. */
static void repeat(char *to, const char *text, int times) {
    for (char *end = to + strlen(to); times > 0; times--) end += sprintf(end, "%s", text);
}

static void *go_deep(void *of) {
    enum { LEVELS = 126, ROOM = 1 << 20 };
    struct job *job = of;
    char *schema = calloc(1, ROOM), *instance = calloc(1, ROOM);
    uint8_t *buffer = malloc(ROOM);
    size_t length;
    repeat(schema, "{\"items\":", LEVELS);
    repeat(schema, "{\"uniqueItems\":true}", 1);
    repeat(schema, "}", LEVELS);
    repeat(instance, "[", LEVELS + 1);
    /* as many as are compared on the stack */
    for (int i = 0; i < 60000; i++) sprintf(instance + LEVELS + 1 + 7 * i, "%6d,", i);
    repeat(instance, "1", 1);
    repeat(instance, "]", LEVELS + 1);
    job->wrong += compile(&job->list, schema) != JSKW_VALID || jskw_is_valid(&job->list, BYTES(instance)) != JSKW_INVALID;
    job->wrong += jskw_errors(&job->list, BYTES(instance), 0, buffer, ROOM, &length) != JSKW_INVALID;
    job->wrong += jskw_evaluate(&job->list, BYTES(instance), buffer, ROOM, &length) != JSKW_INVALID;
    uint32_t unchecked = jskw_unchecked(2020, JSKW_ALL, NULL, 0, BYTES(schema), buffer, ROOM, &length);
    job->wrong += unchecked != JSKW_VALID || jskw_answer(BYTES(schema), buffer, ROOM, &length) != JSKW_REFUSED;
    jskw_free(&job->list);
    free(schema);
    free(instance);
    free(buffer);
    return NULL;
}

static long deep(long kilobytes) {
    struct job job = {0};
    pthread_attr_t with;
    pthread_attr_init(&with);
    if (pthread_attr_setstacksize(&with, (size_t)kilobytes << 10)) return 1;
    return pthread_create(&job.thread, &with, go_deep, &job) || pthread_join(job.thread, NULL) || job.wrong;
}

/* The handle that threads meet at. */
static jskw_schema common;

static void *meet(void *of) {
    struct job *job = of;
    uint8_t buffer[1024];
    size_t length;
    for (long i = 0; i < job->rounds * 100; i++) {
        uint32_t status = jskw_is_valid(&common, BYTES("{\"name\":\"Ada\",\"age\":36}"));
        job->wrong += status != JSKW_VALID && status != JSKW_NO_SCHEMA;
        status = jskw_errors(&common, BYTES("{\"age\":36}"), 0, buffer, sizeof buffer, &length);
        job->wrong += status != JSKW_INVALID && status != JSKW_NO_SCHEMA;
    }
    return NULL;
}

static void *disturb(void *of) {
    struct job *job = of;
    for (long i = 0; i < job->rounds; i++) {
        job->wrong += compile(&common, MEMBER) != JSKW_VALID;
        if (i % 3 == 0) jskw_free(&common);
    }
    return NULL;
}

/* Lets threads meet, the first two alone and then all three. */
static long meetings(long rounds) {
    long wrong = 0;
    for (int threads = 2; threads <= 3; threads++) {
        struct job jobs[3] = {0};
        wrong += compile(&common, MEMBER) != JSKW_VALID;
        for (int i = 0; i < threads; i++) {
            jobs[i].rounds = rounds;
            wrong += pthread_create(&jobs[i].thread, NULL, i < 2 ? meet : disturb, &jobs[i]) != 0;
        }
        for (int i = 0; i < threads; i++) wrong += pthread_join(jobs[i].thread, NULL) != 0 || jobs[i].wrong != 0;
        if (threads == 2) wrong += jskw_is_valid(&common, BYTES("{\"name\":1,\"age\":2}")) != JSKW_VALID;
    }
    jskw_free(&common);
    return wrong;
}

static void *count(void *of) {
    struct job *job = of;
    job->done = 0;
    for (double begun = now(); now() - begun < job->seconds; job->done += 1000)
        for (int i = 0; i < 1000; i++)
            job->wrong += jskw_is_valid(&job->member, BYTES("{\"name\":\"Ada\",\"age\":36}")) != JSKW_VALID;
    job->used = read_clock(CLOCK_THREAD_CPUTIME_ID);
    jskw_free(&job->member);
    return NULL;
}

/* Runs so many jobs and adds up the wrong answers. */
static long run(struct job *jobs, int threads, void *(*first)(void *), void *(*others)(void *)) {
    long wrong = 0;
    for (int i = 0; i < threads; i++)
        if (pthread_create(&jobs[i].thread, NULL, i < ASKERS ? first : others, &jobs[i])) return 1;
    for (int i = 0; i < threads; i++) wrong += pthread_join(jobs[i].thread, NULL) != 0 || jobs[i].wrong != 0;
    return wrong;
}

static long rates(jskw_schema *member, double seconds) {
    enum { TURNS = 10, MOST = 4 };
    long wrong = 0;
    double by_clock[MOST + 1] = {0}, by_processor[MOST + 1] = {0}, share[MOST + 1] = {0};
    for (int turn = 0; turn < TURNS; turn++)
        for (int threads = 1; threads <= MOST; threads *= 2) {
            struct job jobs[MOST] = {0};
            double calls = 0, rate = 0, used = 0;
            for (int i = 0; i < threads; i++) {
                jobs[i].seconds = seconds / (3 * TURNS);
                wrong += jskw_share(member, &jobs[i].member) != JSKW_VALID;
            }
            double begun = now();
            wrong += run(jobs, threads, count, count);
            double lasted = now() - begun;
            for (int i = 0; i < threads; i++) {
                calls += (double)jobs[i].done;
                rate += (double)jobs[i].done / jobs[i].used;
                used += jobs[i].used;
            }
            if (calls / lasted > by_clock[threads]) {
                by_clock[threads] = calls / lasted;
                share[threads] = used / lasted / threads;
            }
            if (rate > by_processor[threads]) by_processor[threads] = rate;
        }
    for (int threads = 1; threads <= MOST; threads *= 2)
        printf("%d %.0f %.0f %.2f\n", threads, by_clock[threads], by_processor[threads], share[threads]);
    return wrong;
}

int main(int words, char **word) {
    struct job jobs[THREADS] = {0};
    jskw_schema member = JSKW_SCHEMA_EMPTY, list = JSKW_SCHEMA_EMPTY;
    long wrong = compile(&member, MEMBER) != JSKW_VALID || compile(&list, LIST) != JSKW_VALID;
    const char *mode = words > 2 ? word[2] : "";
    if (!strcmp(mode, "rate")) wrong += rates(&member, atof(word[1]));
    if (!strcmp(mode, "meet")) wrong += meetings(atol(word[1]));
    if (!strcmp(mode, "stack")) wrong += deep(atol(word[1]));
    for (int i = 0; i < THREADS; i++) {
        wrong += jskw_share(&member, &jobs[i].member) != JSKW_VALID || jskw_share(&list, &jobs[i].list) != JSKW_VALID;
        jobs[i].rounds = words == 2 ? atol(word[1]) : 1000;
        jobs[i].seconds = !strcmp(mode, "s") ? atof(word[1]) : 0;
    }
    jskw_free(&member);
    jskw_free(&list);
    wrong += run(jobs, THREADS, ask, make);
    printf("%d passed, %d failed\n", !wrong, wrong != 0);
    return wrong != 0;
}
