/*
 * Measures the calls of the library, and of the independent model beside it, in one process. One word says what:
 *
 *   check   that both answer alike and leave the same octets, on every call that is measured
 *   time    nanoseconds of a call, the least of many repeats, without the copy that restores the table
 *   count   each call once between count_begins and count_ends, for callgrind or an emulator's trace
 *   stack   octets of stack below the caller, on a painted stack
 *   scene   the tables and frames themselves, as they lie in memory, for a later run that is handed them
 *
 * bench WORD [PORTS [SCENE]]: for every port count or that one, with tables that it makes or that are read from the file SCENE. A slow
 * emulator is spared the making. Prints lines of five fields, parted by tabs: what, call, ports, side, figure.
 */
#define _XOPEN_SOURCE 700
#include "count.h"
#include "scene.h"

#include <stdio.h>
#include <stdlib.h>
#include <string.h>
#include <time.h>
#include <ucontext.h>

/* 31 is the most that one of the peers of docs/BENCHMARKS.md takes; it comes last, since the model's heap remembers what came before */
static const uint32_t PORT_COUNTS[] = {1, 2, 4, 8, 16, 32, 31};
enum { PORT_COUNTS_COUNT = sizeof PORT_COUNTS / sizeof PORT_COUNTS[0] };

/* a call that does nothing: what it takes to make one */
static uint32_t nothing(const struct side *side, const struct scene *scene, struct area *area)
{
    (void)side;
    (void)scene;
    (void)area;
    return 0;
}

/* the floor: a plain copy of the table's octets */
static uint32_t copy(const struct side *side, const struct scene *scene, struct area *area)
{
    (void)side;
    memcpy(area->table, scene->waiting, scene->size);
    return 0;
}

static const uint8_t *any(const struct scene *scene)
{
    return scene->trunk;
}

static const struct call NOTHING = {"nothing", any, nothing, 0};
static const struct call COPY = {"copy", any, copy, 0};

static void fail(const char *what, const struct call *call, const struct scene *scene, const struct side *side)
{
    fprintf(stderr, "bench: %s: %s, %u ports, %s\n", what, call->name, (unsigned)scene->ports, side->name);
    exit(1);
}

static void say(const char *what, const struct call *call, const struct scene *scene, const char *side, double figure)
{
    printf("%s\t%s\t%u\t%s\t%.1f\n", what, call->name, (unsigned)scene->ports, side, figure);
    fflush(stdout);
}

/* ---- check ---- */

static void check(const struct scene *scene)
{
    static struct area areas[2];
    for (size_t c = 0; c < CALL_COUNT; c++) {
        for (size_t s = 0; s < SIDE_COUNT; s++) {
            restore(&CALLS[c], scene, &areas[s]);
            if (CALLS[c].run(&SIDES[s], scene, &areas[s]) != CALLS[c].answer)
                fail("another answer", &CALLS[c], scene, &SIDES[s]);
        }
        if (SIDE_COUNT == 2 && memcmp(&areas[0], &areas[1], sizeof areas[0]) != 0)
            fail("other octets", &CALLS[c], scene, &SIDES[1]);
    }
}

/* ---- time ---- */

enum { REPEATS = 25 };
static const double REPEAT_NANOSECONDS = 1e6;

static double now(void)
{
    struct timespec at;
    clock_gettime(CLOCK_MONOTONIC, &at);
    return 1e9 * (double)at.tv_sec + (double)at.tv_nsec;
}

/* nanoseconds of that many calls, each on a table that was restored by a copy */
static double run_many(const struct call *call, const struct scene *scene, const struct side *side, struct area *area, long calls)
{
    const uint8_t *before = call->before(scene);
    double since = now();
    for (long i = 0; i < calls; i++) {
        memcpy(area->table, before, scene->size);
        __asm__ volatile("" ::: "memory");
        call->run(side, scene, area);
        __asm__ volatile("" ::: "memory");
    }
    return now() - since;
}

static long calls_for_a_repeat(const struct call *call, const struct scene *scene, const struct side *side, struct area *area)
{
    long calls = 16;
    while (run_many(call, scene, side, area, calls) < REPEAT_NANOSECONDS)
        calls *= 2;
    return calls;
}

/* the least time of one call over all repeats, its copy included */
static double least(const struct call *call, const struct scene *scene, const struct side *side)
{
    static struct area area;
    restore(call, scene, &area);
    long calls = calls_for_a_repeat(call, scene, side, &area);
    double least = run_many(call, scene, side, &area, calls);
    for (int repeat = 1; repeat < REPEATS; repeat++) {
        double taken = run_many(call, scene, side, &area, calls);
        if (taken < least)
            least = taken;
    }
    return least / (double)calls;
}

static void time_all(const struct scene *scene)
{
    double restoring = least(&NOTHING, scene, &SIDES[0]);
    say("time", &COPY, scene, "copy", least(&COPY, scene, &SIDES[0]) - restoring);
    for (size_t c = 0; c < CALL_COUNT; c++)
        for (size_t s = 0; s < SIDE_COUNT; s++)
            say("time", &CALLS[c], scene, SIDES[s].name, least(&CALLS[c], scene, &SIDES[s]) - restoring);
}

/* ---- count ---- */

static void count_one(const struct call *call, const struct scene *scene, const struct side *side, const char *name)
{
    static struct area area;
    char label[80];
    snprintf(label, sizeof label, "count\t%s\t%u\t%s", call->name, (unsigned)scene->ports, name);
    for (int warm = 0; warm < 2; warm++) { /* memory that is allocated at the first call is there at the second */
        restore(call, scene, &area);
        call->run(side, scene, &area);
    }
    restore(call, scene, &area);
    count_begins();
    call->run(side, scene, &area);
    count_ends(label);
}

static void count_all(const struct scene *scene)
{
    count_one(&NOTHING, scene, &SIDES[0], "nothing");
    count_one(&COPY, scene, &SIDES[0], "copy");
    for (size_t c = 0; c < CALL_COUNT; c++)
        for (size_t s = 0; s < SIDE_COUNT; s++)
            count_one(&CALLS[c], scene, &SIDES[s], SIDES[s].name);
}

/* ---- stack ---- */

enum { STACK = 256 * 1024 };
static _Alignas(64) uint8_t stack[STACK];
static ucontext_t here, there;

/* what the context that runs on the painted stack is to do */
static struct {
    const struct call *call;
    const struct scene *scene;
    const struct side *side;
    struct area *area;
} job;

static void do_job(void)
{
    job.call->run(job.side, job.scene, job.area);
}

/* octets of the painted stack, from its high end down to the lowest that lost its paint */
static size_t depth(const struct call *call, const struct scene *scene, const struct side *side, uint8_t paint)
{
    static struct area area;
    restore(call, scene, &area);
    job.call = call;
    job.scene = scene;
    job.side = side;
    job.area = &area;
    memset(stack, paint, sizeof stack);
    getcontext(&there);
    there.uc_stack.ss_sp = stack;
    there.uc_stack.ss_size = sizeof stack;
    there.uc_link = &here;
    makecontext(&there, do_job, 0);
    swapcontext(&here, &there);
    size_t untouched = 0;
    while (untouched < sizeof stack && stack[untouched] == paint)
        untouched++;
    return sizeof stack - untouched;
}

static size_t deepest(const struct call *call, const struct scene *scene, const struct side *side)
{
    size_t a = depth(call, scene, side, 0xa5);
    size_t b = depth(call, scene, side, 0x3c);
    return a > b ? a : b;
}

static void stack_all(const struct scene *scene)
{
    for (size_t s = 0; s < SIDE_COUNT; s++) {
        size_t caller = deepest(&NOTHING, scene, &SIDES[s]);
        for (size_t c = 0; c < CALL_COUNT; c++)
            say("stack", &CALLS[c], scene, SIDES[s].name, (double)(deepest(&CALLS[c], scene, &SIDES[s]) - caller));
    }
}

/* ---- scenes ---- */

static void write_scene(const struct scene *scene)
{
    fwrite(scene, sizeof *scene, 1, stdout);
}

static bool read_scene(struct scene *scene, const char *path)
{
    FILE *file = fopen(path, "rb");
    bool whole = file != NULL && fread(scene, sizeof *scene, 1, file) == 1;
    if (file != NULL)
        fclose(file);
    return whole;
}

/* ---- */

static void (*named(const char *word))(const struct scene *)
{
    static const struct {
        const char *word;
        void (*run)(const struct scene *);
    } words[] = {{"check", check}, {"time", time_all}, {"count", count_all}, {"stack", stack_all}, {"scene", write_scene}};
    for (size_t w = 0; w < sizeof words / sizeof words[0]; w++)
        if (strcmp(word, words[w].word) == 0)
            return words[w].run;
    return NULL;
}

int main(int argc, char **argv)
{
    static struct scene scene;
    void (*run)(const struct scene *) = argc > 1 ? named(argv[1]) : NULL;
    uint32_t only = argc > 2 ? (uint32_t)atoi(argv[2]) : 0;
    if (run == NULL) {
        fputs("usage: bench check|time|count|stack|scene [PORTS [SCENE]]\n", stderr);
        return 2;
    }
    for (size_t p = 0; p < PORT_COUNTS_COUNT; p++) {
        if (only != 0 && PORT_COUNTS[p] != only)
            continue;
        bool made = argc > 3 ? read_scene(&scene, argv[3]) : make_scene(&scene, PORT_COUNTS[p]);
        if (!made)
            fail("a table is not as it should be", &NOTHING, &scene, &SIDES[0]);
        run(&scene);
    }
    return 0;
}
