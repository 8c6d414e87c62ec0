/* bench.c - measures the proved library beside the yardstick: same input, same process, runs in turns, the least
   time of many. Built with BEFORE, it does so with an earlier build too. Prints lines of fields with tabs between them
   for bench/run, which makes the table.

     bench SECONDS         compare all results, then time each case for so many seconds
     bench --frames SCENE  print the sweeps of a scene (0 to 7) as frames, one a line

   Exit status 1 if a result differs, 2 for wrong usage. */
#define _POSIX_C_SOURCE 199309L
#include "compare.h"
#include "processor.h"
#include "stack.h"
#include "stream.h"
#include "sweeps.h"
#include "traces.h"
#include <stdio.h>
#include <stdlib.h>
#include <string.h>
#include <time.h>

enum { SWEEPS = 4, GROWTH_TICKS = 51 * 64, LEAST_ROUNDS = 5, FRAME_SAMPLES = 64 };

static const size_t pieces[] = { 4096, 256, 64 };
enum { PIECES = sizeof pieces / sizeof *pieces };

/* The earlier build, or null where there is none. */
#ifdef BEFORE
static sweep_function *const earlier = earlier_sweep;
#else
static sweep_function *const earlier = NULL;
#endif

/* Traces of one length, one behind the other. */
typedef struct {
    uint8_t flags[SWEEPS * ARP_SWEEP], values[SWEEPS * ARP_SWEEP];
} traces;

static traces measured;

static void paint_scene(int scene, traces *t)
{
    for (size_t i = 0; i < SWEEPS; i++)
        paint_trace(&scenes[scene], i + 1, t->flags + i * ARP_SWEEP, t->values + i * ARP_SWEEP, ARP_SWEEP);
}

/* -------------------------------------------------------------------- timing */

/* Seconds of the yardstick, of the proved library and of a third function. */
typedef struct { double yardstick, proved, third; } timing;

/* What is timed: `count` sweeps of n ticks each, the whole `repeats` times. */
typedef struct { const traces *traces; size_t count, n, piece, repeats; } work;

static double now(void)
{
    struct timespec t;
    clock_gettime(CLOCK_MONOTONIC, &t);
    return (double)t.tv_sec + 1e-9 * (double)t.tv_nsec;
}

static double run_once(sweep_function *sweep, const work *w)
{
    static uint8_t out[OUT_ROOM], totals[TOTALS];
    const double start = now();
    for (size_t r = 0; r < w->repeats; r++)
        for (size_t i = 0; i < w->count; i++)
            sweep(1, 0, w->traces->flags + i * w->n, w->n, w->traces->values + i * w->n, w->n, w->piece,
                  out, OUT_ROOM, totals, TOTALS);
    return (now() - start) / (double)w->repeats;
}

static double least(double a, double b)
{
    return a < b ? a : b;
}

/* Both, and a third unless it is null, on each work, in turns, for so many seconds; the least times. */
static void time_all(size_t count, const work *w, sweep_function *third, timing *best, double seconds)
{
    const double end = now() + seconds;
    for (size_t i = 0; i < count; i++) best[i] = (timing){ 1e9, 1e9, 1e9 };
    for (int round = 0; round < LEAST_ROUNDS || now() < end; round++)
        for (size_t i = 0; i < count; i++) {
            best[i].yardstick = least(best[i].yardstick, run_once(yardstick_sweep, &w[i]));
            best[i].proved = least(best[i].proved, run_once(whole_sweep, &w[i]));
            if (third) best[i].third = least(best[i].third, run_once(third, &w[i]));
        }
}

/* ------------------------------------------------------------------- results */

/* Edges of the traces, from the yardstick's words after each 64 ticks; the last 10 ticks of a sweep are left out. */
static unsigned count_edges(const traces *t)
{
    static uint8_t out[ARP_TAKE_BYTES(64)];
    unsigned edges = 0;
    for (size_t i = 0; i < SWEEPS; i++) {
        arp_state s;
        arp_open(&s, 1, 0);
        for (size_t at = i * ARP_SWEEP; at < (i + 1) * ARP_SWEEP; at += 64) {
            arp_take(&s, t->flags + at, 64, t->values + at, 64, out, sizeof out);
            edges += (unsigned)__builtin_popcountll(s.edge[0]);
        }
    }
    return edges;
}

static void compare_scenes(tally *t)
{
    for (int scene = 0; scene < SCENES; scene++) {
        paint_scene(scene, &measured);
        for (size_t i = 0; i < SWEEPS; i++)
            for (size_t j = 0; j < PIECES; j++)
                compare_sweep(t, scenes[scene].name, measured.flags + i * ARP_SWEEP, measured.values + i * ARP_SWEEP,
                              ARP_SWEEP, pieces[j]);
    }
}

static void time_scenes(double seconds)
{
    const double ticks = SWEEPS * ARP_SWEEP;
    for (int scene = 0; scene < SCENES; scene++) {
        paint_scene(scene, &measured);
        printf("edges\t%s\t%.1f\n", scenes[scene].name, 1000 * count_edges(&measured) / ticks);
        for (size_t j = 0; j < PIECES; j++) {
            const work w = { &measured, SWEEPS, ARP_SWEEP, pieces[j], 1 };
            timing t;
            time_all(1, &w, earlier, &t, seconds);
            printf("time\t%s\t%zu\t%.4f\t%.4f\n", scenes[scene].name, pieces[j], 1e9 * t.yardstick / ticks, 1e9 * t.proved / ticks);
            if (earlier) printf("before\t%s\t%zu\t%.4f\n", scenes[scene].name, pieces[j], 1e9 * t.third / ticks);
            fflush(stdout);
        }
    }
}

/* Sweeps of 0, n, 2n and 10n ticks: as many of each as fill the same memory, which holds the same n ticks ten times over. */
static void time_growth(int scene, double seconds)
{
    enum { LENGTHS = 4 };
    static const size_t counts[LENGTHS] = { 1, 10, 5, 1 }, times[LENGTHS] = { 0, 1, 2, 10 };
    const size_t n = GROWTH_TICKS;
    paint_trace(&scenes[scene], 1, measured.flags, measured.values, n);
    for (size_t i = 1; i < 10; i++) {
        memcpy(measured.flags + i * n, measured.flags, n);
        memcpy(measured.values + i * n, measured.values, n);
    }
    work w[LENGTHS];
    timing t[LENGTHS];
    for (size_t i = 0; i < LENGTHS; i++)
        w[i] = (work){ &measured, counts[i], times[i] * n, ARP_PIECE, times[i] ? 10 : 400 };
    time_all(LENGTHS, w, NULL, t, LENGTHS * seconds);
    printf("growth\t%s\t%zu", scenes[scene].name, n);
    for (size_t i = 0; i < LENGTHS; i++) printf("\t%.1f", 1e9 * t[i].yardstick / (double)counts[i]);
    for (size_t i = 0; i < LENGTHS; i++) printf("\t%.1f", 1e9 * t[i].proved / (double)counts[i]);
    printf("\n");
}

/* --------------------------------------------------------------------- stack */

static size_t stack_piece;

static void nothing(void) {}

static void sweep_all(sweep_function *sweep)
{
    const work w = { &measured, SWEEPS, ARP_SWEEP, stack_piece, 1 };
    run_once(sweep, &w);
}

static void sweep_yardstick(void) { sweep_all(yardstick_sweep); }

static void sweep_proved(void) { sweep_all(whole_sweep); }

/* The deepest over all scenes and pieces, less what an empty function takes. */
static void measure_stack(void)
{
    const size_t base = stack_depth(nothing);
    size_t yardstick = base, proved = base;
    for (int scene = 0; scene < SCENES; scene++) {
        paint_scene(scene, &measured);
        for (size_t j = 0; j < PIECES; j++) {
            stack_piece = pieces[j];
            const size_t y = stack_depth(sweep_yardstick), p = stack_depth(sweep_proved);
            yardstick = y > yardstick ? y : yardstick;
            proved = p > proved ? p : proved;
        }
    }
    printf("stack\t%zu\t%zu\n", yardstick - base, proved - base);
}

/* ---------------------------------------------------------------------- main */

static int print_frames(const char *word)
{
    if (strlen(word) != 1 || word[0] < '0' || word[0] >= '0' + SCENES) {
        fprintf(stderr, "bench: %s is not a scene from 0 to %d\n", word, SCENES - 1);
        return 2;
    }
    paint_scene(word[0] - '0', &measured);
    for (size_t i = 0; i < SWEEPS; i++) {
        printf("01010000\n");
        for (size_t at = i * ARP_SWEEP; at < (i + 1) * ARP_SWEEP; at += FRAME_SAMPLES) {
            printf("02");
            for (size_t t = at; t < at + FRAME_SAMPLES; t++) printf("%02x%02x", measured.flags[t], measured.values[t]);
            printf("\n");
        }
        printf("03\n");
    }
    return 0;
}

static unsigned compare_proved(void)
{
    tally t = { whole_sweep, "differs", 0, 0 };
    compare_refusals(&t);
    compare_openings(&t);
    compare_cuttings(&t);
    compare_scenes(&t);
    printf("results\t%u\t%u\n", t.passed, t.failed);
    fflush(stdout);
    return t.failed;
}

/* The same sweeps; which refusals there are is a matter of the form. */
static unsigned compare_earlier(void)
{
    tally t = { earlier, "the earlier build differs", 0, 0 };
    compare_cuttings(&t);
    compare_scenes(&t);
    printf("before results\t%u\t%u\n", t.passed, t.failed);
    return t.failed;
}

static int measure(double seconds)
{
    unsigned failed = compare_proved();
    if (earlier) failed += compare_earlier();
    if (failed) return 1;
    time_scenes(seconds);
    time_growth(0, seconds);
    time_growth(2, seconds);
    time_growth(4, seconds);
    measure_stack();
    printf("size\t%zu\t%zu\t%zu\n", sizeof(arp_state), sizeof(processor), sizeof(machine));
    return 0;
}

int main(int argc, char **argv)
{
    char *end = "";
    if (argc == 3 && strcmp(argv[1], "--frames") == 0) return print_frames(argv[2]);
    const double seconds = argc == 2 ? strtod(argv[1], &end) : 0;
    if (seconds > 0 && *end == '\0') return measure(seconds);
    fprintf(stderr, "usage: bench SECONDS | bench --frames SCENE\n");
    return 2;
}
