/* The stack that the calls of include/engkarupi.h use. Each call is made on a stack of its own, filled with a pattern: what lies
 * between the caller's frame and the deepest byte that changed is the call's stack, with the arguments that the caller
 * pushes. A line for each: the name, what the call answered, and the bytes. oracle/stack compiles it. With the argument `frame` it writes the
 * longest frame instead.
 */
#define _XOPEN_SOURCE 700
#include <stdio.h>
#include <stdlib.h>
#include <string.h>
#include <ucontext.h>

#include "engkarupi.h"

enum { STACK = 1 << 20, PATTERN = 0xA5, B = ENGKARUPI_MAX_BODIES, M = ENGKARUPI_MAX_MANIFOLDS, J = ENGKARUPI_MAX_JOINTS };

static uint8_t stack[STACK];
static ucontext_t here, there;
static const uint8_t *caller; /* the frame of the function that makes the call */

#define CALLER_IS_HERE() (caller = __builtin_frame_address(0))

/* the bytes below the caller's frame that a job changes */
static size_t depth_of(void (*job)(void)) {
    memset(stack, PATTERN, sizeof stack);
    getcontext(&there);
    there.uc_stack.ss_sp = stack;
    there.uc_stack.ss_size = sizeof stack;
    there.uc_link = &here;
    makecontext(&there, job, 0);
    swapcontext(&here, &there);
    size_t deepest = 0;
    while (deepest < sizeof stack && stack[deepest] == PATTERN) {
        deepest++;
    }
    if (deepest == 0 || caller <= stack + deepest || caller > stack + sizeof stack) {
        fprintf(stderr, "the stack was not measured\n");
        exit(1);
    }
    return (size_t)(caller - (stack + deepest));
}

/* ---- frames */

static uint8_t frame[ENGKARUPI_MAX_FILE];
static size_t size;
static struct engkarupi_run_memory memory;
static struct engkarupi_run_tables tables;
static size_t report[ENGKARUPI_REPORT_NUMBERS];
static uint8_t refusal;

static void put(size_t n) {
    frame[size++] = (uint8_t)(n >> 8);
    frame[size++] = (uint8_t)n;
}

/* a frame of dynamic bodies, without its manifolds */
static void start_frame(size_t bodies, size_t manifolds) {
    size_t rest = 6 + bodies + 4 * manifolds;
    size = 0;
    frame[size++] = 1;
    put(rest >> 16);
    put(rest & 65535);
    put(bodies);
    put(manifolds);
    put(0);
    memset(frame + size, 2, bodies);
    size += bodies;
}

static void chain(size_t bodies, size_t links) {
    start_frame(bodies, links);
    for (size_t i = 0; i < links; i++) {
        put(i);
        put(i + 1);
    }
}

static void one_pair(size_t bodies, size_t times, size_t b) {
    start_frame(bodies, times);
    for (size_t i = 0; i < times; i++) {
        put(0);
        put(b);
    }
}

static void generated(void) {
    engkarupi_generate(1, B, M, J, frame, sizeof frame, &size);
}

/* a version 2 frame of dynamic bodies, without its manifolds and joints, which have so many bytes */
static void start_second(size_t bodies, size_t manifolds, size_t joints, size_t bytes) {
    size_t rest = 6 + bodies + bytes;
    size = 0;
    frame[size++] = 2;
    put(rest >> 16);
    put(rest & 65535);
    put(bodies);
    put(manifolds);
    put(joints);
    memset(frame + size, 2, bodies);
    size += bodies;
}

static void joint(unsigned ends, size_t first) {
    frame[size++] = 1;
    frame[size++] = (uint8_t)ends;
    for (size_t k = 0; k < ends; k++) {
        put(first + k);
    }
}

/* joints of four bodies one after another, each tied to the next: the largest group of a version 2 frame whose bodies are sorted */
static void blocks(size_t bodies, size_t joints) {
    start_second(bodies, 0, 2 * joints - 1, 10 * joints + 6 * (joints - 1));
    for (size_t i = 0; i < joints; i++) {
        joint(4, 4 * i);
    }
    for (size_t i = 0; i + 1 < joints; i++) {
        joint(2, 4 * i + 3);
    }
}

/* the longest frame: as many of each as there may be, all joints of four */
static void longest(void) {
    start_second(B, M, J, 4 * M + 10 * J);
    for (size_t i = 0; i < M; i++) {
        put(4 * (i / 4) + i % 4);
        put(4 * (i / 4) + (i + 1) % 4);
    }
    for (size_t i = 0; i < J; i++) {
        joint(4, 4 * (i / 4));
    }
}

/* ---- the calls */

static uint8_t types[B], marks[B], flags[B], changed;
static uint16_t bodies[B], indices[B], pairs[2 * 4095], handed[4], count16;
static size_t plan[ENGKARUPI_PLAN_NUMBERS], count;

enum { JOINTS = 63 };

static uint16_t ends[4 * JOINTS], handed_multi[8];
static const uint16_t places[4] = {9, 3, 7, 1};
static uint8_t counts[JOINTS], enabled[JOINTS];

static void run(void) {
    CALLER_IS_HERE();
    refusal = engkarupi_run_on(frame, size, &tables, report);
}

static void islands(void) {
    CALLER_IS_HERE();
    refusal = engkarupi_islands(types, B, pairs, 2 * 4095, NULL, 0, NULL, 0, memory.parents, B, memory.sizes, B,
                                memory.body_islands, B, memory.manifold_islands, M, NULL, 0, &count16);
}

static void update(void) {
    CALLER_IS_HERE();
    memset(plan, 0, sizeof plan);
    refusal = engkarupi_update(plan, flags, B, pairs, count, tables.dynamic_bodies, B, tables.endpoints, tables.endpoints_len,
                               tables.body_offsets, tables.body_offsets_len, tables.body_constraints, tables.body_constraints_len,
                               tables.scratch_offsets, tables.scratch_offsets_len, tables.constraint_colors,
                               tables.constraint_colors_len, tables.color_stamps, tables.color_stamps_len, tables.body_stamps,
                               tables.body_stamps_len, tables.color_offsets, tables.color_offsets_len, tables.colored_constraints,
                               tables.colored_constraints_len, tables.color_body_offsets, tables.color_body_offsets_len,
                               tables.color_bodies, tables.color_bodies_len, tables.constraint_body_positions,
                               tables.constraint_body_positions_len, &changed);
}

static void islands_multi(void) {
    CALLER_IS_HERE();
    refusal = engkarupi_islands_multi(types, B, NULL, 0, ends, 4 * JOINTS, counts, JOINTS, enabled, JOINTS, memory.parents, B, memory.sizes, B,
                                      memory.body_islands, B, NULL, 0, memory.joint_islands, J, &count16);
}

static void update_multi(void) {
    CALLER_IS_HERE();
    memset(plan, 0, sizeof plan);
    refusal = engkarupi_update_multi(plan, flags, B, ends, 4 * JOINTS, counts, JOINTS, tables.dynamic_bodies, B, tables.endpoints,
                                     tables.endpoints_len, tables.plan_counts, tables.plan_counts_len, tables.body_offsets,
                                     tables.body_offsets_len, tables.body_constraints, tables.body_constraints_len,
                                     tables.scratch_offsets, tables.scratch_offsets_len, tables.constraint_colors,
                                     tables.constraint_colors_len, tables.color_stamps, tables.color_stamps_len, tables.body_stamps,
                                     tables.body_stamps_len, tables.color_offsets, tables.color_offsets_len, tables.colored_constraints,
                                     tables.colored_constraints_len, tables.color_body_offsets, tables.color_body_offsets_len,
                                     tables.color_bodies, tables.color_bodies_len, tables.constraint_body_positions,
                                     tables.constraint_body_positions_len, &changed);
}

static void take_multi(void) {
    CALLER_IS_HERE();
    refusal = engkarupi_take_multi(bodies, marks, count, places, 4, handed_multi);
}

static void bind(void) {
    CALLER_IS_HERE();
    refusal = engkarupi_bind(types, B, indices, B, bodies, marks, &count);
}

static void take(void) {
    CALLER_IS_HERE();
    refusal = engkarupi_take(bodies, marks, count, 0, B - 1, handed);
}

static void generate(void) {
    CALLER_IS_HERE();
    refusal = engkarupi_generate(1, B, M, J, frame, sizeof frame, &size);
}

static void show(const char *name, void (*job)(void)) {
    size_t depth = depth_of(job);
    printf("%s: answered %u, %zu bytes\n", name, (unsigned)refusal, depth);
}

int main(int words, char **word) {
    tables = engkarupi_run_tables_in(&memory);
    if (words > 1 && strcmp(word[1], "frame") == 0) {
        longest();
        return fwrite(frame, 1, size, stdout) != size;
    }
    longest();
    show("run of the longest frame", run);
    blocks(B, JOINTS);
    show("run of 63 joints of four among 4,096 bodies, which are sorted", run);
    generated();
    show("run of the longest frame of version 1", run);
    frame[5] = 255;
    show("run of a frame with too many bodies", run);
    start_frame(0, 0);
    show("run of an empty frame", run);
    chain(B, B - 1);
    show("run of a chain of 4,096 bodies", run);
    chain(B, 126);
    show("run of a chain of 127 among 4,096 bodies, which is sorted", run);
    one_pair(2, M, 1);
    show("run of one pair 4,096 times", run);
    one_pair(2, M, 2);
    show("run of a frame with an endpoint past the bodies", run);
    for (size_t i = 0; i < B; i++) {
        types[i] = 2;
        flags[i] = 1;
        indices[i] = (uint16_t)i;
    }
    for (size_t i = 0; i < 4095; i++) {
        pairs[2 * i] = (uint16_t)i;
        pairs[2 * i + 1] = (uint16_t)(i + 1);
    }
    show("islands of a chain of 4,096 bodies", islands);
    count = 2 * 4095;
    show("update of that chain", update);
    count = 2 * 126;
    show("update of 127 bodies of it, which are sorted", update);
    for (size_t i = 0; i < 4 * JOINTS; i++) {
        ends[i] = (uint16_t)i;
        counts[i / 4] = 4;
        enabled[i / 4] = 1;
    }
    show("islands of 63 joints of four", islands_multi);
    show("update of these, which are sorted", update_multi);
    show("bind of 4,096 bodies", bind);
    show("take from that binding", take);
    show("take of four from that binding", take_multi);
    show("generate of the longest frame", generate);
    return 0;
}
