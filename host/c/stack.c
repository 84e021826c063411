/* How much stack each function uses. A thread's stack is painted; below the caller's frame, what a call has overwritten
 * is its use. The inputs take every way through the library that needs much: 32 drops of two edges, split in thirds,
 * with 64 splines and 2016 distances; and a zigzag of 256 edges, each of which starts at a corner. */
#define _GNU_SOURCE
#include <pthread.h>
#include <stdio.h>
#include <stdlib.h>
#include <string.h>

#include "merelsplum.h"

enum { CONTOURS = 32, EDGES = 64, PAINT = 0xA5, STACK = 1 << 20 };

static uint16_t lengths[MERELSPLUM_MAX_CONTOURS], out_lengths[MERELSPLUM_MAX_CONTOURS];
static uint8_t kinds[MERELSPLUM_MAX_EDGES], out_kinds[MERELSPLUM_MAX_RESULT_EDGES], out_bytes[MERELSPLUM_MAX_RESULT_EDGES];
static double points[8 * MERELSPLUM_MAX_EDGES], out_points[8 * MERELSPLUM_MAX_RESULT_EDGES];
static double distances[MERELSPLUM_MAX_DISTANCES], out_directions[4 * MERELSPLUM_MAX_EDGES];
static uint8_t out_stand_ins[2 * MERELSPLUM_MAX_EDGES];
static uint8_t coloring[MERELSPLUM_MAX_SPLINES], matrix[MERELSPLUM_MAX_SPLINES * MERELSPLUM_MAX_SPLINES];
static uint8_t file[40000], balanced_file[40000], text[MERELSPLUM_MAX_LISTING_BYTES];
static size_t file_len;
static uint64_t numbers[6];

#define OUTLINE lengths, CONTOURS, kinds, EDGES, points, 8 * EDGES
#define RESULT out_lengths, 64, out_kinds, 508, out_points, 8 * 508, out_bytes, 508

static uint16_t zigzag_lengths[] = {MERELSPLUM_MAX_EDGES};
static uint8_t zigzag_kinds[MERELSPLUM_MAX_EDGES];
static double zigzag_points[8 * MERELSPLUM_MAX_EDGES];

#define ZIGZAG zigzag_lengths, 1, zigzag_kinds, MERELSPLUM_MAX_EDGES, zigzag_points, 8 * MERELSPLUM_MAX_EDGES

static uint64_t zigzag_simple(void) { return merelsplum_edge_coloring_simple(ZIGZAG, 0.125, 7, RESULT); }
static uint64_t zigzag_ink_trap(void) { return merelsplum_edge_coloring_ink_trap(ZIGZAG, 0.125, 7, RESULT); }
static uint64_t zigzag_directions(void) {
    return merelsplum_edge_directions(
        ZIGZAG, out_directions, 4 * MERELSPLUM_MAX_EDGES, out_stand_ins, 2 * MERELSPLUM_MAX_EDGES);
}
static uint64_t simple(void) { return merelsplum_edge_coloring_simple(OUTLINE, 0.125, 7, RESULT); }
static uint64_t ink_trap(void) { return merelsplum_edge_coloring_ink_trap(OUTLINE, 0.125, 7, RESULT); }
static uint64_t by_distance(void) {
    return merelsplum_edge_coloring_by_distance(OUTLINE, 0.125, 7, distances, MERELSPLUM_MAX_DISTANCES, RESULT);
}
static uint64_t collect(void) { return merelsplum_collect_splines(OUTLINE, 0.125, RESULT); }
static uint64_t simple_balanced(void) { return merelsplum_edge_coloring_simple_balanced(OUTLINE, 0.125, 7, RESULT); }
static uint64_t ink_trap_balanced(void) { return merelsplum_edge_coloring_ink_trap_balanced(OUTLINE, 0.125, 7, RESULT); }
static uint64_t by_distance_balanced(void) {
    return merelsplum_edge_coloring_by_distance_balanced(OUTLINE, 0.125, 7, distances, MERELSPLUM_MAX_DISTANCES, RESULT);
}
static uint64_t collect_balanced(void) { return merelsplum_collect_splines_balanced(OUTLINE, 0.125, RESULT); }
static uint64_t directions(void) {
    return merelsplum_edge_directions(
        OUTLINE, out_directions, 4 * MERELSPLUM_MAX_EDGES, out_stand_ins, 2 * MERELSPLUM_MAX_EDGES);
}
static uint64_t offer(void) {
    const uint64_t answer = merelsplum_try_add_edge(coloring, sizeof coloring, matrix, sizeof matrix, 0, 3);
    return merelsplum_offer_outcome(answer) == MERELSPLUM_OFFER_DECLINED ? answer : MERELSPLUM_REFUSED;
}
static uint64_t job_read(void) {
    return merelsplum_job_read(file, file_len, out_lengths, 64, out_kinds, 256, out_points, 2048, distances, 2016, numbers);
}
static uint64_t job_balanced(void) { return merelsplum_job_balanced(balanced_file, file_len + 2); }
static uint64_t job_check(void) { return merelsplum_job_check(file, file_len); }
static uint64_t job_color(void) { return merelsplum_job_color(file, file_len, RESULT); }
static uint64_t job_listing(void) { return merelsplum_job_listing(file, file_len, text, sizeof text); }
static uint64_t balanced_color(void) { return merelsplum_job_color(balanced_file, file_len + 2, RESULT); }
static uint64_t balanced_listing(void) { return merelsplum_job_listing(balanced_file, file_len + 2, text, sizeof text); }
static uint64_t job_contour_part(void) { return merelsplum_job_contour_part(file, file_len, CONTOURS - 1); }

static const struct {
    const char *name;
    uint64_t (*call)(void);
} calls[] = {
    {"edge_coloring_simple", simple},
    {"edge_coloring_ink_trap", ink_trap},
    {"edge_coloring_by_distance", by_distance},
    {"collect_splines", collect},
    {"edge_coloring_simple_balanced", simple_balanced},
    {"edge_coloring_ink_trap_balanced", ink_trap_balanced},
    {"edge_coloring_by_distance_balanced", by_distance_balanced},
    {"collect_splines_balanced", collect_balanced},
    {"edge_directions", directions},
    {"edge_coloring_simple, 256 edges", zigzag_simple},
    {"edge_coloring_ink_trap, 256 edges", zigzag_ink_trap},
    {"edge_directions, 256 edges", zigzag_directions},
    {"try_add_edge", offer},
    {"job_read", job_read},
    {"job_balanced", job_balanced},
    {"job_check", job_check},
    {"job_color", job_color},
    {"job_color, a file with BL", balanced_color},
    {"job_listing", job_listing},
    {"job_listing, a file with BL", balanced_listing},
    {"job_contour_part", job_contour_part},
};

struct run {
    uint64_t (*call)(void);
    uint64_t answer;
    const unsigned char *frame;
};

static void *start(void *argument) {
    struct run *run = argument;
    run->frame = __builtin_frame_address(0);
    run->answer = run->call();
    return NULL;
}

static size_t stack_use(struct run *run) {
    unsigned char *stack = aligned_alloc(4096, STACK);
    memset(stack, PAINT, STACK);
    pthread_attr_t attributes;
    pthread_t thread;
    if (pthread_attr_init(&attributes) || pthread_attr_setstack(&attributes, stack, STACK) ||
        pthread_create(&thread, &attributes, start, run) || pthread_join(thread, NULL))
        abort();
    size_t low = 0;
    while (stack[low] == PAINT)
        low++;
    const size_t use = (size_t)(run->frame - (stack + low));
    free(stack);
    return use;
}

static void put(const void *bytes, size_t n) {
    memcpy(file + file_len, bytes, n);
    file_len += n;
}

/* Drops of two curves: smooth at one end, a corner at the other. */
static void prepare(void) {
    const double threshold = 0.125;
    const uint64_t seed = 7;
    const uint16_t count = MERELSPLUM_MAX_DISTANCES;
    put("JB\3", 3), put(&seed, 8), put(&threshold, 8);
    for (int c = 0; c < CONTOURS; c++) {
        const double x = 10 * c, edges[2][6] = {{x, 0, x + 2, 2, x, 4}, {x, 4, x - 2, 6, x - 1, 0}};
        lengths[c] = 2;
        put("CT", 2);
        for (int e = 0; e < 2; e++) {
            kinds[2 * c + e] = MERELSPLUM_QUADRATIC;
            memcpy(points + 8 * (2 * c + e), edges[e], sizeof edges[e]);
            put("QD", 2), put(edges[e], sizeof edges[e]);
        }
    }
    for (int e = 0; e < MERELSPLUM_MAX_EDGES; e++) {
        double *p = zigzag_points + 8 * e;
        zigzag_kinds[e] = MERELSPLUM_LINE;
        p[0] = e, p[1] = 10 * (e % 2);
        p[2] = (e + 1) % MERELSPLUM_MAX_EDGES, p[3] = 10 * ((e + 1) % 2);
    }
    for (int i = 0; i < MERELSPLUM_MAX_DISTANCES; i++)
        distances[i] = 1 + i * 37 % 2017;
    put("DS", 2), put(&count, 2), put(distances, sizeof distances), put("EN", 2);
    memcpy(balanced_file, file, 19), memcpy(balanced_file + 19, "BL", 2), memcpy(balanced_file + 21, file + 19, file_len - 19);
    /* 0, 1, 2 and 3 all kept apart but for the pair that is offered, so that a walk begins and is stopped */
    for (int i = 0; i < 4; i++) {
        coloring[i] = (uint8_t)(i % 3);
        for (int j = 0; j < 4; j++)
            matrix[i * MERELSPLUM_MAX_SPLINES + j] = i != j && i + j != 3;
    }
    matrix[1 * MERELSPLUM_MAX_SPLINES + 2] = matrix[2 * MERELSPLUM_MAX_SPLINES + 1] = 1;
}

int main(void) {
    prepare();
    size_t most = 0;
    for (size_t i = 0; i < sizeof calls / sizeof *calls; i++) {
        struct run run = {calls[i].call, 0, NULL};
        const size_t use = stack_use(&run);
        if (merelsplum_is_refusal(run.answer)) {
            fprintf(stderr, "%s: refused %#llx\n", calls[i].name, (unsigned long long)run.answer);
            return 1;
        }
        printf("%-36s%8zu bytes of stack\n", calls[i].name, use);
        if (use > most)
            most = use;
    }
    return most >= MERELSPLUM_STACK_BYTES;
}
