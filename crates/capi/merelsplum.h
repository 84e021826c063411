/*
 * Merelsplum colours the edges of glyph outlines for multi-channel distance fields.
 *
 * Link with target/staticlib/libcapi.a, which `tools/build capi` writes (x86-64, System V calling convention). It
 * calls nothing but memcpy and memset, keeps no state and allocates nothing: any number of threads may call it, each
 * with buffers of its own.
 *
 * Buffers. A buffer is two arguments, a pointer and a length; the length counts elements, not bytes. With length 0 the
 * pointer may be NULL. A pointer is aligned for its type. A buffer that is written must not overlap any other buffer of
 * the same call.
 *
 * An outline is three buffers:
 *   lengths  the number of edges of each contour; a contour may be empty
 *   kinds    MERELSPLUM_LINE, _QUADRATIC or _CUBIC for each edge, through all contours
 *   points   8 doubles for each edge: x and y of its control points in order, 4, 6 or 8 of them; the rest is not read
 * So kinds has as many elements as the lengths add up to, and points 8 times as many.
 *
 * A result is written to four buffers: out_lengths, out_kinds and out_points like an outline (unused doubles are
 * written as 0), and one byte for each edge. They may be longer than the result; what is beyond it keeps its bytes. A
 * contour of one or two edges with one corner is split in thirds, so a result can have more edges than the outline: at
 * most MERELSPLUM_MAX_RESULT_EDGES, and no more than three times as many. The number of contours stays.
 *
 * A refusal leaves every buffer as it came. All bytes and lengths are allowed as input: whatever is wrong is refused.
 *
 * Threshold: the sine of the angle from which a turn counts as a corner, -1 to 1. msdfgen's default angle is 3 radians,
 * sin(3) = 0.14112.
 * Seed: any number; it picks among colours that are as good as each other. msdfgen's default is 0.
 * Stand-in: (0, 1) in the place of a direction that has no length, as that of a line between two equal points. An edge
 * has two directions, in which it starts and in which it ends; those of a line are the same, and both count.
 *
 * Stack: a call uses less than MERELSPLUM_STACK_BYTES. Measured: 38 KB for a colouring by distance, 11 KB for the other
 * colourings, less than 1 KB for directions and offers, 109 KB for a job file.
 *
 * Floating point: the state that a C program starts with, round to nearest, flush-to-zero and denormals-are-zero off
 * (MXCSR; compilers turn them on by -ffast-math). With denormals-are-zero the root of 2^-1074 comes out wrong, and with
 * either a square with sides below 2^-511 loses its corners.
 */
#ifndef MERELSPLUM_H
#define MERELSPLUM_H

#include <stddef.h>
#include <stdint.h>

#ifdef __cplusplus
extern "C" {
#endif

/* ---- limits */

#define MERELSPLUM_MAX_CONTOURS 64
#define MERELSPLUM_MAX_EDGES 256
#define MERELSPLUM_MAX_RESULT_EDGES 508
#define MERELSPLUM_MAX_STAND_INS 512          /* 2 * 256 */
#define MERELSPLUM_MAX_SPLINES 64             /* counted for colouring by distance and its collecting pass only */
#define MERELSPLUM_MAX_DISTANCES 2016         /* 64 * 63 / 2 */
#define MERELSPLUM_MAX_COORDINATE 1048576.0   /* of either sign */
#define MERELSPLUM_MAX_JOB_BYTES 33179        /* no job file that is accepted is longer */
#define MERELSPLUM_MAX_LISTING_BYTES 5611
#define MERELSPLUM_STACK_BYTES 131072

/* ---- kinds of edges, colours, strategies */

enum {
    MERELSPLUM_LINE = 1,      /* 2 points */
    MERELSPLUM_QUADRATIC = 2, /* 3 points */
    MERELSPLUM_CUBIC = 3      /* 4 points */
};

/* A colour is the channels that the edge feeds, added up. */
enum {
    MERELSPLUM_BLACK = 0,
    MERELSPLUM_RED = 1,
    MERELSPLUM_GREEN = 2,
    MERELSPLUM_YELLOW = 3,
    MERELSPLUM_BLUE = 4,
    MERELSPLUM_MAGENTA = 5,
    MERELSPLUM_CYAN = 6,
    MERELSPLUM_WHITE = 7
};

#define MERELSPLUM_NO_SPLINE 255 /* the spline number of an edge that will be White */

enum {
    MERELSPLUM_SIMPLE = 1,
    MERELSPLUM_INK_TRAP = 2,
    MERELSPLUM_BY_DISTANCE = 3
};

/* ---- answers */

/* Why a call is refused. Of several reasons the first that applies is given; the functions below say in which order. */
enum {
    MERELSPLUM_TRUNCATED = 1,       /* the file ends inside a record or before EN */
    MERELSPLUM_UNKNOWN_MARK = 2,    /* a mark of the file is unknown */
    MERELSPLUM_MISPLACED_MARK = 3,  /* a mark not allowed there, EN while DS is due, or bytes after EN */
    MERELSPLUM_TOO_MANY = 4,        /* contours, edges, splines or distances above the maximum */
    MERELSPLUM_UNKNOWN_KIND = 5,    /* no such kind of edge, or no such strategy */
    MERELSPLUM_BAD_THRESHOLD = 6,   /* NaN or outside -1 to 1 */
    MERELSPLUM_BAD_COORDINATE = 7,  /* not finite or beyond MERELSPLUM_MAX_COORDINATE */
    MERELSPLUM_LENGTH_MISMATCH = 8, /* buffer lengths disagree, or distances are not n(n-1)/2 for n splines */
    MERELSPLUM_BAD_DISTANCE = 9,    /* NaN, infinite or below zero */
    MERELSPLUM_BAD_TABLE = 10,      /* spline table at fault, or the two splines of an offer out of range or equal */
    MERELSPLUM_RESULT_TOO_SHORT = 11 /* a result buffer is too short */
};

/* Plus the refusal: the answer of a call that is refused. The offer has its own, and merelsplum_job_contour_part
 * never refuses. */
#define MERELSPLUM_REFUSED UINT64_C(0x100000000)

static inline int merelsplum_is_refusal(uint64_t answer) { return answer >> 32 == 1; }

/* Which refusal it is, or 0. */
static inline unsigned merelsplum_refusal(uint64_t answer) {
    return merelsplum_is_refusal(answer) ? (unsigned)(answer - MERELSPLUM_REFUSED) : 0;
}

/* The counts of a colouring, of its collecting pass, of merelsplum_job_check and of merelsplum_job_color stand in one
 * answer, 16 bits each:
 *   bits 0 to 15   the edges of the result
 *   bits 16 to 31  the splines, of the collecting pass; 0 of all others
 *   bits 32 to 47  0; a refusal has 1 here, bit 32, and no counts
 *   bits 48 to 63  the stand-ins among the directions of the outline as it is given, before any edge is split: two for
 *                  each edge at most, and so MERELSPLUM_MAX_STAND_INS at most
 * So the answer itself is the number of edges only where there are no splines and no stand-ins; merelsplum_colored_edges
 * takes it out, of the collecting pass too. The functions that take a count out give 0 for a refusal. */
static inline unsigned merelsplum_colored_edges(uint64_t answer) {
    return merelsplum_is_refusal(answer) ? 0 : (unsigned)(answer & 0xFFFF);
}
static inline unsigned merelsplum_stand_ins(uint64_t answer) { return (unsigned)(answer >> 48); }

/* ---- colouring an outline
 *
 * Answer: the number of edges of the result and 2^48 times the stand-ins, or a refusal, looked for in this order:
 * 4 (contours, edges, distances), 8 (lengths), 5, 7, 6, then by distance 4 (splines), 8 (number of distances), 9, and
 * last 11. out_colors gets a colour for each edge of the result. */

uint64_t merelsplum_edge_coloring_simple(
    const uint16_t *lengths, size_t lengths_len,
    const uint8_t *kinds, size_t kinds_len,
    const double *points, size_t points_len,
    double threshold, uint64_t seed,
    uint16_t *out_lengths, size_t out_lengths_len,
    uint8_t *out_kinds, size_t out_kinds_len,
    double *out_points, size_t out_points_len,
    uint8_t *out_colors, size_t out_colors_len);

/* As the simple one, but a spline that is shorter than both its neighbours, as at an ink trap, takes the colour that
 * they leave over. A spline is a run of edges from corner to corner. */
uint64_t merelsplum_edge_coloring_ink_trap(
    const uint16_t *lengths, size_t lengths_len,
    const uint8_t *kinds, size_t kinds_len,
    const double *points, size_t points_len,
    double threshold, uint64_t seed,
    uint16_t *out_lengths, size_t out_lengths_len,
    uint8_t *out_kinds, size_t out_kinds_len,
    double *out_points, size_t out_points_len,
    uint8_t *out_colors, size_t out_colors_len);

/* Gives splines that are near each other different colours. The caller measures the distances: for the splines that
 * the collecting pass below numbers, one for each pair i < j, by i and then by j; finite and not below zero, 0 where
 * the two splines touch. */
uint64_t merelsplum_edge_coloring_by_distance(
    const uint16_t *lengths, size_t lengths_len,
    const uint8_t *kinds, size_t kinds_len,
    const double *points, size_t points_len,
    double threshold, uint64_t seed,
    const double *distances, size_t distances_len,
    uint16_t *out_lengths, size_t out_lengths_len,
    uint8_t *out_kinds, size_t out_kinds_len,
    double *out_points, size_t out_points_len,
    uint8_t *out_colors, size_t out_colors_len);

/* The collecting pass: the same edges as the colouring by distance writes, and in out_splines the number of each
 * one's spline, or MERELSPLUM_NO_SPLINE. Answer: the edges, 2^16 times the splines and 2^48 times the stand-ins, or a
 * refusal as above. */
uint64_t merelsplum_collect_splines(
    const uint16_t *lengths, size_t lengths_len,
    const uint8_t *kinds, size_t kinds_len,
    const double *points, size_t points_len,
    double threshold,
    uint16_t *out_lengths, size_t out_lengths_len,
    uint8_t *out_kinds, size_t out_kinds_len,
    double *out_points, size_t out_points_len,
    uint8_t *out_splines, size_t out_splines_len);

static inline unsigned merelsplum_collected_edges(uint64_t answer) { return merelsplum_colored_edges(answer); }
static inline unsigned merelsplum_collected_splines(uint64_t answer) { return (unsigned)(answer >> 16 & 0xFFFF); }

/* ---- balanced teardrops
 *
 * A teardrop is a contour with one corner; its edges are coloured in three runs. The functions above divide them as
 * msdfgen does: of n edges, 3 or more, place p, counted from 0 at the corner, is
 *   in the first run where 46 p < 15 (n - 1),
 *   else in the middle one, which is White, where 46 p < 31 (n - 1),
 *   else in the last one.
 * Here the middle run is where 15 (n - 1) <= 46 p <= 31 (n - 1), so that the two outer ones are equally long. The two
 * divisions differ where n - 1 is a multiple of 46, and there at one place, p = 31 (n - 1) / 46: 47 edges are 15, 16
 * and 16 above, and 15, 17 and 15 here. Teardrops of one or two edges, which are split in thirds, and all other
 * contours are the same in both.
 *
 * Parameters, answers and refusals are those of the functions without the suffix. The distances of a balanced colouring
 * are those of the splines that the balanced collecting pass numbers. */

uint64_t merelsplum_edge_coloring_simple_balanced(
    const uint16_t *lengths, size_t lengths_len,
    const uint8_t *kinds, size_t kinds_len,
    const double *points, size_t points_len,
    double threshold, uint64_t seed,
    uint16_t *out_lengths, size_t out_lengths_len,
    uint8_t *out_kinds, size_t out_kinds_len,
    double *out_points, size_t out_points_len,
    uint8_t *out_colors, size_t out_colors_len);

uint64_t merelsplum_edge_coloring_ink_trap_balanced(
    const uint16_t *lengths, size_t lengths_len,
    const uint8_t *kinds, size_t kinds_len,
    const double *points, size_t points_len,
    double threshold, uint64_t seed,
    uint16_t *out_lengths, size_t out_lengths_len,
    uint8_t *out_kinds, size_t out_kinds_len,
    double *out_points, size_t out_points_len,
    uint8_t *out_colors, size_t out_colors_len);

uint64_t merelsplum_edge_coloring_by_distance_balanced(
    const uint16_t *lengths, size_t lengths_len,
    const uint8_t *kinds, size_t kinds_len,
    const double *points, size_t points_len,
    double threshold, uint64_t seed,
    const double *distances, size_t distances_len,
    uint16_t *out_lengths, size_t out_lengths_len,
    uint8_t *out_kinds, size_t out_kinds_len,
    double *out_points, size_t out_points_len,
    uint8_t *out_colors, size_t out_colors_len);

uint64_t merelsplum_collect_splines_balanced(
    const uint16_t *lengths, size_t lengths_len,
    const uint8_t *kinds, size_t kinds_len,
    const double *points, size_t points_len,
    double threshold,
    uint16_t *out_lengths, size_t out_lengths_len,
    uint8_t *out_kinds, size_t out_kinds_len,
    double *out_points, size_t out_points_len,
    uint8_t *out_splines, size_t out_splines_len);

/* ---- directions of an outline's edges
 *
 * out_directions gets four doubles for each edge, through all contours: x and y of the unit direction in which it
 * starts, then of that in which it ends. Where the two control points at an end of a curve are the same, the next one
 * is taken in place of the nearer. Corners follow from these numbers and the threshold alone: an edge begins at a
 * corner where e, the end of the one before it in its contour (of the last one for the first), and s, its start, have
 * e.x * s.x + e.y * s.y <= 0 or |e.x * s.y - e.y * s.x| above the threshold.
 *
 * out_stand_ins gets two bytes for each edge, of its start and of its end: 1 where the length, the root of the squared
 * length as rounded, is 0 and (0, 1) stands in, else 0. (2^-600, 0) has length 0; a direction that is (0, 1) by itself
 * has length 1 and is no stand-in. These bytes add up to the stand-ins of a colouring's answer.
 *
 * Answer: the number of edges, or a refusal, looked for in this order: 4 (contours, edges), 8 (lengths), 5, 7, and last
 * 11, where out_directions has fewer than 4 doubles for each edge, or out_stand_ins fewer than 2 bytes. Both may have
 * more, which keep their bytes; 4 * MERELSPLUM_MAX_EDGES and 2 * MERELSPLUM_MAX_EDGES are always enough. */

uint64_t merelsplum_edge_directions(
    const uint16_t *lengths, size_t lengths_len,
    const uint8_t *kinds, size_t kinds_len,
    const double *points, size_t points_len,
    double *out_directions, size_t out_directions_len,
    uint8_t *out_stand_ins, size_t out_stand_ins_len);

/* ---- offers to a spline table
 *
 * A spline table has a colour for each of n splines, 0, 1 or 2 (Yellow, Cyan, Magenta), and n * n bytes, by rows: 1
 * where a pair is kept apart, else 0; symmetric, 0 on the diagonal. An offer asks to keep the splines a and b apart
 * too. Where that works, the pair is kept and colours are changed as needed; where it does not within some 16 steps,
 * it is declined and the table stays as it is, but for this pair, whose two entries are 0. Refusals: 4 (n above 64),
 * 8 (edge_matrix has not n * n bytes), 10.
 *
 * A table may start with clashes, pairs that are kept apart though their two colours are equal. No offer makes one: two
 * splines that clash after any list of offers clashed with each other before it, and no offer of them was kept. A
 * declined offer drops its pair if that was kept before; only a pair that clashes can come to that. Of a list in which
 * no offer drops its pair, declined and refused offers can be left out: the others get the same answers, and the table
 * ends the same. It is enough that none of the offered pairs clashes before the first offer. */

uint64_t merelsplum_try_add_edge(
    uint8_t *coloring, size_t coloring_len,
    uint8_t *edge_matrix, size_t edge_matrix_len,
    size_t a, size_t b);

/* The answer is one of these, and added to it the steps taken (0 to 17), or the refusal. */
#define MERELSPLUM_OFFER_KEPT UINT64_C(256)
#define MERELSPLUM_OFFER_DECLINED UINT64_C(512)
#define MERELSPLUM_OFFER_REFUSED UINT64_C(768)

static inline uint64_t merelsplum_offer_outcome(uint64_t answer) { return answer & ~UINT64_C(255); }
static inline unsigned merelsplum_offer_steps(uint64_t answer) {
    return merelsplum_offer_outcome(answer) == MERELSPLUM_OFFER_REFUSED ? 0 : (unsigned)(answer & 255);
}
static inline unsigned merelsplum_offer_refusal(uint64_t answer) {
    return merelsplum_offer_outcome(answer) == MERELSPLUM_OFFER_REFUSED ? (unsigned)(answer & 255) : 0;
}

/* ---- job files (docs/FORMAT.md)
 *
 * A job file has an outline, its strategy, seed and threshold, whether its teardrops are balanced and, by distance, the
 * distances. Of a file that is refused the earliest record with a fault decides. Its colouring and its listing divide
 * teardrops as it asks. */

/* What the file holds: the outline, the distances, and in numbers its strategy, seed, threshold (the bits of a
 * double), and how many contours, edges and distances there are. numbers has no length of its own and is not NULL.
 * Answer: 0, or a refusal; 11 where a buffer is too short, and else the refusal of merelsplum_job_check: a file that
 * is read here is accepted. The largest job has 64 lengths, 256 kinds, 2048 points and 2016 distances. Whether the
 * file asks for balanced teardrops is not among the numbers: a host that colours what it has read asks
 * merelsplum_job_balanced, and where that answers 1 it calls the functions that end in _balanced. */
uint64_t merelsplum_job_read(
    const uint8_t *file, size_t file_len,
    uint16_t *lengths, size_t lengths_len,
    uint8_t *kinds, size_t kinds_len,
    double *points, size_t points_len,
    double *distances, size_t distances_len,
    uint64_t numbers[6]);

/* Whether the file asks for balanced teardrops, by the record BL. Answer: 1 where it does, 0 where it does not, or the
 * refusal of merelsplum_job_check. */
uint64_t merelsplum_job_balanced(const uint8_t *file, size_t file_len);

/* Whether the file is accepted, without buffers. Answer: what merelsplum_job_color answers with buffers that are long
 * enough; never 11. */
uint64_t merelsplum_job_check(const uint8_t *file, size_t file_len);

/* Reads and colours. Answer: the number of edges of the result and 2^48 times the stand-ins, or a refusal.
 * merelsplum_job_read says how many contours there are. */
uint64_t merelsplum_job_color(
    const uint8_t *file, size_t file_len,
    uint16_t *out_lengths, size_t out_lengths_len,
    uint8_t *out_kinds, size_t out_kinds_len,
    double *out_points, size_t out_points_len,
    uint8_t *out_colors, size_t out_colors_len);

/* Reads, colours and writes the result as text (not ended by a zero byte): a line for each edge, then "edges" and their
 * number, then "standins" and theirs. Answer: the number of bytes, or 11 where the text does not fit;
 * MERELSPLUM_MAX_LISTING_BYTES are always enough. A file that is refused gives its text, "refused" and the number. */
uint64_t merelsplum_job_listing(const uint8_t *file, size_t file_len, uint8_t *out, size_t out_len);

/* Where in the file the records of one contour are (from 0): the place of the first byte and 2^32 times their
 * number, or 0 where the file is refused or has no such contour. */
uint64_t merelsplum_job_contour_part(const uint8_t *file, size_t file_len, size_t contour);

static inline size_t merelsplum_part_start(uint64_t answer) { return (size_t)(answer & UINT64_C(0xFFFFFFFF)); }
static inline size_t merelsplum_part_len(uint64_t answer) { return (size_t)(answer >> 32); }

#ifdef __cplusplus
}
#endif

#endif
