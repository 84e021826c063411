/* What merelsplum.h says, tried: NULL buffers, the helpers, the floating-point state, the job file's entries. Silent
 * where all is well. */
#include <stdio.h>
#include <string.h>
#include <xmmintrin.h>

#include "merelsplum.h"

static int failures;

#define CHECK(condition) \
    do { \
        if (!(condition)) { \
            fprintf(stderr, "%s:%d: %s\n", __FILE__, __LINE__, #condition); \
            failures++; \
        } \
    } while (0)

static const uint16_t lengths[] = {4};
static const uint8_t kinds[] = {MERELSPLUM_LINE, MERELSPLUM_LINE, MERELSPLUM_LINE, MERELSPLUM_LINE};

struct result {
    uint16_t lengths[1];
    uint8_t kinds[12], bytes[12];
    double points[8 * 12];
};

/* The corners of a square with sides s, as points. */
static void square(double points[32], double s) {
    static const int x[] = {0, 1, 1, 0, 0}, y[] = {0, 0, 1, 1, 0};
    for (int i = 0; i < 4; i++) {
        const double edge[8] = {x[i] * s, y[i] * s, x[i + 1] * s, y[i + 1] * s};
        memcpy(points + 8 * i, edge, sizeof edge);
    }
}

static uint64_t color(double s, double threshold, size_t room, struct result *out) {
    double points[32];
    square(points, s);
    return merelsplum_edge_coloring_simple(
        lengths, 1, kinds, 4, points, 32, threshold, 0,
        out->lengths, 1, out->kinds, room, out->points, 8 * room, out->bytes, room);
}

static int colors_are(const struct result *out, const char *colors) { return memcmp(out->bytes, colors, 4) == 0; }

static void nothing(void) {
    CHECK(merelsplum_edge_coloring_simple(NULL, 0, NULL, 0, NULL, 0, 0, 0, NULL, 0, NULL, 0, NULL, 0, NULL, 0) == 0);
    CHECK(merelsplum_edge_coloring_ink_trap(NULL, 0, NULL, 0, NULL, 0, 0, 0, NULL, 0, NULL, 0, NULL, 0, NULL, 0) == 0);
    CHECK(merelsplum_edge_coloring_by_distance(NULL, 0, NULL, 0, NULL, 0, 0, 0, NULL, 0, NULL, 0, NULL, 0, NULL, 0, NULL, 0) == 0);
    CHECK(merelsplum_collect_splines(NULL, 0, NULL, 0, NULL, 0, 0, NULL, 0, NULL, 0, NULL, 0, NULL, 0) == 0);
    CHECK(merelsplum_edge_coloring_simple_balanced(NULL, 0, NULL, 0, NULL, 0, 0, 0, NULL, 0, NULL, 0, NULL, 0, NULL, 0) == 0);
    CHECK(merelsplum_edge_coloring_ink_trap_balanced(NULL, 0, NULL, 0, NULL, 0, 0, 0, NULL, 0, NULL, 0, NULL, 0, NULL, 0) == 0);
    CHECK(merelsplum_edge_coloring_by_distance_balanced(
              NULL, 0, NULL, 0, NULL, 0, 0, 0, NULL, 0, NULL, 0, NULL, 0, NULL, 0, NULL, 0) == 0);
    CHECK(merelsplum_collect_splines_balanced(NULL, 0, NULL, 0, NULL, 0, 0, NULL, 0, NULL, 0, NULL, 0, NULL, 0) == 0);
    CHECK(merelsplum_edge_directions(NULL, 0, NULL, 0, NULL, 0, NULL, 0, NULL, 0) == 0);
    CHECK(merelsplum_offer_refusal(merelsplum_try_add_edge(NULL, 0, NULL, 0, 0, 1)) == MERELSPLUM_BAD_TABLE);
    uint64_t numbers[6];
    CHECK(merelsplum_refusal(merelsplum_job_read(NULL, 0, NULL, 0, NULL, 0, NULL, 0, NULL, 0, numbers)) == MERELSPLUM_TRUNCATED);
    CHECK(merelsplum_refusal(merelsplum_job_balanced(NULL, 0)) == MERELSPLUM_TRUNCATED);
    CHECK(merelsplum_refusal(merelsplum_job_check(NULL, 0)) == MERELSPLUM_TRUNCATED);
    CHECK(merelsplum_refusal(merelsplum_job_color(NULL, 0, NULL, 0, NULL, 0, NULL, 0, NULL, 0)) == MERELSPLUM_TRUNCATED);
    CHECK(merelsplum_refusal(merelsplum_job_listing(NULL, 0, NULL, 0)) == MERELSPLUM_RESULT_TOO_SHORT);
    CHECK(merelsplum_job_contour_part(NULL, 0, 0) == 0);
}

static void outlines(void) {
    struct result out = {0};
    double points[32];
    CHECK(color(1, 0.125, 12, &out) == 4 && colors_are(&out, "\5\3\6\3"));
    CHECK(color(1, 0.125, 4, &out) == 4);
    CHECK(merelsplum_refusal(color(1, 0.125, 3, &out)) == MERELSPLUM_RESULT_TOO_SHORT);
    CHECK(merelsplum_refusal(color(1, 1.5, 12, &out)) == MERELSPLUM_BAD_THRESHOLD);
    CHECK(merelsplum_refusal(color(2 * MERELSPLUM_MAX_COORDINATE, 0.125, 12, &out)) == MERELSPLUM_BAD_COORDINATE);

    square(points, 1);
    uint64_t answer = merelsplum_collect_splines(
        lengths, 1, kinds, 4, points, 32, 0.125, out.lengths, 1, out.kinds, 12, out.points, 96, out.bytes, 12);
    CHECK(!merelsplum_is_refusal(answer) && merelsplum_refusal(answer) == 0);
    CHECK(merelsplum_collected_edges(answer) == 4 && merelsplum_collected_splines(answer) == 4);
    CHECK(colors_are(&out, "\0\1\2\3"));
    static const double distances[] = {0, 1, 0, 0, 1, 0};
    answer = merelsplum_edge_coloring_by_distance(
        lengths, 1, kinds, 4, points, 32, 0.125, 0, distances, 6,
        out.lengths, 1, out.kinds, 12, out.points, 96, out.bytes, 12);
    CHECK(answer == 4 && colors_are(&out, "\3\6\5\6"));
}

/* The parts of an answer, each at its limit. */
static void parts(void) {
    static const uint64_t most = MERELSPLUM_MAX_RESULT_EDGES + (UINT64_C(64) << 16) + (UINT64_C(512) << 48);
    CHECK(MERELSPLUM_MAX_STAND_INS == 512 && MERELSPLUM_MAX_SPLINES == 64);
    CHECK(!merelsplum_is_refusal(most) && merelsplum_refusal(most) == 0);
    CHECK(merelsplum_colored_edges(most) == 508 && merelsplum_collected_edges(most) == 508);
    CHECK(merelsplum_collected_splines(most) == 64 && merelsplum_stand_ins(most) == 512);
    for (unsigned number = 1; number <= MERELSPLUM_RESULT_TOO_SHORT; number++) {
        const uint64_t refused = MERELSPLUM_REFUSED + number;
        CHECK(merelsplum_is_refusal(refused) && merelsplum_refusal(refused) == number);
        CHECK(merelsplum_colored_edges(refused) == 0 && merelsplum_stand_ins(refused) == 0);
    }
}

/* What the colourings answer for a contour of n edges and a result of as many as there is room for; the collecting pass
 * adds its splines. */
static uint64_t counted(uint16_t n, const uint8_t *k, const double *p, double threshold, size_t room) {
    static struct {
        uint16_t lengths[1];
        uint8_t kinds[MERELSPLUM_MAX_EDGES], bytes[MERELSPLUM_MAX_EDGES];
        double points[8 * MERELSPLUM_MAX_EDGES];
    } out;
    static const double distances[MERELSPLUM_MAX_DISTANCES];
#define CONTOUR &n, 1, k, n, p, 8 * (size_t)n, threshold
#define RESULT out.lengths, 1, out.kinds, room, out.points, 8 * room, out.bytes, room
    const uint64_t answer = merelsplum_edge_coloring_simple(CONTOUR, 0, RESULT);
    CHECK(merelsplum_edge_coloring_ink_trap(CONTOUR, 0, RESULT) == answer);
    const uint64_t collected = merelsplum_collect_splines(CONTOUR, RESULT);
    const unsigned splines = merelsplum_is_refusal(collected) ? 0 : merelsplum_collected_splines(collected);
    CHECK(collected == answer + ((uint64_t)splines << 16));
    CHECK(merelsplum_edge_coloring_by_distance(CONTOUR, 0, distances, splines * (splines - 1) / 2, RESULT) == answer);
    return answer;
}

/* A square with a point that stands twice, a line that goes up, and as many edges as there can be that are points. */
static void stand_ins(void) {
    enum { EDGES = MERELSPLUM_MAX_EDGES + 1 };
    static uint8_t k[EDGES];
    static double p[8 * EDGES];
    memset(k, MERELSPLUM_LINE, sizeof k);
    square(p, 1);
    memmove(p + 16, p + 8, 24 * sizeof *p);
    p[10] = p[8], p[11] = p[9];
    CHECK(counted(5, k, p, 0.125, 5) == 5 + (UINT64_C(2) << 48));
    static const double up[8] = {3, 3, 3, 5};
    CHECK(counted(1, k, up, 0.125, 3) == 1);

    memset(p, 0, sizeof p);
    for (int i = 0; i < EDGES; i++)
        k[i] = (uint8_t)(1 + i % 3);
    const uint64_t answer = counted(256, k, p, 0.125, 256);
    CHECK(answer == 256 + (UINT64_C(512) << 48) && !merelsplum_is_refusal(answer));
    CHECK(merelsplum_colored_edges(answer) == 256 && merelsplum_stand_ins(answer) == MERELSPLUM_MAX_STAND_INS);
    /* a refusal has nothing else */
    CHECK(counted(256, k, p, 0.125, 255) == MERELSPLUM_REFUSED + MERELSPLUM_RESULT_TOO_SHORT);
    CHECK(counted(256, k, p, 1.5, 256) == MERELSPLUM_REFUSED + MERELSPLUM_BAD_THRESHOLD);
    CHECK(counted(EDGES, k, p, 0.125, 256) == MERELSPLUM_REFUSED + MERELSPLUM_TOO_MANY);
}

enum { DROP = 47 };

/* An edge of a contour of 47 lines that turn a little each, and far from the last to the first. */
static void drop_edge(double points[8], int i) {
    const double edge[8] = {0, 0, 23 - i, 12};
    memcpy(points, edge, sizeof edge);
}

/* Whether 47 bytes have the middle one at so many places after the first few, and another before and after each. */
static int runs_are(const uint8_t bytes[DROP], int first, int middle, uint8_t value) {
    for (int i = 0; i < DROP; i++) {
        const uint8_t expected = i < first ? bytes[0] : i < first + middle ? value : bytes[DROP - 1];
        if (bytes[i] != expected)
            return 0;
    }
    return bytes[0] != value && bytes[DROP - 1] != value && bytes[0] != bytes[DROP - 1];
}

/* 47 edges with one corner are 15, 16 and 16, balanced 15, 17 and 15; what is refused leaves the buffers. */
static void teardrops(void) {
    static const uint16_t l[] = {DROP};
    static const double touching[] = {0}, none[1];
    uint8_t k[DROP];
    double p[8 * DROP];
    struct {
        uint16_t lengths[1];
        uint8_t kinds[DROP], bytes[DROP];
        double points[8 * DROP];
    } out, before;
    memset(k, MERELSPLUM_LINE, sizeof k), memset(&out, 5, sizeof out);
    for (int i = 0; i < DROP; i++)
        drop_edge(p + 8 * i, i);
#define TEARDROP l, 1, k, DROP, p, 8 * DROP
#define ROOM(n) out.lengths, 1, out.kinds, n, out.points, 8 * (n), out.bytes, n
    before = out;
    CHECK(merelsplum_edge_coloring_simple_balanced(TEARDROP, 0.125, 0, ROOM(46)) == MERELSPLUM_REFUSED + 11);
    CHECK(merelsplum_edge_coloring_ink_trap_balanced(TEARDROP, 1.5, 0, ROOM(DROP)) == MERELSPLUM_REFUSED + 6);
    CHECK(merelsplum_edge_coloring_by_distance_balanced(TEARDROP, 0.125, 0, none, 0, ROOM(DROP)) == MERELSPLUM_REFUSED + 8);
    CHECK(merelsplum_collect_splines_balanced(TEARDROP, -1.5, ROOM(DROP)) == MERELSPLUM_REFUSED + 6);
    CHECK(memcmp(&before, &out, sizeof out) == 0);

    CHECK(merelsplum_edge_coloring_simple(TEARDROP, 0.125, 0, ROOM(DROP)) == DROP);
    CHECK(runs_are(out.bytes, 15, 16, MERELSPLUM_WHITE));
    CHECK(merelsplum_edge_coloring_simple_balanced(TEARDROP, 0.125, 0, ROOM(DROP)) == DROP);
    CHECK(runs_are(out.bytes, 15, 17, MERELSPLUM_WHITE));
    CHECK(out.lengths[0] == DROP && memcmp(out.kinds, k, sizeof k) == 0 && memcmp(out.points, p, sizeof p) == 0);
    CHECK(merelsplum_edge_coloring_ink_trap(TEARDROP, 0.125, 0, ROOM(DROP)) == DROP);
    CHECK(runs_are(out.bytes, 15, 16, MERELSPLUM_WHITE));
    CHECK(merelsplum_edge_coloring_ink_trap_balanced(TEARDROP, 0.125, 0, ROOM(DROP)) == DROP);
    CHECK(runs_are(out.bytes, 15, 17, MERELSPLUM_WHITE));
    CHECK(merelsplum_edge_coloring_by_distance(TEARDROP, 0.125, 0, touching, 1, ROOM(DROP)) == DROP);
    CHECK(runs_are(out.bytes, 15, 16, MERELSPLUM_WHITE));
    CHECK(merelsplum_edge_coloring_by_distance_balanced(TEARDROP, 0.125, 0, touching, 1, ROOM(DROP)) == DROP);
    CHECK(runs_are(out.bytes, 15, 17, MERELSPLUM_WHITE));
    CHECK(merelsplum_collect_splines(TEARDROP, 0.125, ROOM(DROP)) == DROP + (2 << 16));
    CHECK(runs_are(out.bytes, 15, 16, MERELSPLUM_NO_SPLINE));
    CHECK(merelsplum_collect_splines_balanced(TEARDROP, 0.125, ROOM(DROP)) == DROP + (2 << 16));
    CHECK(runs_are(out.bytes, 15, 17, MERELSPLUM_NO_SPLINE));
}

/* The refusal of a call with so many contours and edges and so much room for directions and stand-ins. */
static unsigned directions_refused(
    size_t contours, const uint16_t *l, const uint8_t *k, size_t n, const double *p, size_t room, size_t bytes) {
    double out[16];
    uint8_t out_stand_ins[8];
    memset(out, 5, sizeof out), memset(out_stand_ins, 5, sizeof out_stand_ins);
    const uint64_t answer = merelsplum_edge_directions(l, contours, k, n, p, 8 * n, out, room, out_stand_ins, bytes);
    for (size_t i = 0; i < sizeof out; i++)
        CHECK(((const uint8_t *)out)[i] == 5);
    for (size_t i = 0; i < sizeof out_stand_ins; i++)
        CHECK(out_stand_ins[i] == 5);
    CHECK(answer == MERELSPLUM_REFUSED + merelsplum_refusal(answer));
    return merelsplum_refusal(answer);
}

/* Directions of the square, of cubics with two or three points that are the same, and of lines without length; then
 * each refusal where all later ones hold too. */
static void directions(void) {
    double points[32], out[18];
    uint8_t out_stand_ins[10];
    memset(out, 5, sizeof out), memset(out_stand_ins, 5, sizeof out_stand_ins);
    square(points, 2);
    static const double sides[] = {1, 0, 1, 0, 0, 1, 0, 1, -1, 0, -1, 0, 0, -1, 0, -1};
    CHECK(merelsplum_edge_directions(lengths, 1, kinds, 4, points, 32, out, 18, out_stand_ins, 10) == 4);
    CHECK(memcmp(out_stand_ins, "\0\0\0\0\0\0\0\0\5\5", 10) == 0);
    for (int i = 0; i < 16; i++)
        CHECK(out[i] == sides[i]);
    for (size_t i = sizeof sides; i < sizeof out; i++)
        CHECK(((const uint8_t *)out)[i] == 5);
    CHECK(merelsplum_edge_directions(lengths, 1, kinds, 4, points, 32, out, 16, out_stand_ins, 8) == 4);

    static const uint16_t four[] = {1, 0, 3};
    static const uint8_t cubics_and_lines[] = {MERELSPLUM_CUBIC, MERELSPLUM_LINE, MERELSPLUM_CUBIC, MERELSPLUM_LINE};
    static const double edges[32] = {
        1, 1, 1, 1, 4, 5, 4, -2,
        7, 7, 7, 7, 0, 0, 0, 0,
        1, 1, 4, 5, 4, 5, 4, 5,
        0, 0, 0x1p-600, 0, 0, 0, 0, 0,
    };
    static const double expected[] = {0.6, 0.8, 0, -1, 0, 1, 0, 1, 0.6, 0.8, 0, 1, 0, 1, 0, 1};
    CHECK(merelsplum_edge_directions(four, 3, cubics_and_lines, 4, edges, 32, out, 16, out_stand_ins, 8) == 4);
    CHECK(memcmp(out, expected, sizeof expected) == 0);
    CHECK(memcmp(out_stand_ins, "\0\0\1\1\0\1\1\1\5\5", 10) == 0);

    static const uint16_t many[MERELSPLUM_MAX_CONTOURS + 1] = {4}, five[] = {5}, above[] = {MERELSPLUM_MAX_EDGES + 1};
    static const uint8_t unknown[] = {MERELSPLUM_LINE, MERELSPLUM_LINE, MERELSPLUM_LINE, 4};
    CHECK(directions_refused(1, lengths, kinds, 4, points, 15, 8) == MERELSPLUM_RESULT_TOO_SHORT);
    CHECK(directions_refused(1, lengths, kinds, 4, points, 16, 7) == MERELSPLUM_RESULT_TOO_SHORT);
    CHECK(directions_refused(1, lengths, kinds, 4, points, 0, 8) == MERELSPLUM_RESULT_TOO_SHORT);
    CHECK(directions_refused(1, lengths, kinds, 4, points, 16, 0) == MERELSPLUM_RESULT_TOO_SHORT);
    points[8] = 2 * MERELSPLUM_MAX_COORDINATE;
    CHECK(directions_refused(1, lengths, kinds, 4, points, 15, 7) == MERELSPLUM_BAD_COORDINATE);
    CHECK(directions_refused(1, lengths, unknown, 4, points, 15, 7) == MERELSPLUM_UNKNOWN_KIND);
    CHECK(directions_refused(1, five, unknown, 4, points, 15, 7) == MERELSPLUM_LENGTH_MISMATCH);
    CHECK(directions_refused(1, above, unknown, 4, points, 15, 7) == MERELSPLUM_TOO_MANY);
    CHECK(directions_refused(MERELSPLUM_MAX_CONTOURS + 1, many, unknown, 4, points, 15, 7) == MERELSPLUM_TOO_MANY);
}

static void offers(void) {
    uint8_t coloring[] = {0, 1, 2, 1}, matrix[16] = {0, 1, 0, 1, 1, 0, 1, 0, 0, 1, 0, 1, 1, 0, 1, 0};
    uint64_t answer = merelsplum_try_add_edge(coloring, 4, matrix, 16, 0, 2);
    CHECK(merelsplum_offer_outcome(answer) == MERELSPLUM_OFFER_KEPT && merelsplum_offer_steps(answer) == 0);
    answer = merelsplum_try_add_edge(coloring, 4, matrix, 16, 1, 3);
    CHECK(merelsplum_offer_outcome(answer) == MERELSPLUM_OFFER_DECLINED && merelsplum_offer_steps(answer) == 16);
    answer = merelsplum_try_add_edge(coloring, 4, matrix, 15, 1, 3);
    CHECK(merelsplum_offer_outcome(answer) == MERELSPLUM_OFFER_REFUSED && merelsplum_offer_steps(answer) == 0);
    CHECK(merelsplum_offer_refusal(answer) == MERELSPLUM_LENGTH_MISMATCH);
}

/* 0, 1, 2 and 3 are all kept apart, and 0 and 1 clash. Two offers beside them leave their clash as it is; offered
 * itself, it is declined and dropped, and then the first of the two is answered otherwise. */
static void clashes(void) {
    static const uint8_t colors[] = {0, 0, 1, 2, 0};
    static const uint8_t pairs[] = {0, 1, 1, 1, 0, 1, 0, 1, 1, 0, 1, 1, 0, 1, 0, 1, 1, 1, 0, 0, 0, 0, 0, 0, 0};
    uint8_t coloring[5], matrix[25];
    memcpy(coloring, colors, 5);
    memcpy(matrix, pairs, 25);
    uint64_t answer = merelsplum_try_add_edge(coloring, 5, matrix, 25, 4, 0);
    CHECK(answer == MERELSPLUM_OFFER_DECLINED + 17 && memcmp(coloring, colors, 5) == 0 && memcmp(matrix, pairs, 25) == 0);
    answer = merelsplum_try_add_edge(coloring, 5, matrix, 25, 4, 2);
    CHECK(answer == MERELSPLUM_OFFER_KEPT && memcmp(coloring, colors, 5) == 0 && matrix[22] == 1 && matrix[14] == 1);
    memcpy(matrix, pairs, 25);
    answer = merelsplum_try_add_edge(coloring, 5, matrix, 25, 0, 1);
    CHECK(answer == MERELSPLUM_OFFER_DECLINED + 17 && memcmp(coloring, colors, 5) == 0 && matrix[1] == 0 && matrix[5] == 0);
    answer = merelsplum_try_add_edge(coloring, 5, matrix, 25, 4, 0);
    CHECK(answer == MERELSPLUM_OFFER_KEPT + 1 && memcmp(coloring, "\1\1\0\2\0", 5) == 0);
}

/* A square with sides 2^-520, whose squared sides are subnormal, loses its corners with flush to zero or
 * denormals-are-zero on. */
static void floating_point_state(void) {
    static const unsigned flags[] = {0x8000, 0x40};
    struct result out = {0};
    const unsigned usual = _mm_getcsr();
    CHECK(color(0x1p-520, 0.125, 12, &out) == 4 && colors_are(&out, "\5\3\6\3"));
    for (int i = 0; i < 2; i++) {
        _mm_setcsr(usual | flags[i]);
        color(0x1p-520, 0.125, 12, &out);
        _mm_setcsr(usual);
        CHECK(colors_are(&out, "\5\5\5\5"));
    }
}

/* A file's check, colouring and listing say how many edges and stand-ins there are. */
static void job_stand_ins(const uint8_t *file, size_t n, unsigned edges, unsigned count, const char *end) {
    static uint16_t out_lengths[1];
    static uint8_t out_kinds[MERELSPLUM_MAX_EDGES], out_colors[MERELSPLUM_MAX_EDGES];
    static double out_points[8 * MERELSPLUM_MAX_EDGES];
    static uint8_t text[MERELSPLUM_MAX_LISTING_BYTES];
    const uint64_t answer = merelsplum_job_check(file, n);
    CHECK(answer == edges + ((uint64_t)count << 48));
    CHECK(merelsplum_colored_edges(answer) == edges && merelsplum_stand_ins(answer) == count);
    CHECK(merelsplum_job_color(file, n, out_lengths, 1, out_kinds, 256, out_points, 2048, out_colors, 256) == answer);
    const uint64_t length = merelsplum_job_listing(file, n, text, sizeof text);
    CHECK(length > strlen(end) && length <= sizeof text && memcmp(text + length - strlen(end), end, strlen(end)) == 0);
}

/* A file of the 47 edges, with so many marks BL; its length. */
static size_t drop_file(uint8_t *file, int marks) {
    static const double threshold = 0.125;
    size_t n = 19;
    memset(file, 0, n), memcpy(file, "JB\1", 3), memcpy(file + 11, &threshold, 8);
    for (int i = 0; i < marks; i++, n += 2)
        memcpy(file + n, "BL", 2);
    memcpy(file + n, "CT", 2), n += 2;
    for (int i = 0; i < DROP; i++, n += 34) {
        double points[8];
        drop_edge(points, i);
        memcpy(file + n, "LN", 2), memcpy(file + n + 2, points, 32);
    }
    memcpy(file + n, "EN", 2);
    return n + 2;
}

/* A file is coloured as it asks; reading it says the same of both. */
static void balanced_jobs(void) {
    uint8_t file[21 + 4 + 34 * DROP + 2], k[DROP], bytes[DROP], text[MERELSPLUM_MAX_LISTING_BYTES];
    uint16_t l[1];
    double p[8 * DROP];
    for (int balanced = 0; balanced < 2; balanced++) {
        const size_t n = drop_file(file, balanced);
        CHECK(merelsplum_job_balanced(file, n) == (uint64_t)balanced);
        CHECK(merelsplum_job_check(file, n) == DROP);
        CHECK(merelsplum_job_color(file, n, l, 1, k, DROP, p, 8 * DROP, bytes, DROP) == DROP);
        CHECK(runs_are(bytes, 15, 16 + balanced, MERELSPLUM_WHITE));
        const char *line = balanced ? "\n0 31 L 7\n0 32 L " : "\n0 30 L 7\n0 31 L ";
        const uint64_t length = merelsplum_job_listing(file, n, text, sizeof text - 1);
        text[length < sizeof text ? length : 0] = 0;
        CHECK(strstr((const char *)text, line));
        const uint64_t part = merelsplum_job_contour_part(file, n, 0);
        CHECK(merelsplum_part_start(part) == 19 + 2 * (size_t)balanced && merelsplum_part_len(part) == 2 + 34 * DROP);
        uint64_t numbers[6];
        CHECK(merelsplum_job_read(file, n, l, 1, k, DROP, p, 8 * DROP, NULL, 0, numbers) == 0);
        CHECK(numbers[0] == MERELSPLUM_SIMPLE && numbers[3] == 1 && numbers[4] == DROP && numbers[5] == 0);
        /* the refusal of the check */
        CHECK(merelsplum_job_balanced(file, n - 1) == MERELSPLUM_REFUSED + MERELSPLUM_TRUNCATED);
    }
    size_t n = drop_file(file, 2);
    CHECK(merelsplum_job_balanced(file, n) == MERELSPLUM_REFUSED + MERELSPLUM_MISPLACED_MARK);
    CHECK(merelsplum_job_check(file, n) == MERELSPLUM_REFUSED + MERELSPLUM_MISPLACED_MARK);
    n = drop_file(file, 1), memcpy(file + 19, "CTBL", 4);
    CHECK(merelsplum_job_balanced(file, n) == MERELSPLUM_REFUSED + MERELSPLUM_MISPLACED_MARK);
}

/* The file of docs/FORMAT.md. */
static void jobs(const char *path) {
    uint8_t file[MERELSPLUM_MAX_JOB_BYTES + 1], text[MERELSPLUM_MAX_LISTING_BYTES];
    FILE *f = fopen(path, "rb");
    CHECK(f);
    if (!f)
        return;
    const size_t n = fread(file, 1, sizeof file, f);
    fclose(f);

    struct result out = {0};
    uint64_t numbers[6];
    CHECK(merelsplum_job_read(file, n, out.lengths, 1, out.kinds, 12, out.points, 96, NULL, 0, numbers) == 0);
    const double threshold = 0.125;
    CHECK(numbers[0] == MERELSPLUM_SIMPLE && numbers[1] == 0 && memcmp(numbers + 2, &threshold, 8) == 0);
    CHECK(numbers[3] == 1 && numbers[4] == 4 && numbers[5] == 0);
    CHECK(merelsplum_job_check(file, n) == 4);
    CHECK(merelsplum_refusal(merelsplum_job_check(file, n - 1)) == MERELSPLUM_TRUNCATED);
    CHECK(merelsplum_job_color(file, n, out.lengths, 1, out.kinds, 12, out.points, 96, out.bytes, 12) == 4);
    CHECK(out.lengths[0] == 4 && colors_are(&out, "\5\3\6\3"));
    static const char listing[] = "0 0 L 5\n0 1 L 3\n0 2 L 6\n0 3 L 3\nedges 4\nstandins 0\n";
    CHECK(merelsplum_job_listing(file, n, text, sizeof text) == sizeof listing - 1 && !memcmp(text, listing, sizeof listing - 1));
    CHECK(merelsplum_refusal(merelsplum_job_listing(file, n, text, sizeof listing - 2)) == MERELSPLUM_RESULT_TOO_SHORT);
    CHECK(merelsplum_job_listing(file, 1, text, sizeof text) == 10 && memcmp(text, "refused 1\n", 10) == 0);
    const uint64_t part = merelsplum_job_contour_part(file, n, 0);
    CHECK(merelsplum_part_start(part) == 19 && merelsplum_part_len(part) == n - 21);
    CHECK(merelsplum_part_len(merelsplum_job_contour_part(file, n, 1)) == 0);

    /* the second side ends where it starts: its two directions have no length */
    memcpy(file + 21 + 34 + 18, file + 21 + 34 + 2, 16);
    job_stand_ins(file, n, 4, 2, "\nedges 4\nstandins 2\n");
    /* as many edges as there can be, each a point */
    memset(file + 21, 0, sizeof file - 21);
    for (int i = 0; i < MERELSPLUM_MAX_EDGES; i++)
        memcpy(file + 21 + 34 * i, "LN", 2);
    memcpy(file + 21 + 34 * MERELSPLUM_MAX_EDGES, "EN", 2);
    job_stand_ins(file, 21 + 34 * MERELSPLUM_MAX_EDGES + 2, 256, 512, "\nedges 256\nstandins 512\n");
}

int main(int argc, char **argv) {
    nothing();
    outlines();
    parts();
    stand_ins();
    teardrops();
    directions();
    offers();
    clashes();
    floating_point_state();
    balanced_jobs();
    CHECK(argc == 2);
    if (argc == 2)
        jobs(argv[1]);
    return failures != 0;
}
