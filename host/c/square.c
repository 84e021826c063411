/* Colours the unit square and prints what docs/FORMAT.md has: a line for each edge, its contour, place in it, kind and
 * colour, then how many edges and how many stand-ins there are. */
#include <stdio.h>

#include "merelsplum.h"

int main(void) {
    static const uint16_t lengths[] = {4};
    static const uint8_t kinds[] = {MERELSPLUM_LINE, MERELSPLUM_LINE, MERELSPLUM_LINE, MERELSPLUM_LINE};
    static const double points[] = {
        0, 0, 1, 0, 0, 0, 0, 0,
        1, 0, 1, 1, 0, 0, 0, 0,
        1, 1, 0, 1, 0, 0, 0, 0,
        0, 1, 0, 0, 0, 0, 0, 0,
    };
    uint16_t out_lengths[1];
    uint8_t out_kinds[12], out_colors[12]; /* three times the edges: always enough */
    double out_points[8 * 12];

    uint64_t answer = merelsplum_edge_coloring_simple(
        lengths, 1, kinds, 4, points, 32, 0.125, 0,
        out_lengths, 1, out_kinds, 12, out_points, 8 * 12, out_colors, 12);
    if (merelsplum_is_refusal(answer)) {
        fprintf(stderr, "refused %u\n", merelsplum_refusal(answer));
        return 1;
    }
    size_t edge = 0;
    for (unsigned contour = 0; contour < 1; contour++)
        for (unsigned place = 0; place < out_lengths[contour]; place++, edge++)
            printf("%u %u %c %u\n", contour, place, " LQC"[out_kinds[edge]], out_colors[edge]);
    printf("edges %u\nstandins %u\n", merelsplum_colored_edges(answer), merelsplum_stand_ins(answer));
    return 0;
}
