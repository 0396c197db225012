/* From C: the scores of four segments, with the links of reuse 0 to 1, 0 to 2, 2 to 1 and 3 to 2. Segment 0 is accepted.
   Nothing accepted leads to segment 3, so it has no score. */
#include "talwighest.h"

#include <stdio.h>

int main(void) {
    const uint32_t from[] = {0, 0, 2, 3};
    const uint32_t to[] = {1, 2, 1, 2};
    const double weight[] = {1.0, 3.0, 1.0, 1.0};
    const uint32_t sources[] = {0};
    const struct talwighest_settings settings = TALWIGHEST_DEFAULT_SETTINGS;
    double estimate[4], residual[4], weights[4], degrees[4], priorities[4];
    uint32_t starts[5], columns[4], nodes[4];
    uint64_t queued[1], visited[1];

    struct talwighest_solved solved = talwighest_solve_multi_source_links(
        4, from, 4, to, 4, weight, 4, sources, 1, settings, estimate, 4, residual, 4, starts, 5, columns, 4, weights, 4,
        degrees, 4, priorities, 4, nodes, 4, queued, 1, visited, 1);
    printf("refusal %u, %llu pushes on %llu nodes, norm %.3g\n", solved.refusal, (unsigned long long)solved.push_count,
           (unsigned long long)solved.nodes_visited, solved.residual_norm);
    for (uint32_t node = 0; node < 4; node++) {
        printf("node %u: score %.6f, remainder %.3g\n", node, estimate[node], residual[node]);
    }
    return 0;
}
