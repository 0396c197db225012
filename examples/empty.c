/* From C: two segments and no link, with segment 1 accepted. C has no array of length 0, so the lists of links and the
   workspace for them are NULL. */
#include "talwighest.h"

#include <stdio.h>

int main(void) {
    const uint32_t sources[] = {1};
    struct talwighest_settings settings = TALWIGHEST_DEFAULT_SETTINGS;
    settings.alpha = 0.5;
    settings.epsilon = 0.25;
    settings.queue_threshold = 0.25;
    settings.max_pushes = 10;
    settings.adaptive_threshold = false;
    double estimate[2], residual[2], degrees[2], priorities[2];
    uint32_t starts[3], nodes[2];
    uint64_t queued[1], visited[1];

    struct talwighest_solved solved = talwighest_solve_multi_source_links(
        2, NULL, 0, NULL, 0, NULL, 0, sources, 1, settings, estimate, 2, residual, 2, starts, 3, NULL, 0, NULL, 0, degrees, 2,
        priorities, 2, nodes, 2, queued, 1, visited, 1);
    printf("refusal %u, %llu pushes on %llu nodes, norm %.3g\n", solved.refusal, (unsigned long long)solved.push_count,
           (unsigned long long)solved.nodes_visited, solved.residual_norm);
    for (uint32_t node = 0; node < 2; node++) {
        printf("node %u: score %.6f, remainder %.3g\n", node, estimate[node], residual[node]);
    }
    return 0;
}
