/* From C: the rows of four links among three nodes, of which one is dropped, their degrees, and which nodes are linked. */
#include "talwighest.h"

#include <stdio.h>

int main(void) {
    const uint32_t from[] = {2, 0, 1, 0};
    const uint32_t to[] = {1, 2, 3, 1};
    const double weight[] = {1.0, 0.5, 4.0, 2.0};
    uint32_t starts[4], columns[4], positions[3];
    double weights[4], degrees[3];

    struct talwighest_built built = talwighest_from_edges(
        3, from, 4, to, 4, weight, 4, starts, 4, columns, 4, weights, 4, positions, 3);
    if (built.refusal != TALWIGHEST_DONE) {
        return 1;
    }
    printf("refusal %u, kept %u of 4\n", built.refusal, built.kept);
    /* Rows end at the last start, so the lists handed on are as long as links were kept. */
    uint32_t refusal = talwighest_row_sums(3, starts, 4, columns, built.kept, weights, built.kept, degrees, 3);
    printf("refusal %u\n", refusal);
    for (uint32_t node = 0; node < 3; node++) {
        printf("node %u, degree %g:", node, degrees[node]);
        for (uint32_t place = starts[node]; place < starts[node + 1]; place++) {
            printf(" to %u at %g", columns[place], weights[place]);
        }
        printf("\n");
    }
    /* Node 3 is out of range: its link was dropped. */
    const uint32_t asked[][2] = {{0, 1}, {1, 0}, {1, 3}};
    for (int pair = 0; pair < 3; pair++) {
        uint32_t first = asked[pair][0], second = asked[pair][1];
        struct talwighest_found found = talwighest_has_edge(
            3, starts, 4, columns, built.kept, weights, built.kept, first, second);
        struct talwighest_weighed weighed = talwighest_edge_weight(
            3, starts, 4, columns, built.kept, weights, built.kept, first, second);
        printf("%u to %u: refusal %u and %u", first, second, found.refusal, weighed.refusal);
        if (found.found && weighed.found) {
            printf(", a link of %g\n", weighed.weight);
        } else if (!found.found && !weighed.found) {
            printf(", no link\n");
        }
    }
    return 0;
}
