/* From C: a program with functions and records of its own that are called as the library calls its own inside: `transpose`,
   `row_sums`, `square_root`, `Settings` and `Solved`. Each side gets its own: the program's `transpose` turns a square of
   numbers, and the library's the rows of two links. */
#include "talwighest.h"

#include <stdio.h>

struct Settings {
    int width;
};

struct Solved {
    int sum;
};

static double square[2][2] = {{1.0, 2.0}, {3.0, 4.0}};

/* Not static, so that the linker sees them beside the library's. */
void transpose(struct Settings settings);
struct Solved row_sums(struct Settings settings);
double square_root(double x);

void transpose(struct Settings settings) {
    for (int row = 0; row < settings.width; row++) {
        for (int column = 0; column < row; column++) {
            double held = square[row][column];
            square[row][column] = square[column][row];
            square[column][row] = held;
        }
    }
}

struct Solved row_sums(struct Settings settings) {
    struct Solved solved = {0};
    for (int column = 0; column < settings.width; column++) {
        solved.sum += (int)square[0][column];
    }
    return solved;
}

/* Wrong on purpose: the library must not call it. */
double square_root(double x) {
    return -x;
}

int main(void) {
    const struct Settings own = {2};
    transpose(own);
    printf("own: %g %g, sum %d, root %g\n", square[0][0], square[0][1], row_sums(own).sum, square_root(2.0));

    /* Three nodes, with a link from 0 to 1 and one from 2 to 1. */
    const uint32_t starts[] = {0, 1, 1, 2}, columns[] = {1, 1};
    const double weights[] = {0.5, 2.0};
    uint32_t reverse_starts[4], reverse_columns[2], positions[3];
    double reverse_weights[2], degrees[3];
    uint32_t refusal = talwighest_transpose(
        3, starts, 4, columns, 2, weights, 2, reverse_starts, 4, reverse_columns, 2, reverse_weights, 2, positions, 3);
    printf("the library's: refusal %u, into node 1:", refusal);
    for (uint32_t place = reverse_starts[1]; place < reverse_starts[2]; place++) {
        printf(" from %u at %g", reverse_columns[place], reverse_weights[place]);
    }
    refusal = talwighest_row_sums(3, starts, 4, columns, 2, weights, 2, degrees, 3);
    printf("\nrefusal %u, degrees %g %g %g\n", refusal, degrees[0], degrees[1], degrees[2]);

    /* The norm of 3 and 4 is a square root inside the library. */
    const double residual[] = {3.0, 4.0};
    printf("root %.6f, norm %g\n", talwighest_square_root(2.0), talwighest_compute_residual_norm(residual, 2));

    struct talwighest_settings settings = TALWIGHEST_DEFAULT_SETTINGS;
    settings.alpha = 0.5;
    settings.epsilon = 0.25;
    settings.queue_threshold = 2.0;
    settings.max_pushes = 10;
    settings.adaptive_threshold = false;
    double estimate[3], left[3], priorities[3];
    uint32_t nodes[3];
    uint64_t queued[1], visited[1];
    struct talwighest_solved solved = talwighest_solve_single_source_rows(
        3, starts, 4, columns, 1, weights, 2, 0, settings, estimate, 3, left, 3, degrees, 3, priorities, 3, nodes, 3, queued, 1,
        visited, 1);
    printf("a list cut short: %s\n", solved.refusal == TALWIGHEST_WRONG_LENGTH ? "wrong length" : "not refused as it should be");
    return 0;
}
