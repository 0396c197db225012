/* SPDX-License-Identifier: MIT OR Apache-2.0

   Talwighest: personalised PageRank by push. This header declares all public calls of the library.

   THE MODEL. A graph has n nodes, numbered 0 to n - 1, and links from node to node, each with a weight. A solve gives every
   node a score, in the list `estimate`, and a remainder, in the list `residual`: the mass at the node that is not handed out
   yet. A push takes the remainder of one node, adds the fraction alpha of it to the node's score, and hands out the rest to
   the remainders of the node's neighbours. A forward solve starts with a mass of 1 at its sources and pushes along the
   links, so its scores say how much of the mass ends at each node. A backward solve starts with a mass of 1 at its targets
   and pushes against the links, so its scores say how strongly each node leads to a target.

   LINKING. ./build, at the top of the repository, proves the library and makes the folder target/talwighest. The folder holds
   everything that a program needs: this header, the archive libtalwighest.a with all calls, and talwighest.pc for pkg-config.
   You can move the folder. The archive is for x86-64. Each of these commands compiles and links a program:
     cc program.c $(PKG_CONFIG_PATH=target/talwighest pkg-config --cflags --libs talwighest)
     cc program.c -Itarget/talwighest -Ltarget/talwighest -ltalwighest
   Every name in this header, and every name that the archive exports, begins with talwighest_ or TALWIGHEST_.

   GRAPHS. A call takes a graph in one of two forms. Each solve and query exists for both, with the endings _links and _rows.
     links  A list of links in any order. Link i goes from node from[i] to node to[i] and has the weight weight[i]. The call
            drops a link if either end is not below n, and keeps all others.
     rows   The links sorted by the node that they leave. The links out of node v are links starts[v] to starts[v + 1] - 1.
            Link i leads to node columns[i] and has the weight weights[i].
   talwighest_from_edges makes rows from a list of links. Below, m is the number of links that a call is given: the length of
   `from`, or of `columns` if the call takes rows.

   LISTS. A list is a pointer and a length, counted in elements. The library allocates no memory. Instead, the caller lends
   each call all its lists. The comment beside each list has the length that it must have, and one of these uses:
     read       The call reads the list and does not change it.
     answer     The call writes every element, unless it refuses.
     workspace  The call needs the list while it runs. It leaves every element zero, unless it refuses.
   Answer and workspace lists may hold anything before the call. If the length of a list is 0, its pointer may be NULL. If a
   call writes a list (answer or workspace), that list must not overlap any other list of the same call. Lists of one type that
   the call only reads may share memory.

   REFUSALS. A call tests its input before it writes anything. If it returns 0 (TALWIGHEST_DONE), it has done its work.
   Any other number is a refusal and says which test failed: the call makes the tests of enum talwighest_refusal in the order
   of their numbers, and returns the number of the first test that fails. A refused call leaves every list as it was, and
   returns counts of 0, a score, norm or weight of +0 (positive zero), and no link found. The number is the result itself, or
   the field `refusal` of the result. The comment above each call says which numbers it can refuse with.

   NODES OUT OF RANGE. A node that a call is asked about, such as a source or target, is out of range if it is not below n.
   The calls do not refuse it:
     - A solve from one source, or to one target, that is out of range leaves +0 in every element of `estimate` and
       `residual`. The counts are 0 and the norm is +0.
     - A solve with a list of sources or targets skips every entry that is out of range. The share of such an entry is lost.
     - talwighest_solve_with_target_* and talwighest_solve_with_source_* start at one of their two nodes and watch the other.
       If the watched node is out of range, they make no push: both lists, the counts and the norm are zero as above.
     - A query returns the score +0 if either of its nodes is out of range. `estimate` and `residual` hold what its solve
       gives. They are +0 everywhere if the solve starts out of range.
     - talwighest_solve_bidirectional_* makes both solves. A solve that starts out of range leaves +0 in both of its lists.
     - talwighest_adaptive_solve_* makes neither solve. It fills all four lists with +0 and returns the score +0.
     - talwighest_has_edge and talwighest_edge_weight find no link from or to a node out of range.

   In the repository, docs/ENTRIES.md explains each call with examples, and docs/RULES.md has the exact rules. include/check
   compares the names, types and order of the arguments below with the source of the library. */
#ifndef TALWIGHEST_H
#define TALWIGHEST_H

#include <stdbool.h>
#include <stddef.h>
#include <stdint.h>

/* CHANGELOG.md, in the repository, says what each version changed. */
#define TALWIGHEST_VERSION "0.4.0"
#define TALWIGHEST_VERSION_MAJOR 0
#define TALWIGHEST_VERSION_MINOR 4
#define TALWIGHEST_VERSION_PATCH 0

#ifdef __cplusplus
extern "C" {
#endif

/* What a call returns: 0 if it is done, or the reason why it refuses. A call makes only the tests that apply to its
   arguments. -0.0 passes tests 5, 6 and 7. */
enum talwighest_refusal {
    TALWIGHEST_DONE = 0,              /* the call is not refused */
    TALWIGHEST_TOO_MANY_NODES = 1,    /* there are more than 65,536 nodes */
    TALWIGHEST_TOO_MANY_LINKS = 2,    /* there are more than 1,048,576 links, or more than 65,536 sources or targets */
    TALWIGHEST_WRONG_LENGTH = 3,      /* a list does not have the length that is noted beside it */
    TALWIGHEST_UNSOUND_ROWS = 4,      /* `starts` does not begin with 0, decreases somewhere or does not end with m, or a
                                         column is not below n */
    TALWIGHEST_UNSOUND_WEIGHT = 5,    /* a weight is a NaN, infinite, below zero or above 1,048,576, even if its link is
                                         dropped */
    TALWIGHEST_UNSOUND_SETTINGS = 6,  /* alpha is not from 0 to 1, epsilon or queue_threshold is not finite or is below zero, or
                                         max_pushes is above 1,000,000,000. Or, even if adaptive_threshold is 0: adaptive_step
                                         is 0, lower_size is above upper_size, or raising_factor, lowering_factor or
                                         threshold_floor is not finite or is below zero */
    TALWIGHEST_UNSOUND_PRECISION = 7  /* target_precision or source_precision is not finite or is below zero */
};

/* The settings of a solve, passed by value. Refusal 6 says which values are allowed. Nodes wait in a queue to be pushed. The
   node with the highest priority leaves it first, and of equal ones the node with the highest number. The priority of a node
   is its remainder / d at the time when it enters the queue. It does not change while the node waits. Here d is the node's
   degree, or 1 if the degree is below 1. The degree is the sum of the weights of the links out of the node in a forward
   solve, and of the links into the node in a backward solve. If the degree is 0, a push adds the rest back to the node's own
   remainder. */
struct talwighest_settings {
    double alpha;            /* the fraction of a pushed remainder that becomes score */
    double epsilon;          /* a node that leaves the queue is not pushed if its remainder is now below epsilon * d */
    double queue_threshold;  /* a node enters the queue only if its priority is at least queue_threshold */
    uint64_t max_pushes;     /* the solve ends after this many pushes, or earlier if the queue is empty */
    bool adaptive_threshold; /* whether the threshold, which starts at queue_threshold, adapts to the number of nodes that
                                wait. Must hold 0 or 1 */
    uint64_t adaptive_step;  /* it adapts after every so many pushes */
    uint32_t upper_size;     /* if more nodes than this wait, it is multiplied by raising_factor */
    uint32_t lower_size;     /* if fewer nodes than this wait and it is above threshold_floor, it is multiplied by
                                lowering_factor */
    double raising_factor;
    double lowering_factor;
    double threshold_floor;
};

/* The settings of the Rust that the library is compared with, to start from. Change what you need:
     struct talwighest_settings settings = TALWIGHEST_DEFAULT_SETTINGS;
     settings.alpha = 0.5; */
#define TALWIGHEST_DEFAULT_SETTINGS {0.15, 1e-6, 1e-8, 1000000, true, 1000, 10000, 100, 1.1, 0.9, 1e-12}

/* What a solve returns. */
struct talwighest_solved {
    uint32_t refusal;        /* 0, or a number of enum talwighest_refusal */
    uint64_t push_count;     /* how many pushes the solve made */
    uint64_t nodes_visited;  /* how many different nodes it pushed */
    double residual_norm;    /* the norm of `residual`, as talwighest_compute_residual_norm returns it */
};

/* What a call returns if its answer is a single score. */
struct talwighest_scored {
    uint32_t refusal;        /* 0, or a number of enum talwighest_refusal */
    double score;
};

/* What talwighest_from_edges returns. */
struct talwighest_built {
    uint32_t refusal;        /* 0, or a number of enum talwighest_refusal */
    uint32_t kept;           /* how many links it kept */
};

/* What talwighest_has_edge returns. */
struct talwighest_found {
    uint32_t refusal;        /* 0, or a number of enum talwighest_refusal */
    bool found;              /* whether there is a link. false if the call refuses */
};

/* What talwighest_edge_weight returns. */
struct talwighest_weighed {
    uint32_t refusal;        /* 0, or a number of enum talwighest_refusal */
    bool found;              /* whether there is a link. false if the call refuses */
    double weight;           /* the weight of the first such link in the row, or +0 if there is none */
};

/* ---- Square root and norm ---- */

/* Returns the IEEE 754 square root of x: the double nearest to the true root. Returns a NaN if x is a NaN or below zero, and
   x itself if x is +0, -0 or +infinity. Refuses nothing. */
double talwighest_square_root(double x);

/* Returns the square root of the sum of the squares. Adds the squares from left to right, starting from +0. Returns +0 if the
   list is empty. The length n may be any number. Refuses nothing. */
double talwighest_compute_residual_norm(
    const double *residual, size_t residual_length              /* n; read */
);

/* ---- The graph store ---- */

/* Makes rows from a list of links. Each row keeps the order of the list. The elements of `columns` and `weights` past the
   kept links are 0. They are not part of the rows: when you pass the rows to another call, pass `kept` as the length of both
   lists. Refuses with 1, 2, 3 and 5. */
struct talwighest_built talwighest_from_edges(
    uint32_t n,
    const uint32_t *from, size_t from_length,                   /* m; read */
    const uint32_t *to, size_t to_length,                       /* m; read */
    const double *weight, size_t weight_length,                 /* m; read */
    uint32_t *starts, size_t starts_length,                     /* n + 1; answer */
    uint32_t *columns, size_t columns_length,                   /* m; answer */
    double *weights, size_t weights_length,                     /* m; answer */
    uint32_t *positions, size_t positions_length                /* n; workspace */
);

/* Transposes rows as talwighest_transpose does, and computes the degrees of the rows and of the transposed rows as
   talwighest_row_sums does. Refuses with 1 to 5. */
uint32_t talwighest_from_matrix(
    uint32_t n,
    const uint32_t *starts, size_t starts_length,               /* n + 1; read */
    const uint32_t *columns, size_t columns_length,             /* m; read */
    const double *weights, size_t weights_length,               /* m; read */
    uint32_t *reverse_starts, size_t reverse_starts_length,     /* n + 1; answer */
    uint32_t *reverse_columns, size_t reverse_columns_length,   /* m; answer */
    double *reverse_weights, size_t reverse_weights_length,     /* m; answer */
    double *degrees, size_t degrees_length,                     /* n; answer */
    double *reverse_degrees, size_t reverse_degrees_length,     /* n; answer */
    uint32_t *positions, size_t positions_length                /* n; workspace */
);

/* Transposes rows: row v of the answer holds the links into node v, in the order of the nodes that they leave. Links that
   leave the same node keep the order of its row. Refuses with 1 to 5. */
uint32_t talwighest_transpose(
    uint32_t n,
    const uint32_t *starts, size_t starts_length,               /* n + 1; read */
    const uint32_t *columns, size_t columns_length,             /* m; read */
    const double *weights, size_t weights_length,               /* m; read */
    uint32_t *reverse_starts, size_t reverse_starts_length,     /* n + 1; answer */
    uint32_t *reverse_columns, size_t reverse_columns_length,   /* m; answer */
    double *reverse_weights, size_t reverse_weights_length,     /* m; answer */
    uint32_t *positions, size_t positions_length                /* n; workspace */
);

/* Computes the degree of each row: the sum of its weights, added from left to right, starting from +0.
   Refuses with 1 to 5. */
uint32_t talwighest_row_sums(
    uint32_t n,
    const uint32_t *starts, size_t starts_length,               /* n + 1; read */
    const uint32_t *columns, size_t columns_length,             /* m; read */
    const double *weights, size_t weights_length,               /* m; read */
    double *degrees, size_t degrees_length                      /* n; answer */
);

/* Says whether a link leads from node `from` to node `to`. A link of weight 0 counts like any other. The call tests all rows,
   and then searches one. Refuses with 1 to 5. */
struct talwighest_found talwighest_has_edge(
    uint32_t n,
    const uint32_t *starts, size_t starts_length,               /* n + 1; read */
    const uint32_t *columns, size_t columns_length,             /* m; read */
    const double *weights, size_t weights_length,               /* m; read */
    uint32_t from,
    uint32_t to
);

/* Says the same, and how much the link weighs. If the row of `from` has several links to `to`, the first one counts.
   Refuses with 1 to 5. */
struct talwighest_weighed talwighest_edge_weight(
    uint32_t n,
    const uint32_t *starts, size_t starts_length,               /* n + 1; read */
    const uint32_t *columns, size_t columns_length,             /* m; read */
    const double *weights, size_t weights_length,               /* m; read */
    uint32_t from,
    uint32_t to
);

/* ---- The forward solver ----
   Each call writes the scores to `estimate` and the remainders to `residual`. A node that no source can reach by kept links
   has the score +0 and the remainder +0. */

/* Solves from one source.
   Refuses with 1, 2, 3, 5 and 6. */
struct talwighest_solved talwighest_solve_single_source_links(
    uint32_t n,
    const uint32_t *from, size_t from_length,                   /* m; read */
    const uint32_t *to, size_t to_length,                       /* m; read */
    const double *weight, size_t weight_length,                 /* m; read */
    uint32_t source,
    struct talwighest_settings settings,
    double *estimate, size_t estimate_length,                   /* n; answer */
    double *residual, size_t residual_length,                   /* n; answer */
    uint32_t *starts, size_t starts_length,                     /* n + 1; workspace */
    uint32_t *columns, size_t columns_length,                   /* m; workspace */
    double *weights, size_t weights_length,                     /* m; workspace */
    double *degrees, size_t degrees_length,                     /* n; workspace */
    double *priorities, size_t priorities_length,               /* n; workspace */
    uint32_t *nodes, size_t nodes_length,                       /* n; workspace */
    uint64_t *queued, size_t queued_length,                     /* (n + 63) / 64; workspace */
    uint64_t *visited, size_t visited_length                    /* (n + 63) / 64; workspace */
);

/* The same for a graph in rows. Refuses with 1 to 6. */
struct talwighest_solved talwighest_solve_single_source_rows(
    uint32_t n,
    const uint32_t *starts, size_t starts_length,               /* n + 1; read */
    const uint32_t *columns, size_t columns_length,             /* m; read */
    const double *weights, size_t weights_length,               /* m; read */
    uint32_t source,
    struct talwighest_settings settings,
    double *estimate, size_t estimate_length,                   /* n; answer */
    double *residual, size_t residual_length,                   /* n; answer */
    double *degrees, size_t degrees_length,                     /* n; workspace */
    double *priorities, size_t priorities_length,               /* n; workspace */
    uint32_t *nodes, size_t nodes_length,                       /* n; workspace */
    uint64_t *queued, size_t queued_length,                     /* (n + 63) / 64; workspace */
    uint64_t *visited, size_t visited_length                    /* (n + 63) / 64; workspace */
);

/* Solves from a list of sources. Each entry starts with a mass of 1 / sources_length, so a node that is listed twice gets two
   shares. If the list is empty, every score and remainder is +0.
   Refuses with 1, 2, 3, 5 and 6. */
struct talwighest_solved talwighest_solve_multi_source_links(
    uint32_t n,
    const uint32_t *from, size_t from_length,                   /* m; read */
    const uint32_t *to, size_t to_length,                       /* m; read */
    const double *weight, size_t weight_length,                 /* m; read */
    const uint32_t *sources, size_t sources_length,             /* any length up to 65,536; read */
    struct talwighest_settings settings,
    double *estimate, size_t estimate_length,                   /* n; answer */
    double *residual, size_t residual_length,                   /* n; answer */
    uint32_t *starts, size_t starts_length,                     /* n + 1; workspace */
    uint32_t *columns, size_t columns_length,                   /* m; workspace */
    double *weights, size_t weights_length,                     /* m; workspace */
    double *degrees, size_t degrees_length,                     /* n; workspace */
    double *priorities, size_t priorities_length,               /* n; workspace */
    uint32_t *nodes, size_t nodes_length,                       /* n; workspace */
    uint64_t *queued, size_t queued_length,                     /* (n + 63) / 64; workspace */
    uint64_t *visited, size_t visited_length                    /* (n + 63) / 64; workspace */
);

/* The same for a graph in rows. Refuses with 1 to 6. */
struct talwighest_solved talwighest_solve_multi_source_rows(
    uint32_t n,
    const uint32_t *starts, size_t starts_length,               /* n + 1; read */
    const uint32_t *columns, size_t columns_length,             /* m; read */
    const double *weights, size_t weights_length,               /* m; read */
    const uint32_t *sources, size_t sources_length,             /* any length up to 65,536; read */
    struct talwighest_settings settings,
    double *estimate, size_t estimate_length,                   /* n; answer */
    double *residual, size_t residual_length,                   /* n; answer */
    double *degrees, size_t degrees_length,                     /* n; workspace */
    double *priorities, size_t priorities_length,               /* n; workspace */
    uint32_t *nodes, size_t nodes_length,                       /* n; workspace */
    uint64_t *queued, size_t queued_length,                     /* (n + 63) / 64; workspace */
    uint64_t *visited, size_t visited_length                    /* (n + 63) / 64; workspace */
);

/* Solves from one source, and stops early as soon as the target's score is above target_precision and its remainder is below
   target_precision * 0.1. If either node is out of range, it makes no push (see NODES OUT OF RANGE above).
   Refuses with 1, 2, 3, 5, 6 and 7. */
struct talwighest_solved talwighest_solve_with_target_links(
    uint32_t n,
    const uint32_t *from, size_t from_length,                   /* m; read */
    const uint32_t *to, size_t to_length,                       /* m; read */
    const double *weight, size_t weight_length,                 /* m; read */
    uint32_t source,
    uint32_t target,
    double target_precision,
    struct talwighest_settings settings,
    double *estimate, size_t estimate_length,                   /* n; answer */
    double *residual, size_t residual_length,                   /* n; answer */
    uint32_t *starts, size_t starts_length,                     /* n + 1; workspace */
    uint32_t *columns, size_t columns_length,                   /* m; workspace */
    double *weights, size_t weights_length,                     /* m; workspace */
    double *degrees, size_t degrees_length,                     /* n; workspace */
    double *priorities, size_t priorities_length,               /* n; workspace */
    uint32_t *nodes, size_t nodes_length,                       /* n; workspace */
    uint64_t *queued, size_t queued_length,                     /* (n + 63) / 64; workspace */
    uint64_t *visited, size_t visited_length                    /* (n + 63) / 64; workspace */
);

/* The same for a graph in rows. Refuses with 1 to 7. */
struct talwighest_solved talwighest_solve_with_target_rows(
    uint32_t n,
    const uint32_t *starts, size_t starts_length,               /* n + 1; read */
    const uint32_t *columns, size_t columns_length,             /* m; read */
    const double *weights, size_t weights_length,               /* m; read */
    uint32_t source,
    uint32_t target,
    double target_precision,
    struct talwighest_settings settings,
    double *estimate, size_t estimate_length,                   /* n; answer */
    double *residual, size_t residual_length,                   /* n; answer */
    double *degrees, size_t degrees_length,                     /* n; workspace */
    double *priorities, size_t priorities_length,               /* n; workspace */
    uint32_t *nodes, size_t nodes_length,                       /* n; workspace */
    uint64_t *queued, size_t queued_length,                     /* (n + 63) / 64; workspace */
    uint64_t *visited, size_t visited_length                    /* (n + 63) / 64; workspace */
);

/* Solves from one source and returns the score of the target. Writes the scores and remainders of that solve too.
   Refuses with 1, 2, 3, 5 and 6. */
struct talwighest_scored talwighest_query_single_entry_links(
    uint32_t n,
    const uint32_t *from, size_t from_length,                   /* m; read */
    const uint32_t *to, size_t to_length,                       /* m; read */
    const double *weight, size_t weight_length,                 /* m; read */
    uint32_t source,
    uint32_t target,
    struct talwighest_settings settings,
    double *estimate, size_t estimate_length,                   /* n; answer */
    double *residual, size_t residual_length,                   /* n; answer */
    uint32_t *starts, size_t starts_length,                     /* n + 1; workspace */
    uint32_t *columns, size_t columns_length,                   /* m; workspace */
    double *weights, size_t weights_length,                     /* m; workspace */
    double *degrees, size_t degrees_length,                     /* n; workspace */
    double *priorities, size_t priorities_length,               /* n; workspace */
    uint32_t *nodes, size_t nodes_length,                       /* n; workspace */
    uint64_t *queued, size_t queued_length,                     /* (n + 63) / 64; workspace */
    uint64_t *visited, size_t visited_length                    /* (n + 63) / 64; workspace */
);

/* The same for a graph in rows. Refuses with 1 to 6. */
struct talwighest_scored talwighest_query_single_entry_rows(
    uint32_t n,
    const uint32_t *starts, size_t starts_length,               /* n + 1; read */
    const uint32_t *columns, size_t columns_length,             /* m; read */
    const double *weights, size_t weights_length,               /* m; read */
    uint32_t source,
    uint32_t target,
    struct talwighest_settings settings,
    double *estimate, size_t estimate_length,                   /* n; answer */
    double *residual, size_t residual_length,                   /* n; answer */
    double *degrees, size_t degrees_length,                     /* n; workspace */
    double *priorities, size_t priorities_length,               /* n; workspace */
    uint32_t *nodes, size_t nodes_length,                       /* n; workspace */
    uint64_t *queued, size_t queued_length,                     /* (n + 63) / 64; workspace */
    uint64_t *visited, size_t visited_length                    /* (n + 63) / 64; workspace */
);

/* Writes estimate + alpha * residual for each node. Here n is estimate_length. Refuses with 1, 3 and 6. */
uint32_t talwighest_extrapolated_solution(
    const double *estimate, size_t estimate_length,             /* n; read */
    const double *residual, size_t residual_length,             /* n; read */
    double alpha,
    double *solution, size_t solution_length                    /* n; answer */
);

/* ---- The backward solver ----
   Each call writes the scores to `estimate` and the remainders to `residual`. A node that can reach no target by kept links
   has the score +0 and the remainder +0. */

/* Solves to one target.
   Refuses with 1, 2, 3, 5 and 6. */
struct talwighest_solved talwighest_solve_single_target_links(
    uint32_t n,
    const uint32_t *from, size_t from_length,                   /* m; read */
    const uint32_t *to, size_t to_length,                       /* m; read */
    const double *weight, size_t weight_length,                 /* m; read */
    uint32_t target,
    struct talwighest_settings settings,
    double *estimate, size_t estimate_length,                   /* n; answer */
    double *residual, size_t residual_length,                   /* n; answer */
    uint32_t *starts, size_t starts_length,                     /* n + 1; workspace */
    uint32_t *columns, size_t columns_length,                   /* m; workspace */
    double *weights, size_t weights_length,                     /* m; workspace */
    uint32_t *reverse_starts, size_t reverse_starts_length,     /* n + 1; workspace */
    uint32_t *reverse_columns, size_t reverse_columns_length,   /* m; workspace */
    double *reverse_weights, size_t reverse_weights_length,     /* m; workspace */
    double *in_degrees, size_t in_degrees_length,               /* n; workspace */
    double *out_degrees, size_t out_degrees_length,             /* n; workspace */
    double *priorities, size_t priorities_length,               /* n; workspace */
    uint32_t *nodes, size_t nodes_length,                       /* n; workspace */
    uint64_t *queued, size_t queued_length,                     /* (n + 63) / 64; workspace */
    uint64_t *visited, size_t visited_length                    /* (n + 63) / 64; workspace */
);

/* The same for a graph in rows. Refuses with 1 to 6. */
struct talwighest_solved talwighest_solve_single_target_rows(
    uint32_t n,
    const uint32_t *starts, size_t starts_length,               /* n + 1; read */
    const uint32_t *columns, size_t columns_length,             /* m; read */
    const double *weights, size_t weights_length,               /* m; read */
    uint32_t target,
    struct talwighest_settings settings,
    double *estimate, size_t estimate_length,                   /* n; answer */
    double *residual, size_t residual_length,                   /* n; answer */
    uint32_t *reverse_starts, size_t reverse_starts_length,     /* n + 1; workspace */
    uint32_t *reverse_columns, size_t reverse_columns_length,   /* m; workspace */
    double *reverse_weights, size_t reverse_weights_length,     /* m; workspace */
    double *in_degrees, size_t in_degrees_length,               /* n; workspace */
    double *out_degrees, size_t out_degrees_length,             /* n; workspace */
    double *priorities, size_t priorities_length,               /* n; workspace */
    uint32_t *nodes, size_t nodes_length,                       /* n; workspace */
    uint64_t *queued, size_t queued_length,                     /* (n + 63) / 64; workspace */
    uint64_t *visited, size_t visited_length                    /* (n + 63) / 64; workspace */
);

/* Solves to a list of targets. Each entry starts with a mass of 1 / targets_length, so a node that is listed twice gets two
   shares. If the list is empty, every score and remainder is +0.
   Refuses with 1, 2, 3, 5 and 6. */
struct talwighest_solved talwighest_solve_multi_target_links(
    uint32_t n,
    const uint32_t *from, size_t from_length,                   /* m; read */
    const uint32_t *to, size_t to_length,                       /* m; read */
    const double *weight, size_t weight_length,                 /* m; read */
    const uint32_t *targets, size_t targets_length,             /* any length up to 65,536; read */
    struct talwighest_settings settings,
    double *estimate, size_t estimate_length,                   /* n; answer */
    double *residual, size_t residual_length,                   /* n; answer */
    uint32_t *starts, size_t starts_length,                     /* n + 1; workspace */
    uint32_t *columns, size_t columns_length,                   /* m; workspace */
    double *weights, size_t weights_length,                     /* m; workspace */
    uint32_t *reverse_starts, size_t reverse_starts_length,     /* n + 1; workspace */
    uint32_t *reverse_columns, size_t reverse_columns_length,   /* m; workspace */
    double *reverse_weights, size_t reverse_weights_length,     /* m; workspace */
    double *in_degrees, size_t in_degrees_length,               /* n; workspace */
    double *out_degrees, size_t out_degrees_length,             /* n; workspace */
    double *priorities, size_t priorities_length,               /* n; workspace */
    uint32_t *nodes, size_t nodes_length,                       /* n; workspace */
    uint64_t *queued, size_t queued_length,                     /* (n + 63) / 64; workspace */
    uint64_t *visited, size_t visited_length                    /* (n + 63) / 64; workspace */
);

/* The same for a graph in rows. Refuses with 1 to 6. */
struct talwighest_solved talwighest_solve_multi_target_rows(
    uint32_t n,
    const uint32_t *starts, size_t starts_length,               /* n + 1; read */
    const uint32_t *columns, size_t columns_length,             /* m; read */
    const double *weights, size_t weights_length,               /* m; read */
    const uint32_t *targets, size_t targets_length,             /* any length up to 65,536; read */
    struct talwighest_settings settings,
    double *estimate, size_t estimate_length,                   /* n; answer */
    double *residual, size_t residual_length,                   /* n; answer */
    uint32_t *reverse_starts, size_t reverse_starts_length,     /* n + 1; workspace */
    uint32_t *reverse_columns, size_t reverse_columns_length,   /* m; workspace */
    double *reverse_weights, size_t reverse_weights_length,     /* m; workspace */
    double *in_degrees, size_t in_degrees_length,               /* n; workspace */
    double *out_degrees, size_t out_degrees_length,             /* n; workspace */
    double *priorities, size_t priorities_length,               /* n; workspace */
    uint32_t *nodes, size_t nodes_length,                       /* n; workspace */
    uint64_t *queued, size_t queued_length,                     /* (n + 63) / 64; workspace */
    uint64_t *visited, size_t visited_length                    /* (n + 63) / 64; workspace */
);

/* Solves to one target, and stops early as soon as the source's score is above source_precision and its remainder is below
   source_precision * 0.1. If either node is out of range, it makes no push (see NODES OUT OF RANGE above).
   Refuses with 1, 2, 3, 5, 6 and 7. */
struct talwighest_solved talwighest_solve_with_source_links(
    uint32_t n,
    const uint32_t *from, size_t from_length,                   /* m; read */
    const uint32_t *to, size_t to_length,                       /* m; read */
    const double *weight, size_t weight_length,                 /* m; read */
    uint32_t source,
    uint32_t target,
    double source_precision,
    struct talwighest_settings settings,
    double *estimate, size_t estimate_length,                   /* n; answer */
    double *residual, size_t residual_length,                   /* n; answer */
    uint32_t *starts, size_t starts_length,                     /* n + 1; workspace */
    uint32_t *columns, size_t columns_length,                   /* m; workspace */
    double *weights, size_t weights_length,                     /* m; workspace */
    uint32_t *reverse_starts, size_t reverse_starts_length,     /* n + 1; workspace */
    uint32_t *reverse_columns, size_t reverse_columns_length,   /* m; workspace */
    double *reverse_weights, size_t reverse_weights_length,     /* m; workspace */
    double *in_degrees, size_t in_degrees_length,               /* n; workspace */
    double *out_degrees, size_t out_degrees_length,             /* n; workspace */
    double *priorities, size_t priorities_length,               /* n; workspace */
    uint32_t *nodes, size_t nodes_length,                       /* n; workspace */
    uint64_t *queued, size_t queued_length,                     /* (n + 63) / 64; workspace */
    uint64_t *visited, size_t visited_length                    /* (n + 63) / 64; workspace */
);

/* The same for a graph in rows. Refuses with 1 to 7. */
struct talwighest_solved talwighest_solve_with_source_rows(
    uint32_t n,
    const uint32_t *starts, size_t starts_length,               /* n + 1; read */
    const uint32_t *columns, size_t columns_length,             /* m; read */
    const double *weights, size_t weights_length,               /* m; read */
    uint32_t source,
    uint32_t target,
    double source_precision,
    struct talwighest_settings settings,
    double *estimate, size_t estimate_length,                   /* n; answer */
    double *residual, size_t residual_length,                   /* n; answer */
    uint32_t *reverse_starts, size_t reverse_starts_length,     /* n + 1; workspace */
    uint32_t *reverse_columns, size_t reverse_columns_length,   /* m; workspace */
    double *reverse_weights, size_t reverse_weights_length,     /* m; workspace */
    double *in_degrees, size_t in_degrees_length,               /* n; workspace */
    double *out_degrees, size_t out_degrees_length,             /* n; workspace */
    double *priorities, size_t priorities_length,               /* n; workspace */
    uint32_t *nodes, size_t nodes_length,                       /* n; workspace */
    uint64_t *queued, size_t queued_length,                     /* (n + 63) / 64; workspace */
    uint64_t *visited, size_t visited_length                    /* (n + 63) / 64; workspace */
);

/* Solves to one target and returns the score of the source. Writes the scores and remainders of that solve too.
   Refuses with 1, 2, 3, 5 and 6. */
struct talwighest_scored talwighest_query_transition_probability_links(
    uint32_t n,
    const uint32_t *from, size_t from_length,                   /* m; read */
    const uint32_t *to, size_t to_length,                       /* m; read */
    const double *weight, size_t weight_length,                 /* m; read */
    uint32_t source,
    uint32_t target,
    struct talwighest_settings settings,
    double *estimate, size_t estimate_length,                   /* n; answer */
    double *residual, size_t residual_length,                   /* n; answer */
    uint32_t *starts, size_t starts_length,                     /* n + 1; workspace */
    uint32_t *columns, size_t columns_length,                   /* m; workspace */
    double *weights, size_t weights_length,                     /* m; workspace */
    uint32_t *reverse_starts, size_t reverse_starts_length,     /* n + 1; workspace */
    uint32_t *reverse_columns, size_t reverse_columns_length,   /* m; workspace */
    double *reverse_weights, size_t reverse_weights_length,     /* m; workspace */
    double *in_degrees, size_t in_degrees_length,               /* n; workspace */
    double *out_degrees, size_t out_degrees_length,             /* n; workspace */
    double *priorities, size_t priorities_length,               /* n; workspace */
    uint32_t *nodes, size_t nodes_length,                       /* n; workspace */
    uint64_t *queued, size_t queued_length,                     /* (n + 63) / 64; workspace */
    uint64_t *visited, size_t visited_length                    /* (n + 63) / 64; workspace */
);

/* The same for a graph in rows. Refuses with 1 to 6. */
struct talwighest_scored talwighest_query_transition_probability_rows(
    uint32_t n,
    const uint32_t *starts, size_t starts_length,               /* n + 1; read */
    const uint32_t *columns, size_t columns_length,             /* m; read */
    const double *weights, size_t weights_length,               /* m; read */
    uint32_t source,
    uint32_t target,
    struct talwighest_settings settings,
    double *estimate, size_t estimate_length,                   /* n; answer */
    double *residual, size_t residual_length,                   /* n; answer */
    uint32_t *reverse_starts, size_t reverse_starts_length,     /* n + 1; workspace */
    uint32_t *reverse_columns, size_t reverse_columns_length,   /* m; workspace */
    double *reverse_weights, size_t reverse_weights_length,     /* m; workspace */
    double *in_degrees, size_t in_degrees_length,               /* n; workspace */
    double *out_degrees, size_t out_degrees_length,             /* n; workspace */
    double *priorities, size_t priorities_length,               /* n; workspace */
    uint32_t *nodes, size_t nodes_length,                       /* n; workspace */
    uint64_t *queued, size_t queued_length,                     /* (n + 63) / 64; workspace */
    uint64_t *visited, size_t visited_length                    /* (n + 63) / 64; workspace */
);

/* Solves to one target, and writes estimate + alpha * residual for each node into `solution`. Returns the refusal number.
   Refuses with 1, 2, 3, 5 and 6. */
uint32_t talwighest_reachability_probabilities_links(
    uint32_t n,
    const uint32_t *from, size_t from_length,                   /* m; read */
    const uint32_t *to, size_t to_length,                       /* m; read */
    const double *weight, size_t weight_length,                 /* m; read */
    uint32_t target,
    struct talwighest_settings settings,
    double *estimate, size_t estimate_length,                   /* n; answer */
    double *residual, size_t residual_length,                   /* n; answer */
    double *solution, size_t solution_length,                   /* n; answer */
    uint32_t *starts, size_t starts_length,                     /* n + 1; workspace */
    uint32_t *columns, size_t columns_length,                   /* m; workspace */
    double *weights, size_t weights_length,                     /* m; workspace */
    uint32_t *reverse_starts, size_t reverse_starts_length,     /* n + 1; workspace */
    uint32_t *reverse_columns, size_t reverse_columns_length,   /* m; workspace */
    double *reverse_weights, size_t reverse_weights_length,     /* m; workspace */
    double *in_degrees, size_t in_degrees_length,               /* n; workspace */
    double *out_degrees, size_t out_degrees_length,             /* n; workspace */
    double *priorities, size_t priorities_length,               /* n; workspace */
    uint32_t *nodes, size_t nodes_length,                       /* n; workspace */
    uint64_t *queued, size_t queued_length,                     /* (n + 63) / 64; workspace */
    uint64_t *visited, size_t visited_length                    /* (n + 63) / 64; workspace */
);

/* The same for a graph in rows. Refuses with 1 to 6. */
uint32_t talwighest_reachability_probabilities_rows(
    uint32_t n,
    const uint32_t *starts, size_t starts_length,               /* n + 1; read */
    const uint32_t *columns, size_t columns_length,             /* m; read */
    const double *weights, size_t weights_length,               /* m; read */
    uint32_t target,
    struct talwighest_settings settings,
    double *estimate, size_t estimate_length,                   /* n; answer */
    double *residual, size_t residual_length,                   /* n; answer */
    double *solution, size_t solution_length,                   /* n; answer */
    uint32_t *reverse_starts, size_t reverse_starts_length,     /* n + 1; workspace */
    uint32_t *reverse_columns, size_t reverse_columns_length,   /* m; workspace */
    double *reverse_weights, size_t reverse_weights_length,     /* m; workspace */
    double *in_degrees, size_t in_degrees_length,               /* n; workspace */
    double *out_degrees, size_t out_degrees_length,             /* n; workspace */
    double *priorities, size_t priorities_length,               /* n; workspace */
    uint32_t *nodes, size_t nodes_length,                       /* n; workspace */
    uint64_t *queued, size_t queued_length,                     /* (n + 63) / 64; workspace */
    uint64_t *visited, size_t visited_length                    /* (n + 63) / 64; workspace */
);

/* ---- Both solvers together ---- */

/* Computes one score from a backward solve to a target and a forward solve from a source. Starts from +0, and adds for each
   node in turn:
     1. backward_estimate * forward_estimate
     2. backward_residual * forward_estimate * alpha
     3. backward_estimate * forward_residual * alpha
   Pass the alpha of the backward solve. Here n is backward_estimate_length. Refuses with 1, 3 and 6. */
struct talwighest_scored talwighest_combine_with_forward(
    const double *backward_estimate, size_t backward_estimate_length, /* n; read */
    const double *backward_residual, size_t backward_residual_length, /* n; read */
    const double *forward_estimate, size_t forward_estimate_length, /* n; read */
    const double *forward_residual, size_t forward_residual_length, /* n; read */
    double alpha
);

/* Solves forward from the source and backward to the target, and combines the two as talwighest_combine_with_forward does,
   with the alpha of backward_settings. Writes the scores and remainders of both solves too.
   Refuses with 1, 2, 3, 5 and 6. Either settings record can give 6. */
struct talwighest_scored talwighest_solve_bidirectional_links(
    uint32_t n,
    const uint32_t *from, size_t from_length,                   /* m; read */
    const uint32_t *to, size_t to_length,                       /* m; read */
    const double *weight, size_t weight_length,                 /* m; read */
    uint32_t source,
    uint32_t target,
    struct talwighest_settings forward_settings,
    struct talwighest_settings backward_settings,
    double *forward_estimate, size_t forward_estimate_length,   /* n; answer */
    double *forward_residual, size_t forward_residual_length,   /* n; answer */
    double *backward_estimate, size_t backward_estimate_length, /* n; answer */
    double *backward_residual, size_t backward_residual_length, /* n; answer */
    uint32_t *starts, size_t starts_length,                     /* n + 1; workspace */
    uint32_t *columns, size_t columns_length,                   /* m; workspace */
    double *weights, size_t weights_length,                     /* m; workspace */
    uint32_t *reverse_starts, size_t reverse_starts_length,     /* n + 1; workspace */
    uint32_t *reverse_columns, size_t reverse_columns_length,   /* m; workspace */
    double *reverse_weights, size_t reverse_weights_length,     /* m; workspace */
    double *in_degrees, size_t in_degrees_length,               /* n; workspace */
    double *out_degrees, size_t out_degrees_length,             /* n; workspace */
    double *priorities, size_t priorities_length,               /* n; workspace */
    uint32_t *nodes, size_t nodes_length,                       /* n; workspace */
    uint64_t *queued, size_t queued_length,                     /* (n + 63) / 64; workspace */
    uint64_t *visited, size_t visited_length                    /* (n + 63) / 64; workspace */
);

/* The same for a graph in rows. Refuses with 1 to 6. Either settings record can give 6. */
struct talwighest_scored talwighest_solve_bidirectional_rows(
    uint32_t n,
    const uint32_t *starts, size_t starts_length,               /* n + 1; read */
    const uint32_t *columns, size_t columns_length,             /* m; read */
    const double *weights, size_t weights_length,               /* m; read */
    uint32_t source,
    uint32_t target,
    struct talwighest_settings forward_settings,
    struct talwighest_settings backward_settings,
    double *forward_estimate, size_t forward_estimate_length,   /* n; answer */
    double *forward_residual, size_t forward_residual_length,   /* n; answer */
    double *backward_estimate, size_t backward_estimate_length, /* n; answer */
    double *backward_residual, size_t backward_residual_length, /* n; answer */
    uint32_t *reverse_starts, size_t reverse_starts_length,     /* n + 1; workspace */
    uint32_t *reverse_columns, size_t reverse_columns_length,   /* m; workspace */
    double *reverse_weights, size_t reverse_weights_length,     /* m; workspace */
    double *in_degrees, size_t in_degrees_length,               /* n; workspace */
    double *out_degrees, size_t out_degrees_length,             /* n; workspace */
    double *priorities, size_t priorities_length,               /* n; workspace */
    uint32_t *nodes, size_t nodes_length,                       /* n; workspace */
    uint64_t *queued, size_t queued_length,                     /* (n + 63) / 64; workspace */
    uint64_t *visited, size_t visited_length                    /* (n + 63) / 64; workspace */
);

/* Chooses one solve or both by two degrees: out, the sum of the weights of the links out of the source, and in, the sum of
   the weights of the links into the target.
     - If out > 2 * in, it makes the backward solve alone and returns the score of the source.
     - If in > 2 * out, it makes the forward solve alone and returns the score of the target.
     - Otherwise it does the same as talwighest_solve_bidirectional_links.
   If it does not make a solve, it fills both lists of that solve with +0. If either node is out of range, it makes neither
   solve (see NODES OUT OF RANGE above).
   Refuses with 1, 2, 3, 5 and 6. Either settings record can give 6. */
struct talwighest_scored talwighest_adaptive_solve_links(
    uint32_t n,
    const uint32_t *from, size_t from_length,                   /* m; read */
    const uint32_t *to, size_t to_length,                       /* m; read */
    const double *weight, size_t weight_length,                 /* m; read */
    uint32_t source,
    uint32_t target,
    struct talwighest_settings forward_settings,
    struct talwighest_settings backward_settings,
    double *forward_estimate, size_t forward_estimate_length,   /* n; answer */
    double *forward_residual, size_t forward_residual_length,   /* n; answer */
    double *backward_estimate, size_t backward_estimate_length, /* n; answer */
    double *backward_residual, size_t backward_residual_length, /* n; answer */
    uint32_t *starts, size_t starts_length,                     /* n + 1; workspace */
    uint32_t *columns, size_t columns_length,                   /* m; workspace */
    double *weights, size_t weights_length,                     /* m; workspace */
    uint32_t *reverse_starts, size_t reverse_starts_length,     /* n + 1; workspace */
    uint32_t *reverse_columns, size_t reverse_columns_length,   /* m; workspace */
    double *reverse_weights, size_t reverse_weights_length,     /* m; workspace */
    double *in_degrees, size_t in_degrees_length,               /* n; workspace */
    double *out_degrees, size_t out_degrees_length,             /* n; workspace */
    double *priorities, size_t priorities_length,               /* n; workspace */
    uint32_t *nodes, size_t nodes_length,                       /* n; workspace */
    uint64_t *queued, size_t queued_length,                     /* (n + 63) / 64; workspace */
    uint64_t *visited, size_t visited_length                    /* (n + 63) / 64; workspace */
);

/* The same for a graph in rows. Refuses with 1 to 6. Either settings record can give 6. */
struct talwighest_scored talwighest_adaptive_solve_rows(
    uint32_t n,
    const uint32_t *starts, size_t starts_length,               /* n + 1; read */
    const uint32_t *columns, size_t columns_length,             /* m; read */
    const double *weights, size_t weights_length,               /* m; read */
    uint32_t source,
    uint32_t target,
    struct talwighest_settings forward_settings,
    struct talwighest_settings backward_settings,
    double *forward_estimate, size_t forward_estimate_length,   /* n; answer */
    double *forward_residual, size_t forward_residual_length,   /* n; answer */
    double *backward_estimate, size_t backward_estimate_length, /* n; answer */
    double *backward_residual, size_t backward_residual_length, /* n; answer */
    uint32_t *reverse_starts, size_t reverse_starts_length,     /* n + 1; workspace */
    uint32_t *reverse_columns, size_t reverse_columns_length,   /* m; workspace */
    double *reverse_weights, size_t reverse_weights_length,     /* m; workspace */
    double *in_degrees, size_t in_degrees_length,               /* n; workspace */
    double *out_degrees, size_t out_degrees_length,             /* n; workspace */
    double *priorities, size_t priorities_length,               /* n; workspace */
    uint32_t *nodes, size_t nodes_length,                       /* n; workspace */
    uint64_t *queued, size_t queued_length,                     /* (n + 63) / 64; workspace */
    uint64_t *visited, size_t visited_length                    /* (n + 63) / 64; workspace */
);

#ifdef __cplusplus
}
#endif

#endif
