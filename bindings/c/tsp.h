/* Yokecairn for C: reads, shows, converts and judges TSPLIB 95 texts and solutions, and gives their numbers.
 *
 * The calls are proved: the contracts are in crates/tsp_c, and docs/proof.md says what they mean. The
 * proof covers a call only if its caller follows "What the caller must do", which nothing checks.
 *
 * Shapes. A text is a pointer to its bytes and a length; it needs no byte 0 at its end. A list of numbers
 * is a pointer and a length, in numbers. Coordinates are in units of 10^-9: 1.5 is 1500000000. Nodes count
 * from 1.
 *
 * What the caller must do. No pointer may be NULL, even if the length is 0. Pointers are aligned for their
 * type, and point to as many elements as the length says. The places that a call writes to (out, written,
 * count, result, handle) overlap nothing else that the call is given. Don't call from a signal handler, nor
 * in the child of a fork of a process with threads. malloc, realloc and free belong to one allocator, whose
 * blocks are aligned to 16 bytes. On x86-64, the processor is an x86-64-v2 (with SSE4.2 and popcnt, from
 * 2009 or later).
 *
 * What a call does. It keeps no pointer and has no state except that of a handle, so calls may run in
 * parallel. It allocates memory with malloc, and frees all of it before it returns, except what a handle
 * holds. It never ends the process, and it always returns.
 *
 * Handles. A struct tsp_instance holds an instance, which is read once. It belongs to the caller, and starts
 * as all zeros, which means closed. Only the calls below may write to it, so don't copy it while it is open.
 * A handle serves one call at a time, even if the call only queries it; another thread may use it once the
 * call has returned. Threads that query at the same time need handles of their own, or a lock. What an open
 * handle holds is freed only by tsp_close, and by a tsp_open that opens it again.
 */
#ifndef TSP_H
#define TSP_H

/* For developers: tests/repository/reasons --write makes the lists of reasons and of faults from
 * bindings/reasons.tsv. Everything else is written by hand. */

#include <stdbool.h>
#include <stddef.h>
#include <stdint.h>

#ifdef __cplusplus
extern "C" {
#endif

/* Statuses. Only the program has the status 5, for a device that failed; no call here returns it. */
enum {
    TSP_YES = 0,           /* yes, or done */
    TSP_NO = 1,            /* no: the text is the report with its reason, or says why a layout is impossible */
    TSP_FAULT = 2,         /* a text has a fault or the wrong TYPE: the text is the line that reports the fault */
    TSP_OUT_OF_MEMORY = 3, /* memory was refused: the text is a line that says for what, or is empty */
    TSP_REFUSED = 4,       /* a number that the call doesn't accept */
    TSP_TOO_SMALL = 6      /* the buffer is too small, and is unchanged */
};

/* The kind of certificate. The last two are only for tsp_bound and tsp_bound_result: they also reject an instance with
 * an unknown keyword (TSP_NOT_JUDGED) or an unused field (TSP_NOT_USED), if no other reason applies. */
enum {
    TSP_BY_NONE = 0,
    TSP_BY_POTENTIALS = 1,
    TSP_BY_BRANCHES = 2,
    TSP_BY_POTENTIALS_STRICT = 3,
    TSP_BY_BRANCHES_STRICT = 4
};

/* The flags of a check. Join them with |; 0 is none. */
enum {
    TSP_CLAIMED = 1, /* reject a solution whose length isn't `claimed`; without this flag `claimed` is ignored */
    TSP_STRICT = 2   /* reject an instance with an unknown keyword or an unused field, if no other reason applies */
};

/* Layouts of the weights. */
enum {
    TSP_LAYOUT_AS_IT_IS = 0,
    TSP_LAYOUT_FULL_MATRIX = 1,
    TSP_LAYOUT_UPPER_ROW = 2,
    TSP_LAYOUT_LOWER_ROW = 3,
    TSP_LAYOUT_UPPER_DIAG_ROW = 4,
    TSP_LAYOUT_LOWER_DIAG_ROW = 5,
    TSP_LAYOUT_UPPER_COL = 6,
    TSP_LAYOUT_LOWER_COL = 7,
    TSP_LAYOUT_UPPER_DIAG_COL = 8,
    TSP_LAYOUT_LOWER_DIAG_COL = 9
};

/* Sections of points. */
enum { TSP_POINTS_NODE_COORD = 1, TSP_POINTS_DISPLAY_DATA = 2 };

/* Distances between two points. */
enum {
    TSP_DISTANCE_EUC_2D = 1,
    TSP_DISTANCE_CEIL_2D = 2,
    TSP_DISTANCE_MAN_2D = 3,
    TSP_DISTANCE_MAX_2D = 4,
    TSP_DISTANCE_ATT = 5,
    TSP_DISTANCE_EUC_3D = 6,
    TSP_DISTANCE_MAN_3D = 7,
    TSP_DISTANCE_MAX_3D = 8
};

/* Forms of solutions, in the order of "tsp solution --forms". TSP_FORM_FOUND is the first that the text has. */
enum {
    TSP_FORM_FOUND = 0,
    TSP_FORM_TOUR = 1,
    TSP_FORM_JSON = 2,
    TSP_FORM_OR_TOOLS = 3,
    TSP_FORM_CVRPLIB = 4,
    TSP_FORM_LKH = 5,
    TSP_FORM_R = 6,
    TSP_FORM_CONCORDE_EDGES = 7,
    TSP_FORM_CONCORDE = 8,
    TSP_FORM_TABLE = 9,
    TSP_FORM_LIST = 10
};

/* The number of the first node in a solution. TSP_FIRST_FOUND goes by the form and the numbers. */
enum { TSP_FIRST_FOUND = 0, TSP_FIRST_0 = 1, TSP_FIRST_1 = 2 };

/* TYPEs of instances. */
enum { TSP_TYPE_TSP = 1, TSP_TYPE_ATSP = 2, TSP_TYPE_CVRP = 3 };

/* Calls that give a text. If the text fits into the out_len bytes of out, it is at the start of out, the bytes
 * behind it are unchanged, and *written is its length. If it doesn't fit, the status is TSP_TOO_SMALL, out is
 * unchanged, and *written is the length that you need for another call. */

/* Judges a solution for an instance, and gives the report. by is TSP_BY_NONE without a certificate, and then
 * certificate_len may be 0. flags are TSP_CLAIMED, TSP_STRICT, both or 0. The status is TSP_YES only if the report
 * ends in "yes". */
uint32_t tsp_check(const uint8_t *instance, size_t instance_len, const uint8_t *solution, size_t solution_len,
                   const uint8_t *certificate, size_t certificate_len, uint32_t by, int64_t claimed,
                   uint32_t flags, uint8_t *out, size_t out_len, size_t *written);

/* Computes a bound for an instance from a certificate, and gives the report. by is one of TSP_BY_POTENTIALS, ..,
 * not TSP_BY_NONE. In the line that reports a fault, the certificate is file 2. */
uint32_t tsp_bound(const uint8_t *instance, size_t instance_len, const uint8_t *certificate,
                   size_t certificate_len, uint32_t by, uint8_t *out, size_t out_len, size_t *written);

/* Shows what a text contains: its name, TYPE, number of nodes and more, as "tsp show" does. */
uint32_t tsp_show(const uint8_t *file, size_t file_len, uint8_t *out, size_t out_len, size_t *written);

/* Gives the canonical text of a file, with its weights in a layout, one of TSP_LAYOUT_AS_IT_IS, .. The status is
 * TSP_NO if the weights can't be written in the layout. */
uint32_t tsp_convert(const uint8_t *file, size_t file_len, uint32_t layout, uint8_t *out, size_t out_len,
                     size_t *written);

/* Reads a solution of another program, and gives it as the canonical text of a file of TYPE TOUR, as "tsp solution"
 * does. instance_len may be 0: then no instance is known. form is one of TSP_FORM_FOUND, .., first one of
 * TSP_FIRST_FOUND, .. . depot is a node, or 0 for the instance's depot, and node 1 without an instance. In the line that
 * reports a fault, the solution is file 1 and the instance file 2. To check a solution in any form, give this text to
 * tsp_check. */
uint32_t tsp_solution(const uint8_t *solution, size_t solution_len, const uint8_t *instance, size_t instance_len,
                      uint32_t form, uint32_t first, uint32_t depot, uint8_t *out, size_t out_len,
                      size_t *written);

/* Explains to a person the answer of one of these calls, as "tsp --explain" does: a fault, a no, or a yes whose
 * solution has a comment with another length. Otherwise the text is empty. The texts are those of the call, with
 * length 0 for a text that it doesn't have; number is its by or its layout. names holds what the user calls the
 * instance, the solution and the certificate, with a byte 0 between two names. The status is TSP_YES,
 * TSP_OUT_OF_MEMORY, TSP_REFUSED or TSP_TOO_SMALL. No contract says what the text is. */
enum { TSP_OF_SHOW = 0, TSP_OF_CONVERT = 1, TSP_OF_CHECK = 2, TSP_OF_BOUND = 3 };
uint32_t tsp_explain(uint32_t call, const uint8_t *instance, size_t instance_len, const uint8_t *solution,
                     size_t solution_len, const uint8_t *certificate, size_t certificate_len,
                     const uint8_t *names, size_t names_len, uint32_t number, int64_t claimed,
                     uint32_t flags, uint8_t *out, size_t out_len, size_t *written);

/* If the status is TSP_YES, *count is the instance's number of nodes, 1 to 100000; otherwise it is unchanged. */
uint32_t tsp_count(const uint8_t *instance, size_t instance_len, uint32_t *count);

/* Calls that fill in numbers. If the status is TSP_YES, they are at the start of out; otherwise out is unchanged. */

/* x, y and z of node 1, of node 2 and so on: three numbers per node. section is TSP_POINTS_NODE_COORD or
 * TSP_POINTS_DISPLAY_DATA. The status is TSP_NO if the file has no such section. */
uint32_t tsp_points(const uint8_t *file, size_t file_len, uint32_t section, int64_t *out, size_t out_len);

/* The cost from the first node of each pair to its second. pairs has two nodes for each pair, and pairs_len
 * counts nodes. The status is TSP_REFUSED if pairs_len is odd, or if the instance lacks a node. */
uint32_t tsp_weights(const uint8_t *instance, size_t instance_len, const uint32_t *pairs, size_t pairs_len,
                     int64_t *out, size_t out_len);

/* The costs from a node to each node, then the costs from the next node, and so on: as many whole rows as fit,
 * up to the last node. The status is TSP_REFUSED if first_row isn't a node. */
uint32_t tsp_matrix(const uint8_t *instance, size_t instance_len, uint32_t first_row, int64_t *out,
                    size_t out_len);

/* The lengths of lists of nodes, from each node to the next and back to the first. A 0 ends each list,
 * including the last one. The status is TSP_REFUSED if the last 0 is missing, if the instance lacks a node, or if
 * there are more than 1000000 numbers. */
uint32_t tsp_lengths(const uint8_t *instance, size_t instance_len, const uint32_t *nodes, size_t nodes_len,
                     int64_t *out, size_t out_len);

/* The distance between two points: kind is one of TSP_DISTANCE_EUC_2D, .. Kinds for the plane ignore z. The result
 * is -1 if there is no such kind, or if a coordinate is beyond 10^18. */
int64_t tsp_distance(uint32_t kind, int64_t ax, int64_t ay, int64_t az, int64_t bx, int64_t by, int64_t bz);

/* ---- results in numbers */

/* The answer of a call. A field that doesn't apply is 0. */
struct tsp_result {
    uint32_t kind;    /* one of TSP_TYPE_TSP, .. */
    uint32_t nodes;   /* the number of nodes */
    uint32_t verdict; /* one of TSP_TOUR, .. */
    uint32_t reason;  /* for TSP_REJECTED: one of TSP_NOT_A_SOLUTION, .. */
    int64_t first;    /* the numbers of the reason */
    int64_t second;
    int64_t length; /* of the tour, or of all routes */
    int64_t bound_high; /* if has_bound is 1, the bound is 2^64 times bound_high, plus bound_low */
    uint64_t bound_low;
    uint64_t least; /* the least number of routes */
    uint32_t has_bound;
    uint32_t routes; /* the number of routes */
    uint32_t fault;  /* one of TSP_LONG_LINE, .. */
    uint32_t file;   /* the text with the fault: 1 the instance, 2 the solution, 3 the certificate, which is 2 for a bound */
    uint32_t line;   /* the line, counted from 1, if the fault is in a line */
    uint32_t word;   /* the word in the line, counted from 1; 0 is the line as a whole */
    uint32_t number; /* for TSP_NUMBER: one of TSP_LONG_WORD, .. */
    uint32_t field;  /* for TSP_MISSING, TSP_INCOMPLETE or TSP_NOT_USED: one of TSP_FIELD_NAME, .. */
};

/* The bound of a result, if 64 bits are enough for it: TSP_YES, and *bound is the bound; TSP_NO if the result has no bound;
 * TSP_TOO_SMALL if the bound has more bits. Without TSP_YES, *bound is unchanged. (This is written in C, and not proved.) */
static inline uint32_t tsp_bound_i64(const struct tsp_result *result, int64_t *bound)
{
    if (result->has_bound != 1) {
        return TSP_NO;
    }
    if (result->bound_high == 0 && result->bound_low <= INT64_MAX) {
        *bound = (int64_t)result->bound_low;
        return TSP_YES;
    }
    if (result->bound_high == -1 && result->bound_low > INT64_MAX) {
        *bound = -1 - (int64_t)(UINT64_MAX - result->bound_low);
        return TSP_YES;
    }
    return TSP_TOO_SMALL;
}

/* Verdicts. */
enum {
    TSP_TOUR = 1,     /* accepted, with a length, and with a bound if there is a certificate */
    TSP_ROUTES = 2,   /* the same for routes, with their number and the least number */
    TSP_REJECTED = 3, /* no, with its reason */
    TSP_BOUND = 4,    /* a certificate gives this bound */
    TSP_NO_TOUR = 5   /* a certificate shows that the instance has no tour, or no routes */
};

/* Reasons, in the order in which they are judged. docs/format.md says what they mean. */
enum {
    TSP_NOT_A_SOLUTION = 1,
    TSP_TOO_FEW_NODES = 2,
    TSP_NOT_SYMMETRIC = 3,
    TSP_DIMENSION = 4,
    TSP_TOUR_COUNT = 5,
    TSP_TOUR_LENGTH = 6,
    TSP_DEPOT_COUNT = 7,
    TSP_DEPOT_DEMAND = 8,
    TSP_FIXED_EDGES_IN_ROUTES = 9,
    TSP_DEPOT_IN_ROUTE = 10,
    TSP_NODE_OUT_OF_RANGE = 11,
    TSP_REPEATED_NODE = 12,
    TSP_FIXED_EDGE_UNUSED = 13,
    TSP_UNSERVED = 14,
    TSP_OVERLOAD = 15,
    TSP_LENGTH_CLAIMED = 16,
    TSP_NOT_POTENTIALS = 17,
    TSP_POTENTIALS_DIMENSION = 18,
    TSP_POTENTIALS_KIND = 19,
    TSP_MULTIPLIER_NOT_FIXED = 20,
    TSP_MULTIPLIER_REPEATED = 21,
    TSP_DUAL_INFEASIBLE = 22,
    TSP_NOT_BRANCHES = 23,
    TSP_BRANCHES_DIMENSION = 24,
    TSP_BAD_COMB = 25,
    TSP_BAD_MEMORY = 31,
    TSP_BAD_ROW = 32,
    TSP_BAD_BRANCH = 26,
    TSP_BRANCH_TWICE = 27,
    TSP_BAD_LEAF = 28,
    TSP_TOO_MANY_LOADS = 29,
    TSP_TOO_MANY_STATES = 33,
    TSP_NOT_JUDGED = 30,
    TSP_NOT_USED = 34
};

/* Faults. Those up to TSP_LATE_SPACE are of a line, those up to TSP_WRONG_COUNT of the end of a text. */
enum {
    TSP_LONG_LINE = 1,
    TSP_UNKNOWN_LINE = 2,
    TSP_REPEATED = 3,
    TSP_OUTSIDE = 4,
    TSP_BAD_VALUE = 5,
    TSP_SECTION_VALUE = 6,
    TSP_SECTION_EARLY = 7,
    TSP_TOO_MANY_NODES = 8,
    TSP_STRAY_NUMBER = 9,
    TSP_NUMBER = 10,
    TSP_NODE_REPEATED = 11, /* RepeatedNode of a line */
    TSP_SELF_EDGE = 12,
    TSP_SURPLUS = 13,
    TSP_AFTER_END = 14,
    TSP_LATE_SPACE = 15,
    TSP_MISSING = 16,
    TSP_INCOMPLETE = 17,
    TSP_WRONG_FORMAT = 18,
    TSP_WRONG_COUNT = 19,
    TSP_TOO_LONG = 20,
    TSP_WRONG_KIND = 21
};

/* What is wrong with a number. */
enum { TSP_LONG_WORD = 1, TSP_BAD_NUMBER = 2, TSP_TOO_FINE = 3, TSP_OUT_OF_RANGE = 4, TSP_NOT_WHOLE = 5 };

/* Keywords and sections, in canonical order, except for the last, which was added later. */
enum {
    TSP_FIELD_NAME = 1,
    TSP_FIELD_TYPE = 2,
    TSP_FIELD_COMMENT = 3,
    TSP_FIELD_OTHERS = 4, /* the unknown keywords */
    TSP_FIELD_DIMENSION = 5,
    TSP_FIELD_CAPACITY = 6,
    TSP_FIELD_SCALE = 7,
    TSP_FIELD_EDGE_WEIGHT_TYPE = 8,
    TSP_FIELD_EDGE_WEIGHT_FORMAT = 9,
    TSP_FIELD_NODE_COORD_TYPE = 10,
    TSP_FIELD_DISPLAY_DATA_TYPE = 11,
    TSP_FIELD_NODE_COORD_SECTION = 12,
    TSP_FIELD_DISPLAY_DATA_SECTION = 13,
    TSP_FIELD_DEMAND_SECTION = 14,
    TSP_FIELD_DEPOT_SECTION = 15,
    TSP_FIELD_FIXED_EDGES_SECTION = 16,
    TSP_FIELD_EDGE_WEIGHT_SECTION = 17,
    TSP_FIELD_TOUR_SECTION = 18,
    TSP_FIELD_NODE_POTENTIAL_SECTION = 19,
    TSP_FIELD_ROW_POTENTIAL_SECTION = 20,
    TSP_FIELD_COLUMN_POTENTIAL_SECTION = 21,
    TSP_FIELD_FIXED_EDGE_POTENTIAL_SECTION = 22,
    TSP_FIELD_COMB_SECTION = 23,
    TSP_FIELD_BRANCH_SECTION = 24,
    TSP_FIELD_LOAD_UNIT = 25,
    TSP_FIELD_MEMORY_SECTION = 26,
    TSP_FIELD_SUBSET_ROW_SECTION = 27
};

/* Like tsp_check and tsp_bound, but with the result in numbers too: the verdict, if the status is TSP_YES or TSP_NO, and
 * the fault, if it is TSP_FAULT. With TSP_OUT_OF_MEMORY and TSP_REFUSED all numbers are 0. With TSP_TOO_SMALL they are
 * those that belong to the status that a larger buffer gives. */
uint32_t tsp_check_result(const uint8_t *instance, size_t instance_len, const uint8_t *solution, size_t solution_len,
                          const uint8_t *certificate, size_t certificate_len, uint32_t by, int64_t claimed,
                          uint32_t flags, struct tsp_result *result, uint8_t *out, size_t out_len,
                          size_t *written);
uint32_t tsp_bound_result(const uint8_t *instance, size_t instance_len, const uint8_t *certificate,
                          size_t certificate_len, uint32_t by, struct tsp_result *result, uint8_t *out,
                          size_t out_len, size_t *written);

/* ---- handles: many queries about one instance. Statuses are those of the calls above; the status is also
 * TSP_REFUSED if the handle is closed. */

/* A handle: struct tsp_instance handle = {0}; */
struct tsp_instance {
    bool is_open;
    void *at;
};

/* Opens a handle on the instance in a text. After that you may free the text. If the handle is open, it is closed
 * first. If the status isn't TSP_YES, the handle is closed, and result holds the fault if the status is TSP_FAULT,
 * and otherwise zeros. */
uint32_t tsp_open(const uint8_t *instance, size_t instance_len, struct tsp_instance *handle,
                  struct tsp_result *result);

/* Closes a handle, and frees what it holds. A closed handle stays closed. */
void tsp_close(struct tsp_instance *handle);

/* Attaches a certificate to an open instance, replacing any earlier one, and gives its bound. by is
 * TSP_BY_POTENTIALS or TSP_BY_BRANCHES. If the status is TSP_YES or TSP_NO, the certificate is attached; checks then
 * answer like tsp_check with this certificate, without judging it again. Otherwise nothing changes. In a fault the
 * certificate is file 2. */
uint32_t tsp_bind(struct tsp_instance *handle, const uint8_t *certificate, size_t certificate_len, uint32_t by,
                  struct tsp_result *result);

/* Judges a solution like tsp_check_result with the texts that were opened: the status, the report, the result and the
 * meaning of the flags are the same. */
uint32_t tsp_instance_check(struct tsp_instance *handle, const uint8_t *solution, size_t solution_len,
                            int64_t claimed, uint32_t flags, struct tsp_result *result, uint8_t *out,
                            size_t out_len, size_t *written);

/* If the status is TSP_YES, *count is the instance's number of nodes; otherwise it is unchanged. */
uint32_t tsp_instance_count(struct tsp_instance *handle, uint32_t *count);

/* The numbers that tsp_points, tsp_weights, tsp_matrix and tsp_lengths fill in from a text. */
uint32_t tsp_instance_points(struct tsp_instance *handle, uint32_t section, int64_t *out, size_t out_len);
uint32_t tsp_instance_weights(struct tsp_instance *handle, const uint32_t *pairs, size_t pairs_len, int64_t *out,
                              size_t out_len);
uint32_t tsp_instance_matrix(struct tsp_instance *handle, uint32_t first_row, int64_t *out, size_t out_len);
uint32_t tsp_instance_lengths(struct tsp_instance *handle, const uint32_t *nodes, size_t nodes_len, int64_t *out,
                              size_t out_len);

/* The version: 10000 for 1.0.0, 10203 for 1.2.3. */
uint32_t tsp_version(void);

#ifdef __cplusplus
}
#endif

#endif
