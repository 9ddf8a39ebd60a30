/* The calls on handles: their results, and the arguments that they refuse. Prints a line for each check that fails,
 * and exits with 1 then. bindings/c/test builds and runs it, in the suite `bindings` of ./check. */
#include "expect.h"

static const char MATRIX[] = "TYPE : ATSP\nDIMENSION : 3\nEDGE_WEIGHT_TYPE : EXPLICIT\nEDGE_WEIGHT_FORMAT : FULL_MATRIX\n"
                             "EDGE_WEIGHT_SECTION\n7 1 5\n2 9 6\n3 4 8\nEOF\n";
static const char CUSTOMERS[] = "TYPE : CVRP\nDIMENSION : 3\nCAPACITY : 5\nEDGE_WEIGHT_TYPE : EUC_2D\nNODE_COORD_SECTION\n"
                                "1 0 0\n2 3 0\n3 3 4\nDEMAND_SECTION\n1 0\n2 4\n3 4\nDEPOT_SECTION\n1 -1\nEOF\n";
static const char ROUTES[] = "TYPE : TOUR\nTOUR_SECTION\n2 -1\n3 -1\n-1\nEOF\n";
/* 4 nodes, each with the potential 10^15 at the scale 1: a bound below -2^63 takes more nodes, a negative one is enough */
static const char LOW[] = "TYPE : POTENTIALS\nDIMENSION : 4\nNODE_POTENTIAL_SECTION\n1 1000000000000000\n"
                          "2 -1000000000000000\n3 0\n4 0\nEOF\n";
/* costs 5 and 4 between nodes 1 and 3 */
static const char UNEVEN[] = "TYPE : TSP\nDIMENSION : 3\nEDGE_WEIGHT_TYPE : EXPLICIT\nEDGE_WEIGHT_FORMAT : FULL_MATRIX\n"
                             "EDGE_WEIGHT_SECTION\n0 1 5\n1 0 6\n4 6 0\nEOF\n";
static const char PAIR[] = "TYPE : TSP\nDIMENSION : 2\nEDGE_WEIGHT_TYPE : EUC_2D\nNODE_COORD_SECTION\n1 0 0\n2 3 0\nEOF\n";
/* the depot has a demand */
static const char LOADED[] = "TYPE : CVRP\nDIMENSION : 3\nCAPACITY : 5\nEDGE_WEIGHT_TYPE : EUC_2D\nNODE_COORD_SECTION\n"
                             "1 0 0\n2 3 0\n3 3 4\nDEMAND_SECTION\n1 1\n2 4\n3 4\nDEPOT_SECTION\n1 -1\nEOF\n";
static const char OF_FOUR[] = "TYPE : TOUR\nDIMENSION : 4\nTOUR_SECTION\n2 3 -1\nEOF\n";
static const char NARROW[] = "TYPE : TSP\nCAPACITY : 9\nDIMENSION : 4\nEDGE_WEIGHT_TYPE : EUC_2D\n"
                             "NODE_COORD_SECTION\n1 0 0\n2 3 0\n3 3 4\n4 0 4\nEOF\n";
static const char NO_FILE[] = "TYPE : TSP\nDIMENSION : 4\n7\n";

static uint32_t check(struct tsp_instance *handle, const char *solution, struct tsp_result *result) {
    memset(result, 255, sizeof *result);
    return tsp_instance_check(handle, (const uint8_t *)solution, strlen(solution), 0, 0, result, out, sizeof out, &written);
}

/* What opening answers, and what it leaves. */
static void opens(void) {
    struct tsp_instance handle = {0};
    struct tsp_result r;
    memset(&r, 255, sizeof r);
    expect(tsp_open(TEXT(SQUARE), &handle, &r) == TSP_YES && handle.is_open, "an instance opens");
    expect(r.kind == 1 && r.nodes == 4 && r.verdict == 0 && r.fault == 0 && r.length == 0, "what is told of it");
    uint32_t count = 99;
    expect(tsp_instance_count(&handle, &count) == TSP_YES && count == 4, "it has four nodes");
    expect(tsp_open(TEXT(MATRIX), &handle, &r) == TSP_YES && handle.is_open && r.kind == 2 && r.nodes == 3, "an open handle opens anew");
    expect(tsp_instance_count(&handle, &count) == TSP_YES && count == 3, "and has the new instance");
    expect(tsp_open(TEXT(NO_FILE), &handle, &r) == TSP_FAULT && !handle.is_open && handle.at == NULL,
           "a text with a fault leaves it closed");
    expect(r.fault == TSP_STRAY_NUMBER && r.file == 1 && r.line == 3 && r.word == 1 && r.kind == 0 && r.number == 0
               && r.field == 0, "the fault, its line and its word");
    expect(tsp_open(TEXT(""), &handle, &r) == TSP_FAULT && r.fault == TSP_MISSING && r.file == 1 && r.line == 0
               && r.field == TSP_FIELD_TYPE, "no text at all");
    expect(tsp_open(TEXT(TOUR), &handle, &r) == TSP_FAULT && !handle.is_open && r.fault == TSP_WRONG_KIND && r.file == 1,
           "a tour is no instance");
    tsp_close(&handle);
    tsp_close(&handle);
    expect(!handle.is_open && handle.at == NULL, "a closed handle stays closed");
}

/* A closed handle is refused, and nothing is written. */
static void closed(void) {
    struct tsp_instance handle = {0};
    struct tsp_result r;
    int64_t numbers[4] = {-7, -7, -7, -7};
    uint32_t nodes[] = {1, 2, 0, 0}, count = 99;
    expect(check(&handle, TOUR, &r) == TSP_REFUSED && written == 0 && r.verdict == 0 && r.fault == 0, "a check of a closed handle");
    expect(tsp_bind(&handle, TEXT(ZEROS), TSP_BY_POTENTIALS, &r) == TSP_REFUSED && !handle.is_open, "a bound of a closed handle");
    expect(tsp_instance_count(&handle, &count) == TSP_REFUSED && count == 99, "nodes of a closed handle");
    expect(tsp_instance_points(&handle, TSP_POINTS_NODE_COORD, numbers, 4) == TSP_REFUSED && tsp_instance_weights(&handle, nodes, 2, numbers, 4) == TSP_REFUSED
               && tsp_instance_matrix(&handle, 1, numbers, 4) == TSP_REFUSED
               && tsp_instance_lengths(&handle, nodes, 3, numbers, 4) == TSP_REFUSED && numbers[0] == -7,
           "numbers of a closed handle");
}

/* Verdicts in text and in numbers. */
static void checks(void) {
    struct tsp_instance handle = {0};
    struct tsp_result r;
    tsp_open(TEXT(SQUARE), &handle, &r);
    expect(check(&handle, TOUR, &r) == TSP_YES && says("type TSP\nnodes 4\nlength 15\nyes\n"), "a tour");
    expect(r.kind == 1 && r.nodes == 4 && r.verdict == TSP_TOUR && r.length == 15 && r.has_bound == 0 && r.reason == 0, "its numbers");
    expect(check(&handle, TWICE, &r) == TSP_NO && says("type TSP\nnodes 4\nno RepeatedNode 3\n"), "a node twice");
    expect(r.verdict == TSP_REJECTED && r.reason == TSP_REPEATED_NODE && r.first == 3 && r.second == 0 && r.length == 0, "the reason's numbers");
    expect(check(&handle, "7\n", &r) == TSP_FAULT && says("file 2: line 1 word 1: StrayNumber\n"), "a solution with a fault");
    expect(r.fault == TSP_STRAY_NUMBER && r.file == 2 && r.line == 1 && r.word == 1 && r.verdict == 0, "the fault's numbers");
    expect(tsp_instance_check(&handle, TEXT(TOUR), 14, 1, &r, out, sizeof out, &written) == TSP_NO
               && says("type TSP\nnodes 4\nno LengthClaimed 15\n") && r.reason == TSP_LENGTH_CLAIMED && r.first == 15,
           "another length than the claimed one");
    expect(tsp_instance_check(&handle, TEXT(TOUR), 15, 4, &r, out, sizeof out, &written) == TSP_REFUSED && written == 0
               && r.verdict == 0, "flags are 0 to 3");
    expect(tsp_instance_check(&handle, TEXT(TOUR), 15, 3, &r, out, sizeof out, &written) == TSP_YES
               && says("type TSP\nnodes 4\nlength 15\nyes\n"), "no unknown keyword");
    out[0] = '#';
    expect(tsp_instance_check(&handle, TEXT(TOUR), 0, 0, &r, out, 5, &written) == TSP_TOO_SMALL && written == 31 && out[0] == '#'
               && r.verdict == TSP_TOUR && r.length == 15, "numbers need no buffer");

    expect(tsp_bind(&handle, TEXT(ZEROS), TSP_BY_POTENTIALS, &r) == TSP_YES && r.verdict == TSP_BOUND && r.has_bound == 1 && r.bound_high == 0
               && r.bound_low == 15 && r.kind == 1, "a bound");
    expect(check(&handle, TOUR, &r) == TSP_YES && says("type TSP\nnodes 4\nlength 15\nbound 15\noptimal\nyes\n"), "an optimal tour");
    expect(r.verdict == TSP_TOUR && r.length == 15 && r.has_bound == 1 && r.bound_high == 0 && r.bound_low == 15, "its bound");
    expect(tsp_bind(&handle, TEXT(TOUR), 0, &r) == TSP_REFUSED && tsp_bind(&handle, TEXT(TOUR), 3, &r) == TSP_REFUSED,
           "a bound is by 1 or by 2");
    expect(tsp_bind(&handle, TEXT(""), TSP_BY_POTENTIALS, &r) == TSP_FAULT && r.file == 2 && r.fault == TSP_MISSING, "a certificate with a fault");
    expect(check(&handle, TOUR, &r) == TSP_YES && r.has_bound == 1 && r.bound_low == 15, "leaves the one before");
    expect(tsp_bind(&handle, TEXT(LOW), TSP_BY_POTENTIALS, &r) == TSP_YES && r.has_bound == 1 && r.bound_high == -1, "a negative bound");
    int64_t bound = 1;
    expect(tsp_bound_i64(&r, &bound) == TSP_YES && bound == (int64_t)r.bound_low, "a negative bound of 64 bits");
    char report[100];
    snprintf(report, sizeof report, "type TSP\nnodes 4\nlength 15\nbound %lld\ngap %lld\nyes\n", (long long)bound, (long long)(15 - bound));
    expect(bound < -1000 && check(&handle, TOUR, &r) == TSP_YES && says(report), "its report");
    expect(tsp_bind(&handle, TEXT(ZEROS), TSP_BY_BRANCHES, &r) == TSP_NO && r.verdict == TSP_REJECTED && r.reason == TSP_NOT_BRANCHES
               && r.has_bound == 0, "potentials are no branches");
    expect(check(&handle, TOUR, &r) == TSP_NO && says("type TSP\nnodes 4\nno NotBranches\n") && r.reason == TSP_NOT_BRANCHES,
           "a check with a certificate that is refused");
    expect(check(&handle, TWICE, &r) == TSP_NO && r.reason == TSP_REPEATED_NODE, "reasons against the tour come first");
    tsp_open(TEXT(SQUARE), &handle, &r);
    expect(check(&handle, TOUR, &r) == TSP_YES && r.has_bound == 0, "a handle that is opened anew has no certificate");

    tsp_open(TEXT(CUSTOMERS), &handle, &r);
    expect(check(&handle, ROUTES, &r) == TSP_YES && r.kind == 3 && r.verdict == TSP_ROUTES && r.length == 16 && r.routes == 2
               && r.least == 2, "routes");
    expect(tsp_bind(&handle, TEXT(ZEROS), TSP_BY_POTENTIALS, &r) == TSP_FAULT && r.fault == TSP_WRONG_KIND && r.file == 1, "routes have no bound");
    tsp_close(&handle);
}

/* Reasons that are known before a solution is read: those that are judged before them still come first. */
static void known(void) {
    struct tsp_instance handle = {0};
    struct tsp_result r;
    tsp_open(TEXT(UNEVEN), &handle, &r);
    expect(check(&handle, TOUR, &r) == TSP_NO && says("type TSP\nnodes 3\nno NotSymmetric 1 3\n")
               && r.reason == TSP_NOT_SYMMETRIC && r.first == 1 && r.second == 3, "costs that differ by direction");
    expect(check(&handle, OF_FOUR, &r) == TSP_NO && r.reason == TSP_NOT_SYMMETRIC, "come before the solution's dimension");
    expect(check(&handle, ZEROS, &r) == TSP_NO && r.reason == TSP_NOT_A_SOLUTION, "and after a file that is no solution");
    expect(tsp_instance_check(&handle, TEXT(TOUR), 1, 1, &r, out, sizeof out, &written) == TSP_NO
               && r.reason == TSP_NOT_SYMMETRIC, "and before a claimed length");
    expect(tsp_bind(&handle, TEXT(ZEROS), TSP_BY_POTENTIALS, &r) == TSP_NO && r.reason == TSP_NOT_SYMMETRIC && r.second == 3,
           "and before a certificate");
    expect(check(&handle, ZEROS, &r) == TSP_NO && r.reason == TSP_NOT_A_SOLUTION, "with a certificate too");
    tsp_open(TEXT(PAIR), &handle, &r);
    expect(check(&handle, TOUR, &r) == TSP_NO && r.reason == TSP_TOO_FEW_NODES, "too few nodes");
    expect(check(&handle, ZEROS, &r) == TSP_NO && r.reason == TSP_NOT_A_SOLUTION, "come second");

    tsp_open(TEXT(LOADED), &handle, &r);
    expect(check(&handle, ROUTES, &r) == TSP_NO && r.reason == TSP_DEPOT_DEMAND, "a depot with a demand");
    expect(check(&handle, OF_FOUR, &r) == TSP_NO && r.reason == TSP_DIMENSION, "comes after the solution's dimension");
    tsp_open(TEXT(CUSTOMERS), &handle, &r);
    expect(tsp_instance_check(&handle, TEXT(ROUTES), 17, 1, &r, out, sizeof out, &written) == TSP_NO
               && r.reason == TSP_LENGTH_CLAIMED && r.first == 16, "routes of another length than the claimed one");

    tsp_open(TEXT(SQUARE), &handle, &r);
    tsp_bind(&handle, TEXT(ZEROS), TSP_BY_BRANCHES, &r);
    expect(tsp_instance_check(&handle, TEXT(TOUR), 14, 1, &r, out, sizeof out, &written) == TSP_NO
               && r.reason == TSP_LENGTH_CLAIMED && r.first == 15, "a claimed length comes before the certificate");
    expect(tsp_instance_check(&handle, TEXT(TOUR), 15, 1, &r, out, sizeof out, &written) == TSP_NO
               && r.reason == TSP_NOT_BRANCHES, "which comes last");

    tsp_open(TEXT(LIMITED), &handle, &r);
    expect(tsp_instance_check(&handle, TEXT(AROUND), 0, TSP_STRICT, &r, out, sizeof out, &written) == TSP_NO
               && says("type TSP\nnodes 4\nnot judged DISTANCE\nno NotJudged DISTANCE\n") && r.reason == TSP_NOT_JUDGED, "an unknown keyword");
    expect(check(&handle, AROUND, &r) == TSP_YES && r.length == 14, "which is no reason where that isn't asked");
    tsp_open(TEXT(NARROW), &handle, &r);
    expect(tsp_instance_check(&handle, TEXT(AROUND), 0, TSP_STRICT, &r, out, sizeof out, &written) == TSP_NO
               && says("type TSP\nnodes 4\nno NotUsed CAPACITY\n") && r.reason == TSP_NOT_USED && r.field == TSP_FIELD_CAPACITY, "an unused field");
    expect(check(&handle, AROUND, &r) == TSP_YES && r.field == 0, "which is none where that isn't asked");
    tsp_close(&handle);
}

/* Bounds of 64 bits, and those just beyond them. */
static void small_bounds(void) {
    static const struct {
        int64_t high;
        uint64_t low;
        uint32_t has, status;
        int64_t bound;
    } ROWS[] = {
        {0, 0, 1, TSP_YES, 0},
        {0, INT64_MAX, 1, TSP_YES, INT64_MAX},
        {0, (uint64_t)INT64_MAX + 1, 1, TSP_TOO_SMALL, 7},
        {-1, UINT64_MAX, 1, TSP_YES, -1},
        {-1, (uint64_t)INT64_MAX + 1, 1, TSP_YES, INT64_MIN},
        {-1, INT64_MAX, 1, TSP_TOO_SMALL, 7},
        {1, 5, 1, TSP_TOO_SMALL, 7},
        {0, 5, 0, TSP_NO, 7},
    };
    for (size_t k = 0; k < sizeof ROWS / sizeof *ROWS; k++) {
        const struct tsp_result result = {.bound_high = ROWS[k].high, .bound_low = ROWS[k].low, .has_bound = ROWS[k].has};
        int64_t bound = 7;
        expect(tsp_bound_i64(&result, &bound) == ROWS[k].status && bound == ROWS[k].bound, "a bound as a number of 64 bits");
    }
    expect(TSP_BY_POTENTIALS_STRICT == TSP_BY_POTENTIALS + 2 && TSP_BY_BRANCHES_STRICT == TSP_BY_BRANCHES + 2
               && (TSP_CLAIMED | TSP_STRICT) == 3, "the numbers before there were names");
}

#define POINTS "TYPE : TSP\nDIMENSION : 3\nEDGE_WEIGHT_TYPE : EUC_2D\nNODE_COORD_SECTION\n"
#define TEN "1234567890"

/* Faults in numbers: which, its line and word, and what is wrong with a number, or which field isn't whole. */
static const struct {
    const char *text;
    uint32_t fault, line, word, number, field;
} FAULTS[] = {
    {POINTS "1 0 " TEN TEN TEN TEN TEN TEN "12345\n", TSP_NUMBER, 5, 3, TSP_LONG_WORD, 0},
    {POINTS "1 0 0x0\n", TSP_NUMBER, 5, 3, TSP_BAD_NUMBER, 0},
    {POINTS "1 0.0000000001 0\n", TSP_NUMBER, 5, 2, TSP_TOO_FINE, 0},
    {POINTS "1 0 0\n4 0 0\n", TSP_NUMBER, 6, 1, TSP_OUT_OF_RANGE, 0},
    {POINTS "1.5 0 0\n", TSP_NUMBER, 5, 1, TSP_NOT_WHOLE, 0},
    {POINTS "1 0 0\n1 0 0\n", TSP_NODE_REPEATED, 6, 1, 0, 0},
    {"TYPE : TSP\nDIMENSION : x\n", TSP_NUMBER, 2, 0, TSP_BAD_NUMBER, 0},
    {"TYPE : XYZ\n", TSP_BAD_VALUE, 1, 0, 0, 0},
    {"NAME : x\n", TSP_MISSING, 0, 0, 0, TSP_FIELD_TYPE},
    {"TYPE : TSP\n", TSP_MISSING, 0, 0, 0, TSP_FIELD_DIMENSION},
    {"TYPE : TSP\nDIMENSION : 3\n", TSP_MISSING, 0, 0, 0, TSP_FIELD_EDGE_WEIGHT_TYPE},
    {"TYPE : TOUR\n", TSP_MISSING, 0, 0, 0, TSP_FIELD_TOUR_SECTION},
    {"TYPE : BRANCHES\nDIMENSION : 3\n", TSP_MISSING, 0, 0, 0, TSP_FIELD_BRANCH_SECTION},
    {POINTS "1 0 0\n2 0 0\n", TSP_INCOMPLETE, 0, 0, 0, TSP_FIELD_NODE_COORD_SECTION},
    {"TYPE : POTENTIALS\nDIMENSION : 2\nNODE_POTENTIAL_SECTION\n1 0\n", TSP_INCOMPLETE, 0, 0, 0, TSP_FIELD_NODE_POTENTIAL_SECTION},
    {"TYPE : POTENTIALS\nDIMENSION : 2\nROW_POTENTIAL_SECTION\n1 0\n", TSP_MISSING, 0, 0, 0, TSP_FIELD_COLUMN_POTENTIAL_SECTION},
};

static void faults(void) {
    struct tsp_instance handle = {0};
    for (size_t k = 0; k < sizeof FAULTS / sizeof FAULTS[0]; k++) {
        struct tsp_result r;
        memset(&r, 255, sizeof r);
        uint32_t status = tsp_open((const uint8_t *)FAULTS[k].text, strlen(FAULTS[k].text), &handle, &r);
        expect(status == TSP_FAULT && r.file == 1 && r.fault == FAULTS[k].fault && r.line == FAULTS[k].line
                   && r.word == FAULTS[k].word && r.number == FAULTS[k].number && r.field == FAULTS[k].field,
               FAULTS[k].text);
    }
}

/* Results of calls on texts in numbers. */
static void results(void) {
    struct tsp_result r;
    expect(tsp_check_result(TEXT(SQUARE), TEXT(TOUR), TEXT(ZEROS), 1, 0, 0, &r, out, sizeof out, &written) == TSP_YES
               && says("type TSP\nnodes 4\nlength 15\nbound 15\noptimal\nyes\n") && r.kind == 1 && r.nodes == 4
               && r.verdict == TSP_TOUR && r.length == 15 && r.has_bound == 1 && r.bound_high == 0 && r.bound_low == 15,
           "a check in numbers");
    expect(tsp_check_result(TEXT(SQUARE), TEXT(TOUR), TEXT("7"), 1, 0, 0, &r, out, sizeof out, &written) == TSP_FAULT
               && r.fault == TSP_STRAY_NUMBER && r.file == 3 && r.line == 1 && r.word == 1 && r.kind == 0, "a certificate is file 3 of a check");
    expect(tsp_check_result(TEXT(SQUARE), TEXT(TOUR), TEXT(ZEROS), 3, 0, 0, &r, out, sizeof out, &written) == TSP_REFUSED
               && r.kind == 0 && r.fault == 0, "a check that is refused");
    expect(tsp_check_result(TEXT(MATRIX), TEXT(TWICE), TEXT(""), 0, 0, 0, &r, out, sizeof out, &written) == TSP_NO
               && r.kind == 2 && r.verdict == TSP_REJECTED && r.reason == TSP_TOUR_LENGTH, "a no in numbers");
    expect(tsp_bound_result(TEXT(SQUARE), TEXT(ZEROS), 1, &r, out, sizeof out, &written) == TSP_YES
               && says("type TSP\nnodes 4\nbound 15\nyes\n") && r.verdict == TSP_BOUND && r.bound_low == 15 && r.has_bound == 1,
           "a bound in numbers");
    expect(tsp_bound_result(TEXT(SQUARE), TEXT(""), 1, &r, out, sizeof out, &written) == TSP_FAULT && r.file == 2
               && r.fault == TSP_MISSING, "a certificate is file 2 of a bound");
    expect(tsp_bound_result(TEXT(TOUR), TEXT(ZEROS), 1, &r, out, sizeof out, &written) == TSP_FAULT && r.file == 1
               && r.fault == TSP_WRONG_KIND, "a tour has no bound");
}

/* Numbers of two handles at once. */
static void numbers(void) {
    struct tsp_instance square = {0}, matrix = {0};
    struct tsp_result r;
    int64_t found[16];
    uint32_t pairs[] = {1, 2, 2, 3}, lists[] = {1, 2, 3, 0, 3, 2, 1, 0};
    tsp_open(TEXT(SQUARE), &square, &r);
    tsp_open(TEXT(MATRIX), &matrix, &r);
    expect(tsp_instance_weights(&square, pairs, 4, found, 2) == TSP_YES && found[0] == 3 && found[1] == 4, "weights of points");
    expect(tsp_instance_weights(&matrix, pairs, 4, found, 2) == TSP_YES && found[0] == 1 && found[1] == 6, "weights of a matrix");
    expect(tsp_instance_weights(&matrix, pairs, 4, found, 1) == TSP_TOO_SMALL && tsp_instance_weights(&matrix, pairs, 3, found, 2) == TSP_REFUSED,
           "too few places, and half a pair");
    expect(tsp_instance_matrix(&matrix, 2, found, 16) == TSP_YES && found[0] == 2 && found[5] == 8, "rows of the matrix");
    expect(tsp_instance_lengths(&matrix, lists, 8, found, 2) == TSP_YES && found[0] == 10 && found[1] == 11, "lengths in either direction");
    expect(tsp_instance_points(&square, TSP_POINTS_NODE_COORD, found, 12) == TSP_YES && found[10] == 4500000000, "coordinates");
    expect(tsp_instance_points(&square, TSP_POINTS_DISPLAY_DATA, found, 12) == TSP_NO && tsp_instance_points(&square, 3, found, 12) == TSP_REFUSED, "sections");
    tsp_close(&square);
    expect(tsp_instance_weights(&matrix, pairs, 4, found, 2) == TSP_YES && found[0] == 1, "the other handle stays open");
    tsp_close(&matrix);
}

/* Many times: nothing is left over, which a checker of memory sees. */
static void many(void) {
    struct tsp_instance handle = {0};
    struct tsp_result r;
    int64_t sum = 0, found;
    uint32_t pair[] = {2, 3};
    for (int k = 0; k < 2000; k++) {
        tsp_open(TEXT(SQUARE), &handle, &r);
        tsp_bind(&handle, TEXT(ZEROS), TSP_BY_POTENTIALS, &r);
        sum += check(&handle, TOUR, &r) == TSP_YES ? r.length : 0;
        tsp_instance_weights(&handle, pair, 2, &found, 1);
        sum += found;
        if (k % 2)
            tsp_close(&handle);
    }
    tsp_close(&handle);
    expect(sum == 2000 * 19, "two thousand handles");
}

int main(void) {
    opens();
    closed();
    checks();
    known();
    faults();
    results();
    numbers();
    small_bounds();
    many();
    return counts();
}
