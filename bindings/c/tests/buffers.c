/* Buffers that are too small by one byte or number and more, what stays as it was, and numbers that are
 * refused. Prints a line for each check that fails, and exits with 1 then.
 * bindings/c/test builds and runs it, in the suite `bindings` of ./check. */
#include "expect.h"

static const char MATRIX[] = "TYPE : ATSP\nDIMENSION : 2\nEDGE_WEIGHT_TYPE : EXPLICIT\nEDGE_WEIGHT_FORMAT : FULL_MATRIX\n"
                             "EDGE_WEIGHT_SECTION\n7 1\n2 9\nEOF\n";
static const char SHOWN[] = "type TSP\nnodes 4\nweights EUC_2D\ncanonical 15\n";
static const char REPORT[] = "type TSP\nnodes 4\nlength 15\nyes\n";

/* Each length of buffer from 0 to two bytes more than the text. */
static void texts(void) {
    size_t len = sizeof SHOWN - 1;
    for (size_t room = 0; room <= len + 2; room++) {
        memset(out, '#', sizeof out);
        written = 99;
        uint32_t status = tsp_show(TEXT(SQUARE), out, room, &written);
        expect(written == len, "the length of what is shown");
        if (room < len) {
            expect(status == TSP_TOO_SMALL, "a buffer that is too small");
            expect(out[0] == '#' && memcmp(out, out + 1, sizeof out - 1) == 0, "a buffer that is too small stays as it was");
        } else {
            expect(status == TSP_YES && memcmp(out, SHOWN, len) == 0, "what is shown");
            expect(out[len] == '#' && memcmp(out + len, out + len + 1, sizeof out - len - 1) == 0, "the rest of the buffer");
        }
    }
    expect(tsp_check(TEXT(SQUARE), TEXT(TOUR), TEXT(""), 0, 0, 0, out, sizeof REPORT - 2, &written) == TSP_TOO_SMALL
               && written == sizeof REPORT - 1, "a report that is one byte too long");
    expect(tsp_check(TEXT(SQUARE), TEXT(TOUR), TEXT(""), 0, 0, 0, out, sizeof REPORT - 1, &written) == TSP_YES
               && says(REPORT), "a report that fits");
    expect(tsp_check(TEXT(TOUR), TEXT(SQUARE), TEXT(""), 0, 0, 0, out, sizeof out, &written) == TSP_FAULT
               && says("file 1: wrong kind\n"), "files exchanged");
    expect(tsp_check(TEXT(SQUARE), TEXT(TOUR), TEXT(""), 3, 0, 0, out, sizeof out, &written) == TSP_REFUSED && written == 0,
           "no certificate has the number 3");
    expect(tsp_convert(TEXT(SQUARE), 10, out, sizeof out, &written) == TSP_REFUSED && written == 0,
           "no layout has the number 10");
    expect(tsp_convert(TEXT(SQUARE), TSP_LAYOUT_FULL_MATRIX, out, sizeof out, &written) == TSP_NO
               && says("relayout: NotExplicit\n"), "points have no layout");
}

static const char ROUTES[] = "Route #1: 1 3\nRoute #2: 2\n";
static const char WRITTEN[] = "TYPE : TOUR\nCOMMENT : Customer k of CVRPLIB is node k + 1\nTOUR_SECTION\n2\n4\n-1\n3\n-1\nEOF\n";

/* Solutions in other forms. */
static void solutions(void) {
    size_t len = sizeof WRITTEN - 1;
    expect(tsp_solution(TEXT(ROUTES), TEXT(""), 0, 0, 0, out, len - 1, &written) == TSP_TOO_SMALL && written == len,
           "a solution that is one byte too long");
    expect(tsp_solution(TEXT(ROUTES), TEXT(""), TSP_FORM_CVRPLIB, 0, 0, out, len, &written) == TSP_YES
               && says(WRITTEN), "a solution that fits");
    expect(tsp_solution(TEXT(ROUTES), TEXT(TOUR), 0, 0, 0, out, sizeof out, &written) == TSP_FAULT
               && says("file 2: line 1 word 1: NotAnInstance\n"), "a tour in place of the instance");
    expect(tsp_solution(TEXT("1 x"), TEXT(""), TSP_FORM_LIST, 0, 0, out, sizeof out, &written) == TSP_FAULT
               && says("file 1: line 1 word 2: NotANode\n"), "a word that is no node");
    expect(tsp_solution(TEXT(ROUTES), TEXT(""), 11, 0, 0, out, sizeof out, &written) == TSP_REFUSED && written == 0,
           "no form has the number 11");
    expect(tsp_solution(TEXT(ROUTES), TEXT(""), 0, 3, 0, out, sizeof out, &written) == TSP_REFUSED && written == 0,
           "the first number is 0 or 1");
    expect(tsp_solution(TEXT(ROUTES), TEXT(""), 0, 0, 100001, out, sizeof out, &written) == TSP_REFUSED && written == 0,
           "no depot has the number 100001");
}

static const char BOUND[] = "type TSP\nnodes 4\nbound 15\nyes\n";
static const char EXPLAINED[] = "  a.tour:\n";

#define NAMES (const uint8_t *)"a.tsp\0a.tour\0a.pi", 17

/* Claimed lengths, bounds without a tour, and explanations. */
static void answers(void) {
    expect(tsp_check(TEXT(SQUARE), TEXT(TOUR), TEXT(""), 0, 15, 1, out, sizeof out, &written) == TSP_YES
               && says(REPORT), "the claimed length");
    expect(tsp_check(TEXT(SQUARE), TEXT(TOUR), TEXT(""), 0, 14, TSP_CLAIMED, out, sizeof out, &written) == TSP_NO
               && says("type TSP\nnodes 4\nno LengthClaimed 15\n"), "another length than the claimed one");
    expect(tsp_check(TEXT(SQUARE), TEXT(TOUR), TEXT(""), 0, 14, 0, out, sizeof out, &written) == TSP_YES,
           "no length is claimed");
    static const char UNJUDGED[] = "type TSP\nnodes 4\nnot judged DISTANCE\nno NotJudged DISTANCE\n";
    struct tsp_result told;
    expect(tsp_check_result(TEXT(LIMITED), TEXT(AROUND), TEXT(""), 0, 99, TSP_STRICT, &told, out, sizeof out, &written) == TSP_NO
               && says(UNJUDGED) && told.reason == TSP_NOT_JUDGED,
           "an unknown keyword as a reason");
    expect(tsp_check(TEXT(LIMITED), TEXT(AROUND), TEXT(""), 0, 14, TSP_CLAIMED | TSP_STRICT, out, sizeof out, &written) == TSP_NO
               && says(UNJUDGED), "beside the claimed length");
    expect(tsp_check(TEXT(LIMITED), TEXT(AROUND), TEXT(""), 0, 15, 3, out, sizeof out, &written) == TSP_NO
               && says("type TSP\nnodes 4\nnot judged DISTANCE\nno LengthClaimed 14\n"), "after another length");
    expect(tsp_check(TEXT(LIMITED), TEXT(AROUND), TEXT(""), 0, 14, 1, out, sizeof out, &written) == TSP_YES,
           "an unknown keyword that is no reason");
    expect(tsp_check(TEXT(SQUARE), TEXT(TOUR), TEXT(""), 0, 15, 3, out, sizeof out, &written) == TSP_YES
               && says(REPORT), "no unknown keyword");
    expect(tsp_check(TEXT(SQUARE), TEXT(TOUR), TEXT(""), 0, 15, 4, out, sizeof out, &written) == TSP_REFUSED
               && written == 0, "flags are 0 to 3");

    expect(tsp_bound(TEXT(SQUARE), TEXT(ZEROS), TSP_BY_POTENTIALS, out, sizeof BOUND - 2, &written) == TSP_TOO_SMALL
               && written == sizeof BOUND - 1, "a bound's report that is one byte too long");
    expect(tsp_bound(TEXT(SQUARE), TEXT(ZEROS), TSP_BY_POTENTIALS, out, sizeof BOUND - 1, &written) == TSP_YES
               && says(BOUND), "a bound's report that fits");
    expect(tsp_bound(TEXT(SQUARE), TEXT(ZEROS), TSP_BY_BRANCHES, out, sizeof out, &written) == TSP_NO
               && says("type TSP\nnodes 4\nno NotBranches\n"), "potentials are no branches");
    expect(tsp_bound(TEXT(SQUARE), TEXT(ZEROS), 0, out, sizeof out, &written) == TSP_REFUSED && written == 0
               && tsp_bound(TEXT(SQUARE), TEXT(ZEROS), 5, out, sizeof out, &written) == TSP_REFUSED,
           "a bound is by 1 to 4");
    expect(tsp_bound(TEXT(LIMITED), TEXT(ZEROS), TSP_BY_POTENTIALS_STRICT, out, sizeof out, &written) == TSP_NO
               && says(UNJUDGED), "a bound with an unknown keyword");
    expect(tsp_bound(TEXT(SQUARE), TEXT(ZEROS), TSP_BY_POTENTIALS_STRICT, out, sizeof out, &written) == TSP_YES
               && says(BOUND), "a bound without one");
    expect(tsp_bound(TEXT(SQUARE), TEXT(""), TSP_BY_POTENTIALS, out, sizeof out, &written) == TSP_FAULT
               && says("file 2: end: Missing TYPE\n"), "a certificate is file 2 of a bound");

    uint32_t status = tsp_explain(TSP_OF_CHECK, TEXT(SQUARE), TEXT(TWICE), TEXT(""), NAMES, 0, 0, 0, out, 16, &written);
    expect(status == TSP_TOO_SMALL && written > 16 && written < sizeof out, "an explanation that is too long");
    status = tsp_explain(TSP_OF_CHECK, TEXT(SQUARE), TEXT(TWICE), TEXT(""), NAMES, 0, 0, 0, out, written, &written);
    expect(status == TSP_YES && memcmp(out, EXPLAINED, sizeof EXPLAINED - 1) == 0, "an explanation names the tour");
    status = tsp_explain(TSP_OF_CHECK, TEXT(SQUARE), TEXT(TOUR), TEXT(""), NAMES, 0, 0, 0, out, sizeof out, &written);
    expect(status == TSP_YES && written == 0, "a yes has nothing to explain");
    status = tsp_explain(TSP_OF_SHOW, TEXT(""), TEXT(""), TEXT(""), TEXT(""), 0, 0, 0, out, sizeof out, &written);
    expect(status == TSP_YES && memcmp(out, "file 1: Missing TYPE\n", 21) == 0, "a text without a name is called file 1");
    status = tsp_explain(TSP_OF_CONVERT, TEXT(SQUARE), TEXT(""), TEXT(""), NAMES, 1, 0, 0, out, sizeof out, &written);
    expect(status == TSP_YES && written > 0, "why points have no layout");
    expect(tsp_explain(4, TEXT(SQUARE), TEXT(TOUR), TEXT(""), NAMES, 0, 0, 0, out, sizeof out, &written) == TSP_REFUSED
               && tsp_explain(TSP_OF_BOUND, TEXT(SQUARE), TEXT(""), TEXT(ZEROS), NAMES, 0, 0, 0, out, sizeof out, &written)
                      == TSP_REFUSED
               && tsp_explain(TSP_OF_CONVERT, TEXT(SQUARE), TEXT(""), TEXT(""), NAMES, 10, 0, 0, out, sizeof out, &written)
                      == TSP_REFUSED
               && written == 0, "what isn't explained");
}

static void numbers(void) {
    int64_t out[16];
    uint32_t pairs[] = {1, 2, 2, 4, 3, 3};
    for (int k = 0; k < 16; k++)
        out[k] = -7;
    uint32_t count = 99;
    expect(tsp_count(TEXT(TOUR), &count) == TSP_FAULT && count == 99, "a tour is no instance");
    expect(tsp_count(TEXT("1"), &count) == TSP_FAULT && count == 99, "the nodes of no file");
    expect(tsp_count(TEXT(SQUARE), &count) == TSP_YES && count == 4, "four nodes");
    expect(tsp_weights(TEXT(SQUARE), pairs, 6, out, 2) == TSP_TOO_SMALL && out[0] == -7, "one place too few for pairs");
    expect(tsp_weights(TEXT(SQUARE), pairs, 5, out, 16) == TSP_REFUSED && out[0] == -7, "half a pair");
    expect(tsp_weights(TEXT(TOUR), pairs, 6, out, 16) == TSP_FAULT && out[0] == -7, "pairs of a tour");
    expect(tsp_weights(TEXT(SQUARE), pairs, 6, out, 16) == TSP_YES, "three pairs");
    /* (3, 0) and (0, 4.5) are the root of 29.25 apart, which is 5.4 */
    expect(out[0] == 3 && out[1] == 5 && out[2] == 0 && out[3] == -7, "the weights of three pairs");
    uint32_t beyond[] = {1, 5};
    expect(tsp_weights(TEXT(SQUARE), beyond, 2, out, 16) == TSP_REFUSED, "node 5 of 4");
    beyond[1] = 0;
    expect(tsp_weights(TEXT(SQUARE), beyond, 2, out, 16) == TSP_REFUSED, "node 0");

    for (int k = 0; k < 16; k++)
        out[k] = -7;
    expect(tsp_matrix(TEXT(MATRIX), 1, out, 1) == TSP_TOO_SMALL && out[0] == -7, "one place too few for a row");
    expect(tsp_matrix(TEXT(MATRIX), 0, out, 16) == TSP_REFUSED, "row 0");
    expect(tsp_matrix(TEXT(MATRIX), 3, out, 16) == TSP_REFUSED, "row 3 of 2");
    expect(tsp_matrix(TEXT(MATRIX), 2, out, 16) == TSP_YES && out[0] == 2 && out[1] == 9 && out[2] == -7, "the last row");
    expect(tsp_matrix(TEXT(MATRIX), 1, out, 3) == TSP_YES && out[0] == 7 && out[1] == 1 && out[2] == -7, "one row of two");
    expect(tsp_matrix(TEXT(MATRIX), 1, out, 16) == TSP_YES && out[2] == 2 && out[3] == 9 && out[4] == -7, "both rows");

    uint32_t lists[] = {1, 2, 0, 0, 2, 0};
    for (int k = 0; k < 16; k++)
        out[k] = -7;
    expect(tsp_lengths(TEXT(MATRIX), lists, 6, out, 2) == TSP_TOO_SMALL && out[0] == -7, "one place too few for lengths");
    expect(tsp_lengths(TEXT(MATRIX), lists, 5, out, 16) == TSP_REFUSED && out[0] == -7, "a list without its 0");
    expect(tsp_lengths(TEXT(MATRIX), lists, 0, out, 0) == TSP_YES && out[0] == -7, "no list");
    expect(tsp_lengths(TEXT(MATRIX), lists, 6, out, 3) == TSP_YES, "three lists");
    expect(out[0] == 3 && out[1] == 0 && out[2] == 9 && out[3] == -7, "the lengths of three lists");
    lists[1] = 3;
    expect(tsp_lengths(TEXT(MATRIX), lists, 6, out, 16) == TSP_REFUSED, "a list with node 3 of 2");

    for (int k = 0; k < 16; k++)
        out[k] = -7;
    expect(tsp_points(TEXT(SQUARE), TSP_POINTS_NODE_COORD, out, 11) == TSP_TOO_SMALL && out[0] == -7, "one place too few for points");
    expect(tsp_points(TEXT(SQUARE), TSP_POINTS_DISPLAY_DATA, out, 16) == TSP_NO && out[0] == -7, "no points to display");
    expect(tsp_points(TEXT(SQUARE), 3, out, 16) == TSP_REFUSED && out[0] == -7, "no section 3");
    expect(tsp_points(TEXT("1"), TSP_POINTS_NODE_COORD, out, 16) == TSP_FAULT && out[0] == -7, "points of no file");
    expect(tsp_points(TEXT(SQUARE), TSP_POINTS_NODE_COORD, out, 12) == TSP_YES, "four points");
    expect(out[3] == 3000000000 && out[4] == 0 && out[5] == 0 && out[10] == 4500000000 && out[12] == -7, "their coordinates");

    expect(tsp_distance(TSP_DISTANCE_EUC_2D, 0, 0, 0, 3000000000, 4000000000, 9000000000) == 5, "EUC_2D");
    expect(tsp_distance(TSP_DISTANCE_CEIL_2D, 0, 0, 0, 1000000000, 1000000000, 0) == 2, "CEIL_2D");
    expect(tsp_distance(TSP_DISTANCE_MAN_2D, 0, 0, 0, 3000000000, -4000000000, 0) == 7, "MAN_2D");
    expect(tsp_distance(TSP_DISTANCE_MAX_2D, 0, 0, 0, 3000000000, -4000000000, 0) == 4, "MAX_2D");
    /* the root of 100 / 10 is 3.2 */
    expect(tsp_distance(TSP_DISTANCE_ATT, 0, 0, 0, 10000000000, 0, 0) == 4, "ATT");
    expect(tsp_distance(TSP_DISTANCE_EUC_3D, 0, 0, 0, 1000000000, 2000000000, 2000000000) == 3, "EUC_3D");
    expect(tsp_distance(TSP_DISTANCE_MAN_3D, 0, 0, 0, 1000000000, 2000000000, 2000000000) == 5, "MAN_3D");
    expect(tsp_distance(TSP_DISTANCE_MAX_3D, 0, 0, 0, 1000000000, 2000000000, 3000000000) == 3, "MAX_3D");
    expect(tsp_distance(0, 0, 0, 0, 1, 1, 1) == -1 && tsp_distance(9, 0, 0, 0, 1, 1, 1) == -1, "no such distance");
    expect(tsp_distance(TSP_DISTANCE_EUC_2D, 1000000000000000000, 0, 0, 1000000000000000000, 0, 0) == 0, "the largest coordinate");
    expect(tsp_distance(TSP_DISTANCE_EUC_2D, 1000000000000000001, 0, 0, 0, 0, 0) == -1, "a larger coordinate");
    expect(tsp_distance(TSP_DISTANCE_EUC_2D, INT64_MIN, 0, 0, 0, 0, 0) == -1, "the least number");
}

int main(void) {
    texts();
    solutions();
    answers();
    numbers();
    return counts();
}
