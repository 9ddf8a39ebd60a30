// Tests of distances.
#include "reading/instance.h"

#include "fixtures.h"
#include "reading/canonical.h"
#include "reading/distances.h"

using namespace certify;
using potentials::metric_of;

TEST_CASE("distances are those of their definitions") {
  CHECK(count_of("12") == 12000000000);                  // 12
  CHECK(count_of("-0.000000001") == -1);                 // the least count
  CHECK(count_of("1000000000") == 1000000000000000000);  // the largest coordinate
  const Weight unit = 1000000000;
  CHECK(distance_of(metric_of("EUC_2D"), 3 * unit, -4 * unit, 0) == 5);  // EUC_2D
  CHECK(distance_of(metric_of("EUC_2D"), unit / 2, 0, 0) == 1);          // EUC_2D rounds a half up
  CHECK(distance_of(metric_of("EUC_2D"), unit / 2 - 1, 0, 0) == 0);      // EUC_2D below a half
  CHECK(distance_of(metric_of("CEIL_2D"), unit, 1, 0) == 2);             // CEIL_2D just above 1
  CHECK(distance_of(metric_of("CEIL_2D"), unit, 0, 0) == 1);             // CEIL_2D of 1
  CHECK(distance_of(metric_of("ATT"), 10 * unit, 0, 0) == 4);  // ATT: the square root of 10 is above 3
  CHECK(distance_of(metric_of("MAN_2D"), 3 * unit / 2, unit, 0) == 3);         // MAN_2D
  CHECK(distance_of(metric_of("MAX_3D"), 1, 5 * unit, -7 * unit) == 7);        // MAX_3D
  CHECK(distance_of(metric_of("EUC_3D"), 2 * unit, 3 * unit, 6 * unit) == 7);  // EUC_3D
  CHECK(distance_of(metric_of("EUC_3D"), 2 * unit * unit, 2 * unit * unit, unit * unit) ==
        3 * unit);  // the largest EUC_3D
}
