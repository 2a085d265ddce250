/* Curves over both fields and the classes of three points on each. */
#ifndef POINTS_H
#define POINTS_H

#include "seal_register.h"

/* The first half is over GF(2^5), the second over GF(2^61): f = x^7 and f = x^7 + 1, whose points are classes of stamps
 * (tests/seal_calls/stamps.c), and a curve with three coefficients. */
#define CURVES 6
#define POINTS 3

static const struct {
    struct seal_curve curve;
    struct seal_class point[POINTS];
} with_points[CURVES] = {
    {{5, 0, 0, 0}, {{1, {12}, {18}}, {1, {16}, {12}}, {1, {24}, {22}}}},
    {{5, 0, 0, 1}, {{1, {8}, {26}}, {1, {18}, {24}}, {1, {25}, {30}}}},
    {{5, 12, 25, 6}, {{1, {14}, {1}}, {1, {3}, {9}}, {1, {29}, {22}}}},
    {{61, 0, 0, 0},
     {{1, {8}, {0x13c808a013a1ee0}}, {1, {16}, {0x129fa6407f23380}}, {1, {0x15e1}, {0xa3b0e0cb5fbf4c}}}},
    {{61, 0, 0, 1},
     {{1, {9}, {0x70c48c2de7d42e2}}, {1, {0x15e9}, {0x1be0568f3dc4d3e4}}, {1, {0x1802}, {0x921258987bf8c10}}}},
    {{61, 0xc797c3c8b2641ba, 0x89879afe878cc3, 0x1cd3081017562540},
     {{1, {0x13cfd601c99393c6}, {0x1438409bf7e8b266}},
      {1, {0x15960cf300097785}, {0x1e4987ab917989d8}},
      {1, {0xb05ace2f523a4f3}, {0x139c9dd88135b89f}}}},
};

#endif
