/* The records of trial.h. */
#include "trial.h"

static uint64_t number(const uint8_t *at) {
    uint64_t n = 0;
    for (int i = 0; i < 8; i++)
        n = n << 8 | at[i];
    return n;
}

static struct seal_class class_at(const uint8_t *at) {
    struct seal_class a;
    a.degree = number(at);
    for (int i = 0; i < 3; i++) {
        a.u[i] = number(at + 8 + 8 * i);
        a.v[i] = number(at + 32 + 8 * i);
    }
    return a;
}

struct seal_register register_in(const uint8_t *record) {
    struct seal_register r;
    r.curve.degree = record[1];
    r.curve.f3 = number(record + 2);
    r.curve.f1 = number(record + 10);
    r.curve.f0 = number(record + 18);
    r.count = number(record + 26);
    r.seal = class_at(record + 34);
    r.released = number(record + 90);
    return r;
}

struct seal_class operation_in(const uint8_t *record) {
    return class_at(record + 98);
}
