/* The samples of samples.h. */
#include "samples.h"
#include "seal.h"

struct bytes record_of(const struct sample *s, const struct bytes *first, const struct bytes *second) {
    struct bytes in = s->curve;
    append(&in, first);
    if (second != NULL)
        append(&in, second);
    return in;
}

struct bytes made(enum call call, const struct bytes *in, uint64_t number) {
    struct bytes out = {0};
    size_t bound = output_bound(call);
    uint32_t answer = call_library(call, in->at, in->length, number, out.at, bound);
    count_call();
    if (SEAL_IS_REFUSAL(answer))
        complain(call, in->at, in->length, number, bound, "answer of a call that has to be accepted", (uint32_t)bound,
                 answer);
    else
        out.length = answer;
    return out;
}

struct bytes sum_of(const struct sample *s, const struct bytes *first, const struct bytes *second) {
    struct bytes in = record_of(s, first, second);
    return made(SUM, &in, 0);
}

struct bytes on_one(enum call call, const struct sample *s, const struct bytes *class, uint64_t number) {
    struct bytes in = record_of(s, class, NULL);
    return made(call, &in, number);
}

struct sample sample(int which) {
    const struct seal_curve *curve = &with_points[which].curve;
    struct sample s = {0};
    put_degree(&s.curve, curve->degree);
    put_curve(&s.curve, curve->f3, curve->f1, curve->f0);
    put_class(&s.class[0], SEAL_TAG_CLASS, neutral);
    for (int i = 0; i < POINTS; i++) {
        put_class(&s.point[i], SEAL_TAG_CLASS, with_points[which].point[i]);
        s.class[i + 1] = sum_of(&s, &s.class[i], &s.point[i]);
    }
    return s;
}
