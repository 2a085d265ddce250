// Measures the calls on elements, classes and registers in one run and prints ratios: against the element product,
// against the same algorithms written straightforwardly in C (bench/plain.c), and against NTL's polynomials over GF(2^61) doing
// Cantor's rule as document 01 writes it, without checks.
//
//     calls ARCHIVE WALKREPORT
//
// The classes are of degree 3, on a curve and from a point drawn at random. Before anything is measured every double and sum is
// held to NTL's, every half to NTL's double, every stamp to NTL's traces, multiples and repeated halves of a few classes to NTL's
// sums and doubles, and every answer to that in C. The operations take turns, and the least time of all rounds counts. Calls on elements run as a chain, each on what the last one answered.
// ARCHIVE has 1,024 operations, and the program WALKREPORT is timed with it on standard input.
//
// Suppressing is timed on an archive of 1,024 operations of degree 3, the oldest, the middle and the newest one,
// against the program's walk of the same archive. Reading it takes the same time for each of them; what the others take
// beyond the newest one is printed as a ratio to n - k doubles, which stays about 1 where the time is linear in n - k.
// The oldest one is also suppressed where all others are neutral and paired to it, so that each of them is looked up,
// against the same without pairs.
#include <NTL/GF2EX.h>

#include <algorithm>
#include <cstdint>
#include <cstdio>
#include <cstdlib>
#include <cstring>
#include <ctime>
#include <string>
#include <sys/resource.h>
#include <unistd.h>
#include <vector>

#include "plain.h"
#include "seal.h"
#include "seal_archive.h"

using namespace NTL;

extern "C" {
uint32_t class_membership(uint8_t d, const uint64_t *f, const uint64_t *a);
uint32_t class_double(uint8_t d, const uint64_t *f, const uint64_t *a, uint64_t *r);
uint32_t class_half(uint8_t d, const uint64_t *f, const uint64_t *a, uint64_t *r);
uint32_t class_sum(uint8_t d, const uint64_t *f, const uint64_t *a, const uint64_t *b, uint64_t *r);
uint32_t class_double_and_add(uint8_t d, const uint64_t *f, const uint64_t *a, const uint64_t *b, uint64_t *r);
uint32_t class_subtract_and_halve(uint8_t d, const uint64_t *f, const uint64_t *a, const uint64_t *b, uint64_t *r);
uint32_t register_commit(uint8_t d, const uint64_t *f, uint64_t count, const uint64_t *a, const uint64_t *b, uint64_t *r);
uint32_t register_undo(uint8_t d, const uint64_t *f, uint64_t count, const uint64_t *a, const uint64_t *b, uint64_t *r);
uint32_t register_release(uint8_t d, const uint64_t *f, uint64_t count, const uint64_t *a, uint64_t *r);
uint64_t element_product(uint8_t d, uint64_t a, uint64_t b);
uint64_t element_square(uint8_t d, uint64_t a);
uint64_t element_square_root(uint8_t d, uint64_t a);
uint64_t element_inverse(uint8_t d, uint64_t a);
uint64_t element_quadratic_root(uint8_t d, uint64_t a);
uint32_t class_stamp(uint8_t d, const uint64_t *f, uint64_t stamp, uint64_t *r);
uint32_t class_multiple(uint8_t d, const uint64_t *f, const uint64_t *a, uint64_t n, uint64_t *r);
uint32_t class_halvings(uint8_t d, const uint64_t *f, const uint64_t *a, uint64_t k, uint64_t *r);
}

enum { DEGREE = 61, CLASSES = 100, ROUNDS = 300, CHAIN = 10, KEPT = 1024, CURVE_FIELDS = 31, MOST_HALVINGS = 64 };

// The largest n of which a multiple is made, all of whose binary digits are 1.
static const uint64_t MOST = (UINT64_C(1) << 61) - 1;

// Numbers that look random and are the same in every run: splitmix64 from a fixed seed.
static uint64_t drawn() {
    static uint64_t state = 2026;
    uint64_t z = state += UINT64_C(0x9e3779b97f4a7c15);
    z = (z ^ z >> 30) * UINT64_C(0xbf58476d1ce4e5b9);
    z = (z ^ z >> 27) * UINT64_C(0x94d049bb133111eb);
    return (z ^ z >> 31) >> (64 - DEGREE);
}

static GF2E element(uint64_t n) {
    unsigned char bytes[8];
    for (int i = 0; i < 8; i++) bytes[i] = n >> 8 * i;
    return conv<GF2E>(GF2XFromBytes(bytes, 8));
}

static uint64_t number(const GF2E &a) {
    unsigned char bytes[8];
    uint64_t n = 0;
    BytesFromGF2X(bytes, rep(a), 8);
    for (int i = 0; i < 8; i++) n |= uint64_t(bytes[i]) << 8 * i;
    return n;
}

struct Class {
    uint64_t numbers[7];
    bool operator==(const Class &other) const {
        for (int i = 0; i < 7; i++)
            if (numbers[i] != other.numbers[i]) return false;
        return true;
    }
};

struct Pair {
    GF2EX u, v;
};

static uint64_t curve[3];
static GF2EX f;

static Pair pair_of(const Class &a) {
    Pair pair;
    long degree = a.numbers[0];
    SetCoeff(pair.u, degree);
    for (long i = 0; i < degree; i++) {
        SetCoeff(pair.u, i, element(a.numbers[1 + i]));
        SetCoeff(pair.v, i, element(a.numbers[4 + i]));
    }
    return pair;
}

static Class class_of(const Pair &a) {
    Class r = {};
    r.numbers[0] = deg(a.u);
    for (long i = 0; i < deg(a.u); i++) {
        r.numbers[1 + i] = number(coeff(a.u, i));
        r.numbers[4 + i] = number(coeff(a.v, i));
    }
    return r;
}

static void reduce(Pair &a) {
    while (deg(a.u) > 3) {
        a.u = (f + a.v + sqr(a.v)) / a.u;
        MakeMonic(a.u);
        a.v = (a.v + 1) % a.u;
    }
}

static Pair double_by_ntl(const Pair &a) {
    Pair r;
    r.u = sqr(a.u);
    r.v = (sqr(a.v) + f) % r.u;
    reduce(r);
    return r;
}

static Pair sum_by_ntl(const Pair &a, const Pair &b) {
    Pair r;
    GF2EX g, e, t, t1, t2, s3;
    XGCD(g, t1, t2, a.u, b.u);
    XGCD(e, t, s3, g, a.v + b.v + 1);
    r.u = a.u * b.u / sqr(e);
    r.v = (t * t1 * a.u * b.v + t * t2 * b.u * a.v + s3 * (a.v * b.v + f)) / e % r.u;
    reduce(r);
    return r;
}

// The multiple by MOST, the highest digit first.
static Pair multiple_by_ntl(const Pair &a) {
    Pair r = a;
    for (int i = 1; i < DEGREE; i++) r = sum_by_ntl(double_by_ntl(r), a);
    return r;
}

static std::vector<Class> classes;
static std::vector<Pair> pairs;

// The curve through a point drawn at random, and the classes D, 2 D + P, .. from that point on, as many as wanted that
// are of degree 3.
static void draw() {
    uint64_t a = drawn(), y = drawn();
    curve[0] = drawn();
    curve[1] = drawn();
    SetCoeff(f, 7);
    SetCoeff(f, 3, element(curve[0]));
    SetCoeff(f, 1, element(curve[1]));
    curve[2] = number(eval(f, element(a)) + sqr(element(y)) + element(y));
    SetCoeff(f, 0, element(curve[2]));
    Pair point = pair_of({{1, a, 0, 0, y, 0, 0}}), pair = point;
    while (classes.size() < CLASSES) {
        pair = sum_by_ntl(double_by_ntl(pair), point);
        if (deg(pair.u) < 3) continue;
        pairs.push_back(pair);
        classes.push_back(class_of(pair));
    }
}

static void put_number(std::vector<uint8_t> &bytes, uint64_t n) {
    for (int i = 56; i >= 0; i -= 8) bytes.push_back(n >> i);
}

static void put_class(std::vector<uint8_t> &bytes, uint8_t tag, const Class &a) {
    int n = a.numbers[0];
    bytes.insert(bytes.end(), {tag, 0, uint8_t(16 * n)});
    for (int start : {1, 4})
        for (int i = n - 1; i >= 0; i--) put_number(bytes, a.numbers[start + i]);
}

// The record of an undo: degree, curve, count, released step, seal and operation. That of a release ends after the
// seal, which has degree 3.
enum { RELEASE_RECORD = CURVE_FIELDS + SEAL_REGISTER_OUTPUT };
static std::vector<uint8_t> record_of(uint64_t count, const Class &seal, const Class &operation) {
    std::vector<uint8_t> bytes = {0x40, 0, 1, DEGREE, 0x41, 0, 24};
    for (int i = 0; i < 3; i++) put_number(bytes, curve[i]);
    bytes.insert(bytes.end(), {0x42, 0, 2, uint8_t(count >> 8), uint8_t(count), 0x45, 0, 2, 0, 0});
    put_class(bytes, 0x43, seal);
    put_class(bytes, 0x44, operation);
    return bytes;
}

static std::vector<std::vector<uint8_t>> records;
static void hold(bool held, const char *what, int i) {
    if (held) return;
    fprintf(stderr, "%s of class %d: the two differ\n", what, i);
    exit(1);
}

// Is a number the root of y^2 + y = a with lowest bit 0, or all ones where NTL's trace of a is not 0?
static bool is_root(uint64_t y, const GF2E &a) {
    if (IsOne(trace(a))) return y == UINT64_MAX;
    return y % 2 == 0 && sqr(element(y)) + element(y) == a;
}

// Stamps that have a class, and stamps whose first candidate has it.
static std::vector<uint64_t> stamps, first_stamps;

// Draws as many of each as there are classes, each held to NTL's trace of f at its candidates and to the same in C.
static void draw_stamps() {
    while (stamps.size() < CLASSES || first_stamps.size() < CLASSES) {
        uint64_t stamp = drawn() >> 3, x = 8 * stamp;
        Class r, plain;
        uint32_t answer = class_stamp(DEGREE, curve, stamp, r.numbers);
        while (x < 8 * stamp + 8 && IsOne(trace(eval(f, element(x))))) x++;
        hold(answer == plain_stamp(curve, stamp, plain.numbers), "stamp", stamps.size());
        hold((answer == 116) == (x == 8 * stamp + 8), "stamp", stamps.size());
        if (answer == 116) continue;
        hold(answer == 0 && r == plain && r.numbers[0] == 1 && r.numbers[1] == x, "stamp", stamps.size());
        hold(is_root(r.numbers[4], eval(f, element(x))), "stamp", stamps.size());
        if (stamps.size() < CLASSES) stamps.push_back(stamp);
        if (x == 8 * stamp && first_stamps.size() < CLASSES) first_stamps.push_back(stamp);
    }
}

// Each call on each class, and on it and the next, held to NTL and to the same in C.
static void compare() {
    for (int i = 0; i < CLASSES; i++) {
        int j = (i + 1) % CLASSES;
        const uint64_t *a = classes[i].numbers, *b = classes[j].numbers;
        Pair sum = sum_by_ntl(pairs[i], pairs[j]), twice = double_by_ntl(pairs[i]);
        Class r, back, plain;
        uint8_t out[SEAL_REGISTER_OUTPUT];
        uint64_t x = a[1], y = b[1];
        hold(element_product(DEGREE, x, y) == number(element(x) * element(y)), "product", i);
        hold(element_product(DEGREE, x, y) == plain_product(x, y) && plain_product(x, y) == plain_loop_product(x, y), "product", i);
        hold(element_square(DEGREE, x) == number(sqr(element(x))) && element_square(DEGREE, x) == plain_square(x), "square", i);
        hold(element_square_root(DEGREE, x) == plain_root(x) && plain_square(plain_root(x)) == x, "square root", i);
        hold(element_inverse(DEGREE, x) == number(inv(element(x))) && element_inverse(DEGREE, x) == plain_inverse(x), "inverse", i);
        hold(element_quadratic_root(DEGREE, x) == plain_quadratic_root(x) && is_root(plain_quadratic_root(x), element(x)), "root", i);
        hold(class_membership(DEGREE, curve, a) == 0 && plain_membership(curve, a) == 0, "membership", i);
        hold(class_double(DEGREE, curve, a, r.numbers) == 0 && r == class_of(twice), "double", i);
        hold(plain_double(curve, a, plain.numbers) == 0 && r == plain, "double", i);
        hold(class_sum(DEGREE, curve, a, b, r.numbers) == 0 && r == class_of(sum), "sum", i);
        hold(plain_sum(curve, a, b, plain.numbers) == 0 && r == plain, "sum", i);
        hold(class_half(DEGREE, curve, a, r.numbers) == 0, "half", i);
        hold(classes[i] == class_of(double_by_ntl(pair_of(r))), "half", i);
        hold(plain_half(curve, a, plain.numbers) == 0 && r == plain, "half", i);
        hold(register_commit(DEGREE, curve, 7, a, b, r.numbers) == 0, "commit", i);
        hold(r == class_of(sum_by_ntl(twice, pairs[j])), "commit", i);
        hold(plain_double_and_add(curve, a, b, plain.numbers) == 0 && r == plain, "commit", i);
        records.push_back(record_of(8, r, classes[j]));
        hold(register_undo(DEGREE, curve, 8, r.numbers, b, back.numbers) == 0 && back == classes[i], "undo", i);
        hold(plain_subtract_and_halve(curve, r.numbers, b, plain.numbers) == 0 && back == plain, "undo", i);
        hold(seal_undo(records[i].data(), records[i].size(), out, sizeof out) == sizeof out, "undo by bytes", i);
        hold(out[4] == 7 && out[9] == 0, "count and released step of an undo by bytes", i);
        hold(register_release(DEGREE, curve, 8, a, back.numbers) == 0 && back == classes[i], "release", i);
        hold(seal_release(records[i].data(), RELEASE_RECORD, out, sizeof out) == sizeof out, "release by bytes", i);
        hold(out[4] == 8 && out[9] == 8, "count and released step of a release by bytes", i);
        hold(seal_stamp(records[i].data(), CURVE_FIELDS, stamps[i], out, sizeof out) == 19, "stamp by bytes", i);
    }
}

// The largest multiple and the most halvings of a few classes, held to NTL and to the same in C.
static void compare_multiples() {
    for (int i = 0; i < 5; i++) {
        const uint64_t *a = classes[i].numbers;
        Class r, plain;
        hold(class_multiple(DEGREE, curve, a, MOST, r.numbers) == 0 && r == class_of(multiple_by_ntl(pairs[i])), "multiple", i);
        hold(plain_multiple(curve, a, MOST, plain.numbers) == 0 && r == plain, "multiple", i);
        hold(class_halvings(DEGREE, curve, a, MOST_HALVINGS, r.numbers) == 0, "halvings", i);
        hold(plain_halvings(curve, a, MOST_HALVINGS, plain.numbers) == 0 && r == plain, "halvings", i);
        Pair back = pair_of(r);
        for (int k = 0; k < MOST_HALVINGS; k++) back = double_by_ntl(back);
        hold(classes[i] == class_of(back), "halvings", i);
    }
}

// The class of operation k of the archive that is suppressed, counted from the oldest.
static int class_of_operation(int k) {
    return k % CLASSES;
}

static const Class NEUTRAL = {};

// An archive with an empty drawing number, of KEPT operations, of which one, or none where it is 0, is neutral.
static std::vector<uint8_t> archive_with(const Class &seal, int neutral) {
    std::vector<uint8_t> bytes = {0x40, 0, 1, DEGREE, 0x41, 0, 24};
    for (int i = 0; i < 3; i++) put_number(bytes, curve[i]);
    bytes.insert(bytes.end(), {0x46, 0, 0, 0x42, 0, 2, uint8_t(KEPT >> 8), uint8_t(KEPT & 255)});
    put_class(bytes, 0x43, seal);
    for (int k = KEPT; k > 0; k--) put_class(bytes, 0x44, k == neutral ? NEUTRAL : classes[class_of_operation(k)]);
    return bytes;
}

// The same with all operations neutral but for the oldest, and with all paired to it, where that is wanted.
static std::vector<uint8_t> neutral_archive(bool paired) {
    std::vector<uint8_t> bytes = archive_with(classes[0], 0);
    bytes.resize(bytes.size() - KEPT * SEAL_CLASS_OUTPUT);
    for (int k = KEPT; k > 1; k--) put_class(bytes, 0x44, NEUTRAL);
    put_class(bytes, 0x44, classes[class_of_operation(1)]);
    if (!paired) return bytes;
    bytes.insert(bytes.end(), {0x48, uint8_t(4 * (KEPT - 1) >> 8), uint8_t(4 * (KEPT - 1) & 255)});
    for (int later = 2; later <= KEPT; later++) bytes.insert(bytes.end(), {uint8_t(later >> 8), uint8_t(later), 0, 1});
    return bytes;
}

static std::vector<uint8_t> archive, suppressed_archive;
static const int SUPPRESSED[] = {1, KEPT / 2, KEPT};

static seal_written suppress(const std::vector<uint8_t> &in, int k) {
    return seal_suppress(in.data(), in.size(), k, suppressed_archive.data(), suppressed_archive.size());
}

// The archive, and each suppression of it held to NTL's doubles and sum: the old seal less n - k doubles of the class.
static void compare_suppressions() {
    archive = archive_with(classes[0], 0);
    suppressed_archive.resize(archive.size() + SEAL_ARCHIVE_GROWTH);
    for (int k : SUPPRESSED) {
        Pair by = pairs[class_of_operation(k)];
        for (int i = k; i < KEPT; i++) by = double_by_ntl(by);
        by.v = (by.v + 1) % by.u;
        std::vector<uint8_t> expected = archive_with(class_of(sum_by_ntl(pairs[0], by)), k);
        seal_written answer = suppress(archive, k);
        hold(answer.refusal == 0 && answer.length == expected.size(), "suppressing", k);
        hold(std::equal(expected.begin(), expected.end(), suppressed_archive.begin()), "suppressing", k);
    }
}

// What is measured: an operation by the proved code, in C, or by NTL.
enum Operation { PRODUCT, SQUARE, ROOT, INVERSE, QUADRATIC, MEMBERSHIP, DOUBLE, HALF, SUM, COMMIT, UNDO, RELEASE, STAMP,
    FIRST_STAMP, MULTIPLE, HALVINGS, BYTE_UNDO, BYTE_RELEASE, BYTE_STAMP, LOOP_PRODUCT, OPERATIONS };
enum Maker { PROVED, PLAIN, NTL_LIBRARY, MAKERS };

// An element for which y^2 + y has a root: the trace is the sum of the bits 0 and 59.
static uint64_t with_root(uint64_t x) {
    return x ^ ((x ^ x >> 59) & 1);
}

static uint64_t element_step(int operation, int maker, uint64_t x, uint64_t y) {
    switch (operation * MAKERS + maker) {
    case PRODUCT * MAKERS + PROVED: return element_product(DEGREE, x, y);
    case PRODUCT * MAKERS + PLAIN: return plain_product(x, y);
    case SQUARE * MAKERS + PROVED: return element_square(DEGREE, x);
    case SQUARE * MAKERS + PLAIN: return plain_square(x);
    case ROOT * MAKERS + PROVED: return element_square_root(DEGREE, x);
    case ROOT * MAKERS + PLAIN: return plain_root(x);
    case INVERSE * MAKERS + PROVED: return element_inverse(DEGREE, x) ^ 1;
    case INVERSE * MAKERS + PLAIN: return plain_inverse(x) ^ 1;
    case QUADRATIC * MAKERS + PROVED: return element_quadratic_root(DEGREE, with_root(x));
    case QUADRATIC * MAKERS + PLAIN: return plain_quadratic_root(with_root(x));
    default: return plain_loop_product(x, y);
    }
}

static GF2E element_step_by_ntl(int operation, const GF2E &x, const GF2E &y) {
    if (operation == PRODUCT) return x * y;
    if (operation == SQUARE) return sqr(x);
    return inv(x) + 1;
}

static bool is_made(int operation, int maker) {
    if (maker == PROVED) return operation != LOOP_PRODUCT;
    if (maker == PLAIN)
        return operation != RELEASE && operation != BYTE_UNDO && operation != BYTE_RELEASE && operation != BYTE_STAMP;
    return operation == PRODUCT || operation == SQUARE || operation == INVERSE || operation == DOUBLE || operation == SUM ||
        operation == COMMIT || operation == MULTIPLE;
}

// How many classes a round is on: one where an operation is made of many.
static int classes_of(int operation) {
    return operation == MULTIPLE || operation == HALVINGS ? 1 : CLASSES;
}

static bool is_of_elements(int operation) {
    return operation <= QUADRATIC || operation == LOOP_PRODUCT;
}

// One round on classes: the operation on every class, or on each class and the next.
static uint64_t class_round(int operation, int maker, uint64_t x) {
    Class r;
    uint8_t out[SEAL_REGISTER_OUTPUT];
    for (int i = 0; i < classes_of(operation); i++) {
        int j = (i + 1) % CLASSES;
        const uint64_t *a = classes[i].numbers, *b = classes[j].numbers;
        switch (operation * MAKERS + maker) {
        case MEMBERSHIP * MAKERS + PROVED: x += class_membership(DEGREE, curve, a); break;
        case MEMBERSHIP * MAKERS + PLAIN: x += plain_membership(curve, a); break;
        case DOUBLE * MAKERS + PROVED: x += class_double(DEGREE, curve, a, r.numbers); break;
        case DOUBLE * MAKERS + PLAIN: x += plain_double(curve, a, r.numbers); break;
        case DOUBLE * MAKERS + NTL_LIBRARY: x += deg(double_by_ntl(pairs[i]).u); break;
        case HALF * MAKERS + PROVED: x += class_half(DEGREE, curve, a, r.numbers); break;
        case HALF * MAKERS + PLAIN: x += plain_half(curve, a, r.numbers); break;
        case SUM * MAKERS + PROVED: x += class_sum(DEGREE, curve, a, b, r.numbers); break;
        case SUM * MAKERS + PLAIN: x += plain_sum(curve, a, b, r.numbers); break;
        case SUM * MAKERS + NTL_LIBRARY: x += deg(sum_by_ntl(pairs[i], pairs[j]).u); break;
        case COMMIT * MAKERS + PROVED: x += register_commit(DEGREE, curve, 7, a, b, r.numbers); break;
        case COMMIT * MAKERS + PLAIN: x += plain_double_and_add(curve, a, b, r.numbers); break;
        case COMMIT * MAKERS + NTL_LIBRARY: x += deg(sum_by_ntl(double_by_ntl(pairs[i]), pairs[j]).u); break;
        case UNDO * MAKERS + PROVED: x += register_undo(DEGREE, curve, 8, a, b, r.numbers); break;
        case UNDO * MAKERS + PLAIN: x += plain_subtract_and_halve(curve, a, b, r.numbers); break;
        case RELEASE * MAKERS + PROVED: x += register_release(DEGREE, curve, 8, a, r.numbers); break;
        case STAMP * MAKERS + PROVED: x += class_stamp(DEGREE, curve, stamps[i], r.numbers); break;
        case STAMP * MAKERS + PLAIN: x += plain_stamp(curve, stamps[i], r.numbers); break;
        case FIRST_STAMP * MAKERS + PROVED: x += class_stamp(DEGREE, curve, first_stamps[i], r.numbers); break;
        case FIRST_STAMP * MAKERS + PLAIN: x += plain_stamp(curve, first_stamps[i], r.numbers); break;
        case MULTIPLE * MAKERS + PROVED: x += class_multiple(DEGREE, curve, a, MOST, r.numbers); break;
        case MULTIPLE * MAKERS + PLAIN: x += plain_multiple(curve, a, MOST, r.numbers); break;
        case MULTIPLE * MAKERS + NTL_LIBRARY: x += deg(multiple_by_ntl(pairs[i]).u); break;
        case HALVINGS * MAKERS + PROVED: x += class_halvings(DEGREE, curve, a, MOST_HALVINGS, r.numbers); break;
        case HALVINGS * MAKERS + PLAIN: x += plain_halvings(curve, a, MOST_HALVINGS, r.numbers); break;
        case BYTE_RELEASE * MAKERS + PROVED: x += seal_release(records[i].data(), RELEASE_RECORD, out, sizeof out); break;
        case BYTE_STAMP * MAKERS + PROVED: x += seal_stamp(records[i].data(), CURVE_FIELDS, stamps[i], out, sizeof out); break;
        default: x += seal_undo(records[i].data(), records[i].size(), out, sizeof out); break;
        }
    }
    return x;
}

static uint64_t element_round(int operation, int maker, uint64_t x) {
    GF2E at = element(x | 2), by = element(classes[0].numbers[1]);
    for (int i = 0; i < CLASSES * CHAIN; i++) {
        if (maker == NTL_LIBRARY) at = element_step_by_ntl(operation, at, by);
        else x = element_step(operation, maker, x, classes[0].numbers[1]);
    }
    return maker == NTL_LIBRARY ? number(at) : x;
}

// The processor's time, so that what else runs on the machine counts little.
static double now() {
    timespec t;
    clock_gettime(CLOCK_PROCESS_CPUTIME_ID, &t);
    return t.tv_sec + t.tv_nsec * 1e-9;
}

// How long one operation took in a round.
static double timed(int operation, int maker) {
    static volatile uint64_t kept = 3;
    double began = now();
    kept = kept ^ (is_of_elements(operation) ? element_round(operation, maker, 3) : class_round(operation, maker, 3));
    return (now() - began) / (is_of_elements(operation) ? CLASSES * CHAIN : classes_of(operation));
}

static double children() {
    rusage usage;
    getrusage(RUSAGE_CHILDREN, &usage);
    return usage.ru_utime.tv_sec + usage.ru_stime.tv_sec + (usage.ru_utime.tv_usec + usage.ru_stime.tv_usec) * 1e-6;
}

// How long the program takes with the archive on standard input, its start and its output included.
static double program_time(const char *program, const char *name) {
    std::string line = std::string("'") + program + "' <'" + name + "' >/dev/null";
    double least = 0;
    for (int round = 0; round < 20; round++) {
        double began = children();
        if (system(line.c_str()) != 0) exit(1);
        double took = children() - began;
        if (round == 0 || took < least) least = took;
    }
    return least;
}

// How long suppressing operation k of an archive takes.
static double suppressing_time(const std::vector<uint8_t> &in, int k) {
    double least = 0;
    for (int round = 0; round < 20; round++) {
        double began = now();
        if (suppress(in, k).refusal != 0) exit(1);
        double took = now() - began;
        if (round == 0 || took < least) least = took;
    }
    return least;
}

// How long the program's walk of the archive takes that operations are suppressed in.
static double walk_time(const char *program) {
    char name[] = "/tmp/archiveXXXXXX";
    FILE *file = fdopen(mkstemp(name), "wb");
    if (file == NULL || fwrite(archive.data(), 1, archive.size(), file) != archive.size() || fclose(file) != 0) exit(1);
    double took = program_time(program, name);
    unlink(name);
    return took;
}

static double least[OPERATIONS][MAKERS];

static void print_line(const char *name, int operation) {
    printf("  %-30s %10.2f %8.2f", name, least[operation][PROVED] / least[PRODUCT][PROVED], least[operation][PROVED] / least[HALF][PROVED]);
    for (int maker : {PLAIN, NTL_LIBRARY}) {
        if (is_made(operation, maker)) printf(" %8.2f", least[operation][maker] / least[operation][PROVED]);
        else printf(" %8s", "");
    }
    printf("\n");
}

static void print_suppressions(const char *program) {
    double walk = walk_time(program), newest = suppressing_time(archive, KEPT);
    printf("  suppressing operation k of n = %d: in halves, in walks of the program, and beyond k = n in n - k doubles\n", KEPT);
    for (int k : SUPPRESSED) {
        double took = suppressing_time(archive, k);
        printf("  %-30s %10.0f %8.3f", ("k = " + std::to_string(k)).c_str(), took / least[HALF][PROVED], took / walk);
        if (k < KEPT) printf(" %8.2f", (took - newest) / ((KEPT - k) * least[DOUBLE][PROVED]));
        printf("\n");
    }
    printf("  k = 1, with the others neutral and paired to it, takes %.2f of the same without pairs\n",
        suppressing_time(neutral_archive(true), 1) / suppressing_time(neutral_archive(false), 1));
}

int main(int words, char **word) {
    if (words != 3) {
        fprintf(stderr, "usage: calls ARCHIVE WALKREPORT\n");
        return 2;
    }
    GF2X modulus;
    for (int i : {61, 5, 2, 1, 0}) SetCoeff(modulus, i);
    GF2E::init(modulus);
    draw();
    draw_stamps();
    compare();
    compare_multiples();
    compare_suppressions();
    for (int round = 0; round < ROUNDS; round++) {
        for (int operation = 0; operation < OPERATIONS; operation++) {
            for (int maker = 0; maker < MAKERS; maker++) {
                if (!is_made(operation, maker)) continue;
                double took = timed(operation, maker);
                if (round == 0 || took < least[operation][maker]) least[operation][maker] = took;
            }
        }
    }
    printf("GF(2^61), %d classes of degree 3; the checks that a call makes are timed with it, NTL makes none\n", CLASSES);
    printf("  %-30s %10s %8s %8s %8s\n", "", "time in", "time in", "C by", "NTL by");
    printf("  %-30s %10s %8s %8s %8s\n", "", "products", "halves", "ours", "ours");
    const char *names[] = {"product", "square", "square root", "inverse", "root of y^2 + y = a", "membership", "double", "half",
        "sum", "commit", "undo", "release", "stamp", "stamp, first candidate", "multiple, n = 2^61 - 1", "64 halvings",
        "undo by bytes", "release by bytes", "stamp by bytes"};
    for (int operation = 0; operation <= BYTE_STAMP; operation++) print_line(names[operation], operation);
    double program = program_time(word[2], word[1]) / least[HALF][PROVED];
    printf("  the program walkreport on %d operations takes %.0f halves, %.2f for each operation\n", KEPT, program, program / KEPT);
    print_suppressions(word[2]);
    printf("  NTL's double and sum take %.2f of an undo, a plain loop of 61 turns in C %.2f of a product\n",
        least[COMMIT][NTL_LIBRARY] / least[UNDO][PROVED], least[LOOP_PRODUCT][PLAIN] / least[PRODUCT][PROVED]);
    return 0;
}
