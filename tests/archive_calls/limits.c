/* Every archive of three operations, and archives of many, up to the longest. */
#include "edges.h"
#include "models.h"

static void three(void) {
    expect_every_archive(5, 3);
    end_test("every archive of three operations over the multiples of [x, 0], each operation suppressed");
}

static void many(void) {
    static const int counts[] = {255, 256, 257, 1023, 1024};
    for (size_t i = 0; i < sizeof counts / sizeof counts[0]; i++)
        expect_numbers(degrees[i % 2], counts[i]);
    end_test("k at 0, 1, n and n + 1, and far outside: 123, for n up to 1,024");
}

/* 1,024 operations of degree 3, 2,048 pairs and a drawing number of 38 characters. The pairs have the operations up to
 * 65 as later ones, so that the earlier ones are held. */
static void longest(void) {
    for (int d = 0; d < 2; d++) {
        struct model m = model(degrees[d], LIMIT);
        m.drawing = "DRAWING NUMBER OF 38 CHARACTERS, ~ !@#";
        m.seal = 3;
        for (int k = 1; k <= LIMIT; k++)
            m.operation[k] = k % 2 == 0 ? 3 : 4;
        for (int later = 2; m.pairs < MOST_PAIRS; later++)
            for (int earlier = 1; earlier < later && m.pairs < MOST_PAIRS; earlier++)
                add_pair(&m, later, earlier);
        struct bytes in = archive_of(&m);
        if (in.length != 60547)
            fault("the longest archive has %zu bytes", in.length);
        static const uint64_t ks[] = {0, 1, 63, 64, 65, 66, 512, 1023, 1024, 1025};
        for (size_t i = 0; i < sizeof ks / sizeof ks[0]; i++)
            expect_without(&m, ks[i]);
    }
    end_test("the longest archive, of 60,547 bytes, with 2,048 pairs, and operations that they hold");
}

/* All operations are paired to 1 and to 2, and all but these two and one are neutral: that one holds them, be its pairs
 * the first or the last. With it neutral too, 1 is held by 2 alone. */
static void one_of_many(void) {
    static const int holding[] = {2, 3, 4, 511, 1023, 1024};
    for (size_t i = 0; i < sizeof holding / sizeof holding[0]; i++) {
        struct model m = model(degrees[i % 2], LIMIT);
        for (int k = 3; k <= LIMIT; k++)
            m.operation[k] = k == holding[i] ? 3 : 0;
        for (int later = 2; later <= LIMIT; later++)
            for (int earlier = 1; earlier <= 2 && earlier < later; earlier++)
                add_pair(&m, later, earlier);
        for (int k = 1; k <= 3; k++)
            expect_without(&m, (uint64_t)k);
        m.operation[holding[i]] = 0;
        expect_without(&m, 2);
        m.operation[2] = 0;
        expect_without(&m, 1);
    }
    end_test("one of 1,023 later operations holds, be its pair the first or the last; neutral ones do not");
}

void test_limits(void) {
    three();
    many();
    longest();
    one_of_many();
}
