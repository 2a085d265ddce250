/* One operation suppressed in archives that were worked out, and k at its edges: 123. */
#include "edges.h"
#include "models.h"

static void worked_out(void) {
    for (int d = 0; d < 2; d++)
        for (int count = 1; count <= 2; count++)
            expect_every_archive(degrees[d], count);
    end_test("every archive of one or two operations over the multiples of [x, 0], each operation suppressed");
}

static void numbers(void) {
    for (int d = 0; d < 2; d++)
        for (int count = 0; count <= 9; count++)
            expect_numbers(degrees[d], count);
    end_test("k at 0, 1, n and n + 1, and far outside: 123, for n from 0 to 9; with n = 0 every k is 123");
}

/* A neutral operation may be suppressed, and the archive stays as it was; so it does the second time. */
static void again(void) {
    for (int d = 0; d < 2; d++)
        for (int k = 1; k <= 5; k++) {
            struct model m = model(degrees[d], 5), once = without(&m, k);
            struct bytes in = archive_of(&once);
            writes(&in, (uint64_t)k, &in);
        }
    end_test("an operation suppressed a second time: the archive stays as it was");
}

static void either_order(void) {
    for (int d = 0; d < 2; d++)
        for (int k = 1; k <= 6; k++)
            for (int l = 1; l <= 6; l++) {
                struct model m = model(degrees[d], 6), first = without(&m, k), second = without(&m, l);
                struct model both = without(&first, l);
                struct bytes expected = archive_of(&both);
                struct bytes k_first = archive_of(&first), l_first = archive_of(&second), in = archive_of(&m);
                struct bytes made_k = suppressed(&in, (uint64_t)k), made_l = suppressed(&in, (uint64_t)l);
                writes(&in, (uint64_t)k, &k_first);
                writes(&in, (uint64_t)l, &l_first);
                writes(&made_k, (uint64_t)l, &expected);
                writes(&made_l, (uint64_t)k, &expected);
            }
    end_test("two operations suppressed in either order, each archive handed on as it was written");
}

void test_suppressed(void) {
    worked_out();
    numbers();
    again();
    either_order();
}
