/* The counts of count.h. */
#include "count.h"

#include <stdarg.h>
#include <stdio.h>

static unsigned long passed, failed;        /* tests */
static unsigned long made, made_before;     /* calls, in all and before this test */
static unsigned long noted, noted_before;   /* faults, likewise */

void count_call(void) {
    made++;
}

unsigned long calls(void) {
    return made;
}

unsigned long faults(void) {
    return noted;
}

int fault(const char *format, ...) {
    if (++noted - noted_before > 3)
        return 0;
    va_list words;
    va_start(words, format);
    vfprintf(stderr, format, words);
    va_end(words);
    fputc('\n', stderr);
    return 1;
}

void end_test(const char *name) {
    int ok = noted == noted_before && made > made_before;
    passed += ok;
    failed += !ok;
    printf("%s: %s (%lu calls)\n", ok ? "ok" : "FAILED", name, made - made_before);
    fflush(stdout);
    made_before = made;
    noted_before = noted;
}

int end_tests(void) {
    printf("%lu passed, %lu failed\n", passed, failed);
    return failed == 0;
}
