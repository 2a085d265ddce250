/* The fault of faulty.h. */
#include "faulty.h"

#include <stdlib.h>
#include <string.h>

int has(const char *fault) {
    const char *asked = getenv("SEAL_FAULT");
    return asked != NULL && strcmp(asked, fault) == 0;
}
