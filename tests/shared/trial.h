/* The records of the program history_trial (crates/history_trial/src/main.rt). */
#ifndef TRIAL_H
#define TRIAL_H

#include "seal_register.h"

/* The length of a record, and the calls, which its first byte says. */
#define RECORD 154
enum { TRIAL_START, TRIAL_COMMIT, TRIAL_UNDO, TRIAL_SHOW, TRIAL_RELEASE };

/* The register that a record starts. */
struct seal_register register_in(const uint8_t *record);

/* The class of a record's operation. */
struct seal_class operation_in(const uint8_t *record);

#endif
