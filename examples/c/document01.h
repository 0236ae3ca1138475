/* Document 01's session: thirteen steps, and a line for each reply. */
#include <stdio.h>

#include "ledger_steps.h"

enum { STEPS = 13, BYTES = LEDGER_STEP * STEPS };

static void pack(uint8_t list[BYTES]) {
    uint8_t *at = list;
#define STEP(...) (ledger_step(at, __VA_ARGS__), at += LEDGER_STEP)
    STEP(LEDGER_ROOT, 0, 0, 0, 7);
    STEP(LEDGER_ROOT, 0, 0, 0, 8);
    STEP(LEDGER_LETTER, 0, 0, 0, 5);
    STEP(LEDGER_RECEIVE, 0, 0, 0, 0);
    STEP(LEDGER_WRITE, 0, 0, 0, 9);
    STEP(LEDGER_SEND, 0, 1, 0, 9);
    STEP(LEDGER_RECEIVE, 0, 0, 1, 0);
    STEP(LEDGER_WRITE, 1, 0, 0, 10);
    STEP(LEDGER_FREEZE, 1, 0, 0, 0);
    STEP(LEDGER_SIGN, 0, 0, ledger_member(1), 0);
    STEP(LEDGER_FREEZE, 0, 0, 0, 0);
    STEP(LEDGER_SIGN, 0, 0, ledger_member(0) | ledger_member(1), 0);
    STEP(LEDGER_FAIL, 0, 0, 0, 0);
#undef STEP
}

static void print(const uint8_t replies[BYTES]) {
    for (int i = 0; i < STEPS; i++) {
        const uint8_t *r = replies + LEDGER_STEP * i;
        printf("%d %u %u %u %lu\n", i + 1, ledger_reply_outcome(r), ledger_reply_transactor(r), ledger_reply_message(r),
               (unsigned long)ledger_reply_value(r));
    }
}
