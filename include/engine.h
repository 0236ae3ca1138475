/* The engine without maps: it plays a whole step list from a fresh session and gives the replies that the ledger (ledger.h) gives. The
 * numbers, and how steps and replies are packed, are in ledger_steps.h; the rules are docs/RULES.md.
 *
 * The library is built by `tools/library engine_c` as target/staticlib/libengine_c.a, for x86-64 Linux, and can be linked alone or beside
 * the ledger's.
 * It has no maps and no image: where a receipt or a signing depends on chains, it traces them back through the list and the replies given
 * so far. Of the refusals of steps 27, 28 and 31 cannot arise: a list is too short for the first two, and no session from a fresh one meets
 * the third.
 *
 * What a caller owes (buffers, threads, stack) is said once, in ledger_steps.h.
 *
 * Stack of the call in KiB, at most, beside that of memcpy, memmove and memset (tools/stack measures the compiled library):
 *
 *     engine_play 12
 */
#ifndef ENGINE_H
#define ENGINE_H

#include "ledger_steps.h"

#ifdef __cplusplus
extern "C" {
#endif

/* Plays all steps of list in a fresh session, which opens at most so many transactors (1 to 16), has at most so many messages waiting
 * (1 to 32) and checkpoints a transactor at most so often (1 to 15): writes a reply of 8 bytes for each step, the one that ledger_run would
 * write after ledger_begin with these limits, and answers 0, whatever the steps reply: 20 to 30 are replies, and the list goes on.
 * Refused with 17, 18 or 33, in this order: no byte is changed. */
uint8_t engine_play(const uint8_t *list, size_t list_length, uint8_t *replies, size_t replies_length,
                    size_t transactors, size_t messages, size_t checkpoints);

#ifdef __cplusplus
}
#endif

#endif
