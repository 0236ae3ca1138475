/* Document 01's session, by the engine without maps: it needs no image, and links alone. */
#include "document01.h"
#include "engine.h"

int main(void) {
    static uint8_t list[BYTES], replies[BYTES];
    pack(list);
    if (engine_play(list, sizeof list, replies, sizeof replies, LEDGER_TRANSACTORS, LEDGER_MESSAGES, LEDGER_CHECKPOINTS) != LEDGER_ACCEPTED) return 1;
    print(replies);
    return 0;
}
