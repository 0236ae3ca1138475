/* Document 01's session, by the ledger. */
#include "document01.h"
#include "ledger.h"

int main(void) {
    static uint8_t image[LEDGER_IMAGE], list[BYTES], replies[BYTES];
    if (ledger_version() != LEDGER_VERSION) return 1; /* another library than the header's */
    pack(list);
    if (ledger_begin(image, sizeof image, LEDGER_TRANSACTORS, LEDGER_MESSAGES, LEDGER_CHECKPOINTS) != LEDGER_ACCEPTED) return 1;
    if (ledger_run(image, sizeof image, list, sizeof list, 0, sizeof list, replies, sizeof replies) != LEDGER_ACCEPTED) return 1;
    print(replies);
    return 0;
}
