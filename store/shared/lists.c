/* Lists of any length over calls that take 1,024 steps. */
#include <string.h>

#include "store.h"

static size_t part_end(size_t at, size_t length) {
    return length - at > LEDGER_LONGEST ? at + LEDGER_LONGEST : length;
}

unsigned store_run(uint8_t *image, size_t image_length, struct store_bytes list, uint8_t *replies) {
    uint8_t unread[LEDGER_LONGEST];
    size_t at = 0;
    if (list.length % LEDGER_STEP != 0) /* no whole steps: the library says so, before it looks at the image's form */
        return ledger_run(image, image_length, list.at, list.length, 0, list.length, unread, 0);
    do {
        size_t end = part_end(at, list.length);
        uint8_t *to = replies ? replies + at : unread;
        unsigned refusal = ledger_run(image, image_length, list.at, list.length, at, end, to, end - at);
        if (refusal != 0) return refusal;
        at = end;
    } while (at < list.length);
    return 0;
}

unsigned store_play(uint8_t *image, size_t image_length, struct store_bytes list, uint8_t *replies,
                    struct store_played *played) {
    struct store_bytes none = {list.at, 0};
    unsigned refusal = store_run(image, image_length, list.length % LEDGER_STEP ? list : none, NULL);
    for (size_t at = 0; refusal == 0 && at < list.length; at += LEDGER_STEP) {
        uint8_t wrong;
        struct ledger_acting acting = ledger_actor(image, image_length, list.at + at, LEDGER_STEP, &wrong);
        unsigned before = store_opened(image);
        refusal = wrong ? wrong : ledger_run(image, image_length, list.at, list.length, at, at + LEDGER_STEP,
                                             replies + at, LEDGER_STEP);
        played->kind = (uint8_t)acting.kind;
        played->takes = (uint16_t)acting.takes;
        played->opened = (uint8_t)(store_opened(image) > before ? before : STORE_NONE);
        played++;
    }
    return refusal;
}

size_t store_thin(uint8_t *image, size_t image_length, struct store_bytes list, uint8_t *out, unsigned *refusal) {
    size_t kept = 0, at = 0;
    uint8_t wrong;
    if (list.length % LEDGER_STEP != 0) {
        *refusal = store_run(image, image_length, list, NULL);
        return 0;
    }
    do {
        size_t end = part_end(at, list.length);
        uint8_t shorter[LEDGER_LONGEST];
        size_t steps = ledger_thin(image, image_length, list.at, list.length, at, end, shorter, end - at, &wrong);
        struct store_bytes part = {list.at + at, end - at};
        *refusal = wrong ? wrong : store_run(image, image_length, part, NULL);
        if (*refusal != 0) return 0;
        memcpy(out + kept, shorter, LEDGER_STEP * steps);
        kept += LEDGER_STEP * steps;
        at = end;
    } while (at < list.length);
    return kept;
}

unsigned store_form(struct store_bytes image) {
    uint8_t refusal;
    ledger_show(image.at, image.length, LEDGER_NONE, &refusal); /* no parcel has that number: 24 of a good image */
    return refusal == LEDGER_NOT_WAITING ? 0 : refusal;
}
