/* The fields of a well-formed image. Where each stands is learnt from the library (looking_field); how flags and numbers
 * are packed in their bytes is docs/RULES.md, section 7. */
#include <stdio.h>

#include "store.h"

static struct {
    uint16_t opened;
    uint16_t status[LEDGER_TRANSACTORS], text[LEDGER_TRANSACTORS], saved[LEDGER_TRANSACTORS];
    uint16_t addressee[LEDGER_MESSAGES], number[LEDGER_MESSAGES], content[LEDGER_MESSAGES];
    uint16_t flags[STORE_MAPS][LEDGER_TRANSACTORS], life[STORE_MAPS][LEDGER_TRANSACTORS];
    uint16_t entry[STORE_MAPS][LEDGER_TRANSACTORS][LEDGER_CHECKPOINTS];
    uint8_t width[LEDGER_IMAGE];
} learnt;

static size_t map_of(struct looking_place f) {
    return f.map == 3 ? 3 * (size_t)LEDGER_TRANSACTORS + f.holder : 3 * (size_t)f.holder + f.map;
}

static void note(struct looking_place f, uint16_t at) {
    switch (f.kind) {
    case LOOKING_FIELD_OPENED: learnt.opened = at; break;
    case LOOKING_FIELD_STATUS: learnt.status[f.holder] = at; break;
    case LOOKING_FIELD_VALUE: learnt.text[f.holder] = at; break;
    case LOOKING_FIELD_SAVED: learnt.saved[f.holder] = at; break;
    case LOOKING_FIELD_ADDRESSEE: learnt.addressee[f.holder] = at; break;
    case LOOKING_FIELD_NUMBER: learnt.number[f.holder] = at; break;
    case LOOKING_FIELD_CONTENT: learnt.content[f.holder] = at; break;
    case LOOKING_FIELD_FLAGS: learnt.flags[map_of(f)][f.ground] = at; break;
    case LOOKING_FIELD_INCARNATION: learnt.life[map_of(f)][f.ground] = at; break;
    case LOOKING_FIELD_CHECKPOINT: learnt.entry[map_of(f)][f.ground][f.entry] = at; break;
    default: break;
    }
}

void store_learn(void) {
    size_t first = 0;
    for (size_t at = 0; at < LEDGER_IMAGE; at++) {
        struct looking_place f = looking_field(at);
        if (f.byte == 0) {
            first = at;
            note(f, (uint16_t)at);
        }
        learnt.width[at] = 0;
        learnt.width[first] = (uint8_t)(at - first + 1);
    }
}

size_t store_width(size_t at) { return at < LEDGER_IMAGE ? learnt.width[at] : 0; }

uint32_t store_value(const uint8_t *image, size_t at, size_t width) {
    uint32_t value = 0;
    for (size_t i = 0; i < width; i++) value = value << 8 | image[at + i];
    return value;
}

unsigned store_opened(const uint8_t *image) { return image[learnt.opened]; }

struct store_take store_take(const uint8_t *image, size_t take) {
    struct store_take t = {image[learnt.status[take]] >> 6, store_value(image, learnt.text[take], 4),
                           store_value(image, learnt.saved[take], 4)};
    return t;
}

struct store_parcel store_parcel(const uint8_t *image, size_t place) {
    unsigned head = image[learnt.addressee[place]];
    struct store_parcel p = {head >> 7, head & 15, store_value(image, learnt.number[place], 2),
                             store_value(image, learnt.content[place], 4)};
    return p;
}

struct store_mark store_mark(const uint8_t *image, size_t map, size_t of) {
    unsigned flags = image[learnt.flags[map][of]];
    struct store_mark m = {flags >> 7, flags >> 6 & 1, store_value(image, learnt.life[map][of], 2), flags & 15, {0}};
    for (size_t i = 0; i < m.signings; i++) m.list[i] = store_value(image, learnt.entry[map][of][i], 2);
    return m;
}

void store_lives(const struct store_mark *mark, char out[6 * LEDGER_CHECKPOINTS + 1]) {
    size_t n = 0;
    out[0] = 0;
    for (size_t i = 0; i < mark->signings; i++)
        n += (size_t)snprintf(out + n, 7, i ? ",%u" : "%u", mark->list[i] & 65535u);
}
