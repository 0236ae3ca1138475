/* Sentences: the words are the library's where it has them, else the documents' (docs/RULES.md, sections 5 and 9). */
#include <stdio.h>
#include <string.h>

#include "store.h"

#define WORD(list, i) ((i) < sizeof(list) / sizeof *(list) ? (list)[i] : "unknown")

void store_sentence(unsigned refusal, char out[STORE_SENTENCE]) {
    uint8_t words[NOTATION_LINE];
    struct notation_given given = notation_refusal_text((uint8_t)refusal, words, sizeof words);
    snprintf(out, STORE_SENTENCE, "refused %u: %.*s", refusal, (int)given.length, (const char *)words);
}

void store_sentence_of(unsigned refusal, struct store_bytes image, char out[STORE_SENTENCE]) {
    size_t at, length;
    uint8_t clause;
    store_sentence(refusal, out);
    if (refusal != LEDGER_ILL_FORMED || !image.at) return;
    if (ledger_fault(image.at, image.length, &at, &clause) != LEDGER_ILL_FORMED) return; /* of the old form */
    length = strlen(out);
    snprintf(out + length, STORE_SENTENCE - length, ", at byte %zu by clause %u: %s", at, clause, store_clause_word(clause));
}

void store_fault(size_t line, size_t column, uint8_t expected, char out[STORE_SENTENCE]) {
    uint8_t words[NOTATION_LINE];
    struct notation_given given = notation_expected_text(expected, words, sizeof words);
    snprintf(out, STORE_SENTENCE, "%zu:%zu: expected %.*s", line, column, (int)given.length, (const char *)words);
}

const char *store_status_word(unsigned status) {
    static const char *const words[] = {"unused", "idle", "at work", "vanished"};
    return WORD(words, status);
}

const char *store_obstacle_word(unsigned kind) {
    static const char *const words[] = {"nothing", "not frozen", "outside", "withdrawn"};
    return WORD(words, kind);
}

const char *store_impediment_word(unsigned kind) {
    static const char *const words[] = {"nothing", "hopeless", "exhausted", "not frozen"};
    return WORD(words, kind);
}

const char *store_actor_word(unsigned kind) {
    static const char *const words[] = {"nobody", "house", "take", "volume"};
    return WORD(words, kind);
}

const char *store_map_word(unsigned map) {
    static const char *const words[] = {"state", "creation", "behaviour", "parcel"};
    return WORD(words, map);
}

const char *store_field_word(unsigned kind) {
    static const char *const words[] = {
        "past the image", "takes opened", "next parcel", "zero", "limit of takes", "limit of parcels",
        "limit of signings", "zero", "status", "text", "saved text", "addressee", "parcel number", "parcel text",
        "mark", "life", "signing"};
    return WORD(words, kind);
}

const char *store_clause_word(unsigned clause) {
    static const char *const words[] = {
        "nothing", "byte 3 or 7 is not zero", "a limit is out of range",
        "a take's place has a zero bit set, or is past the takes opened and not zero",
        "a parcel's place has a zero bit set, or is free and not zero",
        "a map has a zero bit or an unused byte that is not zero, a mark of a take not opened, or a list over the limit",
        "more takes are opened, or more parcels wait, than the limits allow", "an opened take has status 0",
        "a live take has no mark of its own", "a take that was never signed has a saved text",
        "an idle take has a behaviour map", "a vanished take has more than its status", "parcels stand with gaps",
        "a parcel has no higher number than the one before it", "a parcel is at or above the next number",
        "a parcel is addressed to a take that is not opened"};
    return WORD(words, clause);
}
