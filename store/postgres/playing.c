/* ledger_version, ledger_begin, ledger_run, ledger_replies, ledger_thin, ledger_forward, ledger_back. */
#include "extension.h"

FUNCTION(tl_version) {
    uint32_t v = ledger_version();
    PG_RETURN_TEXT_P(cstring_to_text(psprintf("%u.%u.%u", v >> 16 & 255u, v >> 8 & 255u, v & 255u)));
}

FUNCTION(tl_begin) {
    bytea *image = room(LEDGER_IMAGE);
    refuse(ledger_begin(within(image), LEDGER_IMAGE, NUMBER(0), NUMBER(1), NUMBER(2)));
    PG_RETURN_BYTEA_P(image);
}

FUNCTION(tl_run) {
    struct store_bytes image = BYTES(0), list = BYTES(1);
    bytea *after = piece(image.at, image.length);
    refuse_image(store_run(within(after), image.length, list, NULL), image);
    PG_RETURN_BYTEA_P(after);
}

FUNCTION(tl_replies) {
    struct store_bytes image = BYTES(0), list = BYTES(1);
    bytea *replies = room(list.length);
    refuse_image(store_run(within(piece(image.at, image.length)), image.length, list, within(replies)), image);
    PG_RETURN_BYTEA_P(replies);
}

FUNCTION(tl_thin) {
    struct store_bytes image = BYTES(0), list = BYTES(1);
    bytea *out = room(list.length);
    unsigned refusal = 0;
    size_t kept = store_thin(within(piece(image.at, image.length)), image.length, list, within(out), &refusal);
    refuse_image(refusal, image);
    SET_VARSIZE(out, VARHDRSZ + kept);
    PG_RETURN_BYTEA_P(out);
}

FUNCTION(tl_forward) {
    struct store_bytes source = BYTES(0);
    bytea *target = room(LEDGER_IMAGE);
    refuse_image(ledger_forward(source.at, source.length, within(target), LEDGER_IMAGE), source);
    PG_RETURN_BYTEA_P(target);
}

FUNCTION(tl_back) {
    struct store_bytes source = BYTES(0);
    bytea *target = room(LEDGER_OLD_IMAGE);
    refuse_image(ledger_back(source.at, source.length, within(target), LEDGER_OLD_IMAGE), source);
    PG_RETURN_BYTEA_P(target);
}
