/* Questions with one answer, of one number or several. A take that is not opened or has vanished gives NULL. */
#include "extension.h"

FUNCTION(tl_offer) {
    struct store_bytes image = BYTES(0);
    uint8_t refusal;
    uint16_t parcel = ledger_offer(image.at, image.length, NUMBER(1), &refusal);
    if (not_live(refusal, image) || parcel == LEDGER_NONE) PG_RETURN_NULL();
    PG_RETURN_INT32(parcel);
}

FUNCTION(tl_smallest) {
    struct store_bytes image = BYTES(0);
    uint8_t refusal;
    uint16_t volume = ledger_smallest_group(image.at, image.length, NUMBER(1), &refusal);
    if (not_live(refusal, image) || volume == 0) PG_RETURN_NULL();
    PG_RETURN_INT32(volume);
}

FUNCTION(tl_all_heard_frozen) {
    struct store_bytes image = BYTES(0);
    uint8_t refusal, yes = ledger_all_heard_stable(image.at, image.length, NUMBER(1), &refusal);
    if (not_live(refusal, image)) PG_RETURN_NULL();
    PG_RETURN_BOOL(yes != 0);
}

FUNCTION(tl_ready_count) {
    struct store_bytes image = BYTES(0);
    uint8_t refusal;
    size_t volumes = ledger_ready_count(image.at, image.length, NUMBER(1), &refusal);
    refuse_image(refusal, image);
    PG_RETURN_INT32((int32)volumes);
}

FUNCTION(tl_show) {
    struct store_bytes image = BYTES(0);
    uint8_t refusal;
    struct ledger_part part = ledger_show(image.at, image.length, NUMBER(1), &refusal);
    if (refusal == LEDGER_NOT_WAITING) PG_RETURN_NULL();
    refuse_image(refusal, image);
    PG_RETURN_BYTEA_P(piece(image.at + part.offset, part.length));
}

FUNCTION(tl_independent) {
    struct store_bytes image = BYTES(0), first = BYTES(1), second = BYTES(2);
    uint8_t refusal, yes = looking_independent(image.at, image.length, first.at, first.length, second.at, second.length,
                                               &refusal);
    refuse_image(refusal, image);
    PG_RETURN_BOOL(yes != 0);
}

FUNCTION(tl_actor) {
    struct store_bytes image = BYTES(0), step = BYTES(1);
    uint8_t refusal;
    struct ledger_acting acting = ledger_actor(image.at, image.length, step.at, step.length, &refusal);
    int take = 0;
    refuse_image(refusal, image);
    if (acting.kind != LEDGER_ONE_TRANSACTOR) PG_RETURN_NULL();
    while (acting.takes >> take > 1) take++;
    PG_RETURN_INT32(take);
}

/* Where an image fails the form first: no refusal, whatever the bytes are. */
FUNCTION(tl_fault) {
    struct store_bytes image = BYTES(0);
    size_t at;
    uint8_t clause, refusal = ledger_fault(image.at, image.length, &at, &clause);
    bool nowhere = refusal != LEDGER_ILL_FORMED, nulls[4] = {false, nowhere, nowhere, nowhere};
    Datum values[] = {Int32GetDatum(refusal), Int32GetDatum((int32)at), Int32GetDatum(clause),
                      CStringGetTextDatum(store_clause_word(clause))};
    PG_RETURN_DATUM(one_row(fcinfo, values, nulls));
}

FUNCTION(tl_acting) {
    struct store_bytes image = BYTES(0), step = BYTES(1);
    uint8_t refusal;
    struct ledger_acting acting = ledger_actor(image.at, image.length, step.at, step.length, &refusal);
    bool nulls[2] = {false};
    refuse_image(refusal, image);
    Datum values[] = {CStringGetTextDatum(store_actor_word((unsigned)acting.kind)), Int32GetDatum((int32)acting.takes)};
    PG_RETURN_DATUM(one_row(fcinfo, values, nulls));
}

FUNCTION(tl_dependents) {
    struct store_bytes image = BYTES(0);
    uint8_t refusal;
    struct ledger_resting d = ledger_dependents(image.at, image.length, NUMBER(1), &refusal);
    bool nulls[4] = {false};
    if (not_live(refusal, image)) PG_RETURN_NULL();
    Datum values[] = {Int32GetDatum(d.resting), Int32GetDatum(d.through), Int32GetDatum(d.unfinished),
                      Int32GetDatum(d.carried)};
    PG_RETURN_DATUM(one_row(fcinfo, values, nulls));
}

FUNCTION(tl_obstacle) {
    struct store_bytes image = BYTES(0);
    uint8_t refusal;
    struct ledger_reason o = ledger_obstacle(image.at, image.length, NUMBER(1), &refusal);
    bool nulls[4] = {false};
    refuse_image(refusal, image);
    Datum values[] = {Int32GetDatum(o.kind), Int32GetDatum(o.transactor), Int32GetDatum(o.ground),
                      CStringGetTextDatum(store_obstacle_word(o.kind))};
    PG_RETURN_DATUM(one_row(fcinfo, values, nulls));
}

FUNCTION(tl_impediment) {
    struct store_bytes image = BYTES(0);
    uint8_t refusal;
    struct ledger_cause m = ledger_impediment(image.at, image.length, NUMBER(1), &refusal);
    bool nulls[5] = {false};
    if (not_live(refusal, image)) PG_RETURN_NULL();
    Datum values[] = {Int32GetDatum(m.kind), Int32GetDatum(m.transactor), Int32GetDatum(m.ground), Int32GetDatum(m.next),
                      CStringGetTextDatum(store_impediment_word(m.kind))};
    PG_RETURN_DATUM(one_row(fcinfo, values, nulls));
}

FUNCTION(tl_worst_window) {
    struct store_bytes replies = BYTES(0);
    uint8_t refusal;
    struct ledger_window w = ledger_worst_window(replies.at, replies.length, NUMBER(1), &refusal);
    bool nulls[2] = {false};
    refuse(refusal);
    Datum values[] = {Int32GetDatum((int32)w.count), Int32GetDatum((int32)w.place)};
    PG_RETURN_DATUM(one_row(fcinfo, values, nulls));
}
