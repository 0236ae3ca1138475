/* Functions with a row for each of several things: ledger_play, ledger_takes, ledger_parcels, ledger_marks, ledger_plan,
 * ledger_diff. */
#include "extension.h"

#include "utils/memutils.h"
#include "utils/tuplestore.h"

enum { MOST_COLUMNS = 12 };

/* One row of the answer. */
static void put(FunctionCallInfo info, Datum *values, bool *nulls) {
    ReturnSetInfo *set = (ReturnSetInfo *)info->resultinfo;
    tuplestore_putvalues(set->setResult, set->setDesc, values, nulls);
    CHECK_FOR_INTERRUPTS();
}

static Datum word(const char *text) { return CStringGetTextDatum(text); }

static void play_row(FunctionCallInfo info, struct store_bytes list, const uint8_t *replies, struct store_played played,
                     size_t i) {
    const uint8_t *reply = replies + LEDGER_STEP * i;
    uint8_t line[NOTATION_LINE];
    bool nulls[MOST_COLUMNS] = {false};
    size_t step = notation_step(list.at, list.length, i, line, sizeof line).length;
    Datum values[MOST_COLUMNS] = {Int32GetDatum((int32)i), PointerGetDatum(line_text(line, step))};
    values[2] = Int32GetDatum((int32)ledger_reply_outcome(reply));
    values[3] = Int32GetDatum((int32)ledger_reply_transactor(reply));
    values[4] = Int32GetDatum((int32)ledger_reply_message(reply));
    values[5] = Int64GetDatum(ledger_reply_value(reply));
    values[6] = PointerGetDatum(line_text(
        line, notation_reply(list.at, list.length, replies, list.length, i, line, sizeof line).length));
    values[7] = word(store_actor_word(played.kind));
    values[8] = Int32GetDatum(played.takes);
    values[9] = Int32GetDatum(played.opened);
    nulls[9] = played.opened == STORE_NONE;
    values[10] = PointerGetDatum(piece(list.at + LEDGER_STEP * i, LEDGER_STEP));
    values[11] = PointerGetDatum(piece(reply, LEDGER_STEP));
    put(info, values, nulls);
}

FUNCTION(tl_play) {
    struct store_bytes image = BYTES(0), list = BYTES(1);
    size_t steps = list.length / LEDGER_STEP;
    uint8_t *replies = palloc(list.length + 1);
    struct store_played *played = palloc((steps + 1) * sizeof *played);
    refuse_image(store_play(within(piece(image.at, image.length)), image.length, list, replies, played), image);
    InitMaterializedSRF(fcinfo, 0);
    MemoryContext row = AllocSetContextCreate(CurrentMemoryContext, "a row of ledger_play", ALLOCSET_SMALL_SIZES);
    MemoryContext whole = MemoryContextSwitchTo(row);
    for (size_t i = 0; i < steps; i++) {
        play_row(fcinfo, list, replies, played[i], i);
        MemoryContextReset(row); /* a million rows take no more memory than one */
    }
    MemoryContextSwitchTo(whole);
    return (Datum)0;
}

FUNCTION(tl_takes) {
    struct store_bytes image = BYTES(0);
    refuse_image(store_form(image), image);
    InitMaterializedSRF(fcinfo, 0);
    for (size_t t = 0; t < store_opened(image.at); t++) {
        struct store_take take = store_take(image.at, t);
        struct store_mark own = store_mark(image.at, 3 * t, t);
        char lives[6 * LEDGER_CHECKPOINTS + 1];
        uint8_t refusal;
        uint16_t offer = ledger_offer(image.at, image.length, t, &refusal);
        bool gone = refusal != 0, nulls[9] = {false, false, gone, gone, gone, gone, gone, gone, offer == LEDGER_NONE};
        store_lives(&own, lives);
        Datum values[9] = {Int32GetDatum((int32)t), word(store_status_word(take.status)), Int64GetDatum(take.text),
                           Int64GetDatum(take.saved), BoolGetDatum(own.frozen), Int32GetDatum((int32)own.life),
                           Int32GetDatum((int32)own.signings), word(lives), Int32GetDatum(offer)};
        put(fcinfo, values, nulls);
    }
    return (Datum)0;
}

FUNCTION(tl_parcels) {
    struct store_bytes image = BYTES(0);
    bool nulls[3] = {false};
    refuse_image(store_form(image), image);
    InitMaterializedSRF(fcinfo, 0);
    for (size_t k = 0; k < LEDGER_MESSAGES && store_parcel(image.at, k).waiting; k++) {
        struct store_parcel parcel = store_parcel(image.at, k);
        Datum values[3] = {Int32GetDatum((int32)parcel.number), Int32GetDatum((int32)parcel.addressee),
                           Int64GetDatum(parcel.text)};
        put(fcinfo, values, nulls);
    }
    return (Datum)0;
}

FUNCTION(tl_marks) {
    struct store_bytes image = BYTES(0);
    size_t parcels = 3 * LEDGER_TRANSACTORS;
    bool nulls[6] = {false};
    refuse_image(store_form(image), image);
    InitMaterializedSRF(fcinfo, 0);
    for (size_t i = 0; i < STORE_MAPS * LEDGER_TRANSACTORS; i++) {
        size_t map = i / LEDGER_TRANSACTORS, of = i % LEDGER_TRANSACTORS;
        struct store_mark mark = store_mark(image.at, map, of);
        char lives[6 * LEDGER_CHECKPOINTS + 1];
        if (!mark.present) continue;
        size_t holder = map < parcels ? map / 3 : store_parcel(image.at, map - parcels).number;
        store_lives(&mark, lives);
        Datum values[6] = {word(store_map_word(map < parcels ? map % 3 : 3)), Int32GetDatum((int32)holder),
                           Int32GetDatum((int32)of), BoolGetDatum(mark.frozen), Int32GetDatum((int32)mark.life),
                           word(lives)};
        put(fcinfo, values, nulls);
    }
    return (Datum)0;
}

FUNCTION(tl_plan) {
    struct store_bytes image = BYTES(0);
    uint8_t list[LEDGER_PLAN], line[NOTATION_LINE], refusal;
    bool nulls[3] = {false};
    size_t steps = ledger_plan(image.at, image.length, NUMBER(1), list, sizeof list, &refusal);
    bool gone = not_live(refusal, image);
    InitMaterializedSRF(fcinfo, 0);
    for (size_t i = 0; !gone && i < steps; i++) {
        size_t length = notation_step(list, sizeof list, i, line, sizeof line).length;
        Datum values[3] = {Int32GetDatum((int32)i), PointerGetDatum(line_text(line, length)),
                           PointerGetDatum(piece(list + LEDGER_STEP * i, LEDGER_STEP))};
        put(fcinfo, values, nulls);
    }
    return (Datum)0;
}

static void diff_row(FunctionCallInfo info, const uint8_t *first, const uint8_t *second, size_t at) {
    struct looking_place field = looking_field(at);
    size_t width = store_width(at);
    bool of_mark = field.kind >= LOOKING_FIELD_FLAGS, of_any = field.kind >= LOOKING_FIELD_STATUS;
    bool of_take = of_any && (of_mark ? field.map < 3 : field.kind <= LOOKING_FIELD_SAVED);
    bool nulls[9] = {false, !of_take, of_take || !of_any, !of_mark, !of_mark, field.kind != LOOKING_FIELD_CHECKPOINT};
    Datum values[9] = {word(store_field_word(field.kind)), Int32GetDatum(field.holder), Int32GetDatum(field.holder),
                       word(store_map_word(field.map)), Int32GetDatum(field.ground), Int32GetDatum(field.entry),
                       Int64GetDatum(store_value(first, at, width)), Int64GetDatum(store_value(second, at, width)),
                       Int32GetDatum((int32)at)};
    put(info, values, nulls);
}

FUNCTION(tl_diff) {
    struct store_bytes first = BYTES(0), second = BYTES(1);
    refuse_image(store_form(first), first);
    refuse_image(store_form(second), second);
    InitMaterializedSRF(fcinfo, 0);
    for (size_t at = 0; at < LEDGER_IMAGE; at += store_width(at))
        if (memcmp(first.at + at, second.at + at, store_width(at)) != 0) diff_row(fcinfo, first.at, second.at, at);
    return (Datum)0;
}
