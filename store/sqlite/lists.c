/* Table-valued functions with a row for each of several things: ledger_play, ledger_takes, ledger_parcels, ledger_marks,
 * ledger_plan, ledger_diff. */
#include <string.h>

#include "extension.h"
SQLITE_EXTENSION_INIT3

static void line(sqlite3_context *context, const uint8_t *at, size_t length) {
    if (length > 0 && at[length - 1] == '\n') length--;
    sqlite3_result_text(context, (const char *)at, (int)length, SQLITE_TRANSIENT);
}

static void step_line(const struct rows *rows, size_t row, sqlite3_context *context) {
    uint8_t text[NOTATION_LINE];
    line(context, text, notation_step(rows->list, rows->list_length, row, text, sizeof text).length);
}

/* ---- ledger_play(image, steps) */

static int play_fill(struct rows *rows, sqlite3_value **values, char **wrong) {
    struct store_bytes image, list;
    int status = value_blob(values[0], "image", &image, wrong);
    if (status == SQLITE_OK) status = value_blob(values[1], "steps", &list, wrong);
    if (status == SQLITE_OK) status = copied(image, &rows->image);
    if (status == SQLITE_OK) status = copied(list, &rows->list);
    if (status != SQLITE_OK) return status;
    rows->list_length = list.length;
    rows->count = list.length / LEDGER_STEP;
    rows->replies = sqlite3_malloc64(list.length + 1);
    rows->played = sqlite3_malloc64((rows->count + 1) * sizeof *rows->played);
    if (!rows->replies || !rows->played) return SQLITE_NOMEM;
    return image_refused(store_play(rows->image, image.length, list, rows->replies, rows->played), image, wrong);
}

static void play_column(const struct rows *rows, size_t row, int column, sqlite3_context *context) {
    const uint8_t *reply = rows->replies + LEDGER_STEP * row;
    struct store_played played = rows->played[row];
    uint8_t text[NOTATION_LINE];
    switch (column) {
    case 0: sqlite3_result_int64(context, (sqlite3_int64)row); break;
    case 1: step_line(rows, row, context); break;
    case 2: sqlite3_result_int64(context, ledger_reply_outcome(reply)); break;
    case 3: sqlite3_result_int64(context, ledger_reply_transactor(reply)); break;
    case 4: sqlite3_result_int64(context, ledger_reply_message(reply)); break;
    case 5: sqlite3_result_int64(context, ledger_reply_value(reply)); break;
    case 6:
        line(context, text, notation_reply(rows->list, rows->list_length, rows->replies, rows->list_length, row, text,
                                           sizeof text).length);
        break;
    case 7: sqlite3_result_text(context, store_actor_word(played.kind), -1, SQLITE_STATIC); break;
    case 8: sqlite3_result_int64(context, played.takes); break;
    case 9: if (played.opened != STORE_NONE) sqlite3_result_int64(context, played.opened); break;
    case 10: sqlite3_result_blob(context, rows->list + LEDGER_STEP * row, LEDGER_STEP, SQLITE_TRANSIENT); break;
    default: sqlite3_result_blob(context, reply, LEDGER_STEP, SQLITE_TRANSIENT); break;
    }
}

/* ---- ledger_takes(image) */

static int takes_fill(struct rows *rows, sqlite3_value **values, char **wrong) {
    int status = copied_image(values[0], &rows->image, wrong);
    if (status == SQLITE_OK) rows->count = store_opened(rows->image);
    return status;
}

static void takes_column(const struct rows *rows, size_t row, int column, sqlite3_context *context) {
    struct store_take take = store_take(rows->image, row);
    struct store_mark own = store_mark(rows->image, 3 * row, row);
    char lives[6 * LEDGER_CHECKPOINTS + 1];
    uint8_t refusal;
    uint16_t offer = ledger_offer(rows->image, LEDGER_IMAGE, row, &refusal);
    if (column > 1 && refusal != 0) return; /* vanished: NULL */
    switch (column) {
    case 0: sqlite3_result_int64(context, (sqlite3_int64)row); break;
    case 1: sqlite3_result_text(context, store_status_word(take.status), -1, SQLITE_STATIC); break;
    case 2: sqlite3_result_int64(context, take.text); break;
    case 3: sqlite3_result_int64(context, take.saved); break;
    case 4: sqlite3_result_int64(context, own.frozen); break;
    case 5: sqlite3_result_int64(context, own.life); break;
    case 6: sqlite3_result_int64(context, own.signings); break;
    case 7:
        store_lives(&own, lives);
        sqlite3_result_text(context, lives, -1, SQLITE_TRANSIENT);
        break;
    default: if (offer != LEDGER_NONE) sqlite3_result_int64(context, offer); break;
    }
}

/* ---- ledger_parcels(image) */

static int parcels_fill(struct rows *rows, sqlite3_value **values, char **wrong) {
    int status = copied_image(values[0], &rows->image, wrong);
    while (status == SQLITE_OK && rows->count < LEDGER_MESSAGES && store_parcel(rows->image, rows->count).waiting)
        rows->count++;
    return status;
}

static void parcels_column(const struct rows *rows, size_t row, int column, sqlite3_context *context) {
    struct store_parcel parcel = store_parcel(rows->image, row);
    sqlite3_result_int64(context, column == 0 ? parcel.number : column == 1 ? parcel.addressee : parcel.text);
}

/* ---- ledger_marks(image): a row's index is 16 times its map, and the take that the mark is of */

static int marks_fill(struct rows *rows, sqlite3_value **values, char **wrong) {
    int status = copied_image(values[0], &rows->image, wrong);
    if (status != SQLITE_OK) return status;
    rows->index = sqlite3_malloc(STORE_MAPS * LEDGER_TRANSACTORS * sizeof *rows->index);
    if (!rows->index) return SQLITE_NOMEM;
    for (uint16_t i = 0; i < STORE_MAPS * LEDGER_TRANSACTORS; i++)
        if (store_mark(rows->image, i / LEDGER_TRANSACTORS, i % LEDGER_TRANSACTORS).present)
            rows->index[rows->count++] = i;
    return SQLITE_OK;
}

static void marks_column(const struct rows *rows, size_t row, int column, sqlite3_context *context) {
    size_t map = rows->index[row] / LEDGER_TRANSACTORS, of = rows->index[row] % LEDGER_TRANSACTORS;
    size_t parcels = 3 * LEDGER_TRANSACTORS;
    struct store_mark mark = store_mark(rows->image, map, of);
    char lives[6 * LEDGER_CHECKPOINTS + 1];
    switch (column) {
    case 0: sqlite3_result_text(context, store_map_word(map < parcels ? map % 3 : 3), -1, SQLITE_STATIC); break;
    case 1:
        sqlite3_result_int64(context, map < parcels ? (sqlite3_int64)(map / 3) : store_parcel(rows->image, map - parcels).number);
        break;
    case 2: sqlite3_result_int64(context, (sqlite3_int64)of); break;
    case 3: sqlite3_result_int64(context, mark.frozen); break;
    case 4: sqlite3_result_int64(context, mark.life); break;
    default:
        store_lives(&mark, lives);
        sqlite3_result_text(context, lives, -1, SQLITE_TRANSIENT);
        break;
    }
}

/* ---- ledger_plan(image, take): no row of a take that is not live, or where nothing can be done */

static int plan_fill(struct rows *rows, sqlite3_value **values, char **wrong) {
    struct store_bytes image;
    size_t take;
    uint8_t refusal;
    int status = value_blob(values[0], "image", &image, wrong);
    if (status == SQLITE_OK) status = value_number(values[1], "take", &take, wrong);
    if (status != SQLITE_OK) return status;
    if (!(rows->list = sqlite3_malloc(LEDGER_PLAN))) return SQLITE_NOMEM;
    rows->count = ledger_plan(image.at, image.length, take, rows->list, LEDGER_PLAN, &refusal);
    rows->list_length = LEDGER_STEP * rows->count;
    return not_live(refusal) ? SQLITE_OK : image_refused(refusal, image, wrong);
}

static void plan_column(const struct rows *rows, size_t row, int column, sqlite3_context *context) {
    if (column == 0) sqlite3_result_int64(context, (sqlite3_int64)row);
    else if (column == 1) step_line(rows, row, context);
    else sqlite3_result_blob(context, rows->list + LEDGER_STEP * row, LEDGER_STEP, SQLITE_TRANSIENT);
}

/* ---- ledger_diff(image, image): a row for each field that differs; its index is the field's first byte */

static int diff_fill(struct rows *rows, sqlite3_value **values, char **wrong) {
    int status = copied_image(values[0], &rows->image, wrong);
    if (status == SQLITE_OK) status = copied_image(values[1], &rows->other, wrong);
    if (status != SQLITE_OK) return status;
    rows->index = sqlite3_malloc(LEDGER_IMAGE * sizeof *rows->index);
    if (!rows->index) return SQLITE_NOMEM;
    for (size_t at = 0; at < LEDGER_IMAGE; at += store_width(at))
        if (memcmp(rows->image + at, rows->other + at, store_width(at)) != 0) rows->index[rows->count++] = (uint16_t)at;
    return SQLITE_OK;
}

static void diff_column(const struct rows *rows, size_t row, int column, sqlite3_context *context) {
    size_t at = rows->index[row], width = store_width(at);
    struct looking_place field = looking_field(at);
    int of_mark = field.kind >= LOOKING_FIELD_FLAGS, of_take = field.kind >= LOOKING_FIELD_STATUS &&
        (of_mark ? field.map < 3 : field.kind <= LOOKING_FIELD_SAVED);
    switch (column) {
    case 0: sqlite3_result_text(context, store_field_word(field.kind), -1, SQLITE_STATIC); break;
    case 1: if (of_take) sqlite3_result_int64(context, field.holder); break;
    case 2: if (!of_take && field.kind >= LOOKING_FIELD_STATUS) sqlite3_result_int64(context, field.holder); break;
    case 3: if (of_mark) sqlite3_result_text(context, store_map_word(field.map), -1, SQLITE_STATIC); break;
    case 4: if (of_mark) sqlite3_result_int64(context, field.ground); break;
    case 5: if (field.kind == LOOKING_FIELD_CHECKPOINT) sqlite3_result_int64(context, field.entry); break;
    case 6: sqlite3_result_int64(context, store_value(rows->image, at, width)); break;
    case 7: sqlite3_result_int64(context, store_value(rows->other, at, width)); break;
    default: sqlite3_result_int64(context, (sqlite3_int64)at); break;
    }
}

int add_lists(sqlite3 *db) {
    static const struct table tables[] = {
        {"ledger_play",
         "CREATE TABLE x(place INTEGER, step TEXT, outcome INTEGER, take INTEGER, parcel INTEGER, text INTEGER, reply TEXT,"
         " acts TEXT, takes INTEGER, opened INTEGER, packed BLOB, packed_reply BLOB, image HIDDEN, steps HIDDEN)",
         12, 2, 0, play_fill, play_column},
        {"ledger_takes",
         "CREATE TABLE x(take INTEGER, status TEXT, text INTEGER, saved INTEGER, frozen INTEGER, life INTEGER,"
         " signings INTEGER, signed TEXT, offer INTEGER, image HIDDEN)",
         9, 1, 0, takes_fill, takes_column},
        {"ledger_parcels", "CREATE TABLE x(parcel INTEGER, take INTEGER, text INTEGER, image HIDDEN)", 3, 1, 0,
         parcels_fill, parcels_column},
        {"ledger_marks",
         "CREATE TABLE x(map TEXT, holder INTEGER, take INTEGER, frozen INTEGER, life INTEGER, signed TEXT, image HIDDEN)",
         6, 1, 0, marks_fill, marks_column},
        {"ledger_plan", "CREATE TABLE x(place INTEGER, step TEXT, packed BLOB, image HIDDEN, take HIDDEN)", 3, 2, 0,
         plan_fill, plan_column},
        {"ledger_diff",
         "CREATE TABLE x(field TEXT, take INTEGER, parcel_place INTEGER, map TEXT, of_take INTEGER, entry INTEGER,"
         " before INTEGER, after INTEGER, at INTEGER, first HIDDEN, second HIDDEN)",
         9, 2, 0, diff_fill, diff_column}};
    return add_tables(db, tables, sizeof tables / sizeof *tables);
}
