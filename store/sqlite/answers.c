/* Table-valued functions with one row, an answer of several numbers: ledger_fault, ledger_acting, ledger_dependents,
 * ledger_obstacle, ledger_impediment, ledger_worst_window. A take that is not opened or has vanished gives a row of NULLs. */
#include "extension.h"
SQLITE_EXTENSION_INIT3

static int asked(sqlite3_value **values, const char *what, struct store_bytes *image, size_t *number, char **wrong) {
    int status = value_blob(values[0], "image", image, wrong);
    return status == SQLITE_OK ? value_number(values[1], what, number, wrong) : status;
}

/* One row, with these numbers; or NULLs where the take is not live. */
static int one(struct rows *rows, unsigned refusal, struct store_bytes image, char **wrong) {
    rows->count = 1;
    rows->nothing = not_live(refusal);
    return rows->nothing ? SQLITE_OK : image_refused(refusal, image, wrong);
}

static void number_column(const struct rows *rows, size_t row, int column, sqlite3_context *context) {
    (void)row;
    sqlite3_result_int64(context, rows->number[column]);
}

/* Where an image fails the form first: no refusal, whatever the blob is. */
static int fault_fill(struct rows *rows, sqlite3_value **values, char **wrong) {
    struct store_bytes image;
    size_t at;
    uint8_t clause;
    int status = value_blob(values[0], "image", &image, wrong);
    if (status != SQLITE_OK) return status;
    rows->number[0] = ledger_fault(image.at, image.length, &at, &clause);
    rows->number[1] = (sqlite3_int64)at;
    rows->number[2] = clause;
    rows->count = 1;
    return SQLITE_OK;
}

static void fault_column(const struct rows *rows, size_t row, int column, sqlite3_context *context) {
    if (column > 0 && rows->number[0] != LEDGER_ILL_FORMED) return; /* nowhere: NULL */
    if (column == 3) sqlite3_result_text(context, store_clause_word((unsigned)rows->number[2]), -1, SQLITE_STATIC);
    else number_column(rows, row, column, context);
}

static int acting_fill(struct rows *rows, sqlite3_value **values, char **wrong) {
    struct store_bytes image, step;
    uint8_t refusal;
    int status = value_blob(values[0], "image", &image, wrong);
    if (status == SQLITE_OK) status = value_blob(values[1], "step", &step, wrong);
    if (status != SQLITE_OK) return status;
    struct ledger_acting acting = ledger_actor(image.at, image.length, step.at, step.length, &refusal);
    rows->number[0] = (sqlite3_int64)acting.kind;
    rows->number[1] = (sqlite3_int64)acting.takes;
    rows->count = 1;
    return image_refused(refusal, image, wrong);
}

static void acting_column(const struct rows *rows, size_t row, int column, sqlite3_context *context) {
    if (column == 0) sqlite3_result_text(context, store_actor_word((unsigned)rows->number[0]), -1, SQLITE_STATIC);
    else number_column(rows, row, column, context);
}

static int dependents_fill(struct rows *rows, sqlite3_value **values, char **wrong) {
    struct store_bytes image;
    size_t take;
    uint8_t refusal;
    int status = asked(values, "take", &image, &take, wrong);
    if (status != SQLITE_OK) return status;
    struct ledger_resting d = ledger_dependents(image.at, image.length, take, &refusal);
    rows->number[0] = d.resting;
    rows->number[1] = d.through;
    rows->number[2] = d.unfinished;
    rows->number[3] = d.carried;
    return one(rows, refusal, image, wrong);
}

static int obstacle_fill(struct rows *rows, sqlite3_value **values, char **wrong) {
    struct store_bytes image;
    size_t volume;
    uint8_t refusal;
    int status = asked(values, "volume", &image, &volume, wrong);
    if (status != SQLITE_OK) return status;
    struct ledger_reason o = ledger_obstacle(image.at, image.length, volume, &refusal);
    rows->number[0] = o.kind;
    rows->number[1] = o.transactor;
    rows->number[2] = o.ground;
    rows->count = 1;
    return image_refused(refusal, image, wrong);
}

static void obstacle_column(const struct rows *rows, size_t row, int column, sqlite3_context *context) {
    if (column == 3) sqlite3_result_text(context, store_obstacle_word((unsigned)rows->number[0]), -1, SQLITE_STATIC);
    else number_column(rows, row, column, context);
}

static int impediment_fill(struct rows *rows, sqlite3_value **values, char **wrong) {
    struct store_bytes image;
    size_t take;
    uint8_t refusal;
    int status = asked(values, "take", &image, &take, wrong);
    if (status != SQLITE_OK) return status;
    struct ledger_cause i = ledger_impediment(image.at, image.length, take, &refusal);
    rows->number[0] = i.kind;
    rows->number[1] = i.transactor;
    rows->number[2] = i.ground;
    rows->number[3] = i.next;
    return one(rows, refusal, image, wrong);
}

static void impediment_column(const struct rows *rows, size_t row, int column, sqlite3_context *context) {
    if (column == 4) sqlite3_result_text(context, store_impediment_word((unsigned)rows->number[0]), -1, SQLITE_STATIC);
    else number_column(rows, row, column, context);
}

static int window_fill(struct rows *rows, sqlite3_value **values, char **wrong) {
    struct store_bytes replies;
    size_t width;
    uint8_t refusal;
    int status = value_blob(values[0], "replies", &replies, wrong);
    if (status == SQLITE_OK) status = value_number(values[1], "width", &width, wrong);
    if (status != SQLITE_OK) return status;
    struct ledger_window w = ledger_worst_window(replies.at, replies.length, width, &refusal);
    rows->number[0] = (sqlite3_int64)w.count;
    rows->number[1] = (sqlite3_int64)w.place;
    rows->count = 1;
    return value_refused(refusal, wrong);
}

int add_answers(sqlite3 *db) {
    static const struct table tables[] = {
        {"ledger_fault", "CREATE TABLE x(refusal INTEGER, at INTEGER, clause INTEGER, reason TEXT, image HIDDEN)", 4, 1, 1,
         fault_fill, fault_column},
        {"ledger_acting", "CREATE TABLE x(acts TEXT, takes INTEGER, image HIDDEN, step HIDDEN)", 2, 2, 1, acting_fill,
         acting_column},
        {"ledger_dependents",
         "CREATE TABLE x(resting INTEGER, through INTEGER, unfinished INTEGER, carried INTEGER, image HIDDEN, take HIDDEN)",
         4, 2, 1, dependents_fill, number_column},
        {"ledger_obstacle",
         "CREATE TABLE x(kind INTEGER, take INTEGER, ground INTEGER, reason TEXT, image HIDDEN, volume HIDDEN)", 4, 2, 1,
         obstacle_fill, obstacle_column},
        {"ledger_impediment",
         "CREATE TABLE x(kind INTEGER, in_the_way INTEGER, ground INTEGER, next INTEGER, reason TEXT, image HIDDEN,"
         " take HIDDEN)",
         5, 2, 1, impediment_fill, impediment_column},
        {"ledger_worst_window", "CREATE TABLE x(count INTEGER, place INTEGER, replies HIDDEN, width HIDDEN)", 2, 2, 1,
         window_fill, number_column}};
    return add_tables(db, tables, sizeof tables / sizeof *tables);
}
