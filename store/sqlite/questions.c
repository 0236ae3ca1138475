/* Questions with one number for an answer: ledger_actor, ledger_offer, ledger_smallest, ledger_ready_count,
 * ledger_all_heard_frozen, ledger_independent, ledger_show. A take that is not opened or has vanished gives NULL. */
#include "extension.h"
SQLITE_EXTENSION_INIT3

/* Image and number of a question. */
static int asked(sqlite3_value **values, const char *what, struct store_bytes *image, size_t *number, char **wrong) {
    int status = value_blob(values[0], "image", image, wrong);
    return status == SQLITE_OK ? value_number(values[1], what, number, wrong) : status;
}

/* The end of a question about a take: an answer, NULL for none and for takes that are not live, or what is wrong. */
static void answer(sqlite3_context *context, int status, unsigned refusal, sqlite3_value *image, char *wrong, int there,
                   sqlite3_int64 number) {
    struct store_bytes bytes = {NULL, 0};
    if (status == SQLITE_OK && not_live(refusal)) return;
    if (status == SQLITE_OK && refusal != 0 && (status = value_blob(image, "image", &bytes, &wrong)) == SQLITE_OK)
        status = image_refused(refusal, bytes, &wrong);
    if (status != SQLITE_OK) fail_with(context, status, wrong);
    else if (there) sqlite3_result_int64(context, number);
}

static void offer(sqlite3_context *context, int count, sqlite3_value **values) {
    struct store_bytes image;
    size_t take, parcel = LEDGER_NONE;
    uint8_t refusal = 0;
    char *wrong = NULL;
    if (any_null(count, values)) return;
    int status = asked(values, "take", &image, &take, &wrong);
    if (status == SQLITE_OK) parcel = ledger_offer(image.at, image.length, take, &refusal);
    answer(context, status, refusal, values[0], wrong, parcel != LEDGER_NONE, (sqlite3_int64)parcel);
}

static void smallest(sqlite3_context *context, int count, sqlite3_value **values) {
    struct store_bytes image;
    size_t take, volume = 0;
    uint8_t refusal = 0;
    char *wrong = NULL;
    if (any_null(count, values)) return;
    int status = asked(values, "take", &image, &take, &wrong);
    if (status == SQLITE_OK) volume = ledger_smallest_group(image.at, image.length, take, &refusal);
    answer(context, status, refusal, values[0], wrong, volume != 0, (sqlite3_int64)volume);
}

static void all_heard_frozen(sqlite3_context *context, int count, sqlite3_value **values) {
    struct store_bytes image;
    size_t take;
    uint8_t refusal = 0, yes = 0;
    char *wrong = NULL;
    if (any_null(count, values)) return;
    int status = asked(values, "take", &image, &take, &wrong);
    if (status == SQLITE_OK) yes = ledger_all_heard_stable(image.at, image.length, take, &refusal);
    answer(context, status, refusal, values[0], wrong, 1, yes);
}

static void ready_count(sqlite3_context *context, int count, sqlite3_value **values) {
    struct store_bytes image;
    size_t size, volumes = 0;
    uint8_t refusal = 0;
    char *wrong = NULL;
    if (any_null(count, values)) return;
    int status = asked(values, "size", &image, &size, &wrong);
    if (status == SQLITE_OK) volumes = ledger_ready_count(image.at, image.length, size, &refusal);
    answer(context, status, refusal, values[0], wrong, 1, (sqlite3_int64)volumes);
}

/* The take that a step acts for; NULL where it is not one take's (ledger_acting says whose). */
static void actor(sqlite3_context *context, int count, sqlite3_value **values) {
    struct store_bytes image, step;
    struct ledger_acting acting = {0, 0};
    uint8_t refusal = 0;
    char *wrong = NULL;
    sqlite3_int64 take = 0;
    if (any_null(count, values)) return;
    int status = value_blob(values[0], "image", &image, &wrong);
    if (status == SQLITE_OK) status = value_blob(values[1], "step", &step, &wrong);
    if (status == SQLITE_OK) acting = ledger_actor(image.at, image.length, step.at, step.length, &refusal);
    while (acting.kind == LEDGER_ONE_TRANSACTOR && acting.takes >> take > 1) take++;
    answer(context, status, refusal, values[0], wrong, acting.kind == LEDGER_ONE_TRANSACTOR, take);
}

static void independent(sqlite3_context *context, int count, sqlite3_value **values) {
    struct store_bytes image, first, second;
    uint8_t refusal = 0, yes = 0;
    char *wrong = NULL;
    if (any_null(count, values)) return;
    int status = value_blob(values[0], "image", &image, &wrong);
    if (status == SQLITE_OK) status = value_blob(values[1], "first", &first, &wrong);
    if (status == SQLITE_OK) status = value_blob(values[2], "second", &second, &wrong);
    if (status == SQLITE_OK)
        yes = looking_independent(image.at, image.length, first.at, first.length, second.at, second.length, &refusal);
    answer(context, status, refusal, values[0], wrong, 1, yes);
}

/* The map of a waiting parcel, as its bytes; NULL where no such parcel waits. */
static void show(sqlite3_context *context, int count, sqlite3_value **values) {
    struct store_bytes image;
    struct ledger_part part = {0, 0};
    size_t parcel;
    uint8_t refusal = 0;
    char *wrong = NULL;
    if (any_null(count, values)) return;
    int status = asked(values, "parcel", &image, &parcel, &wrong);
    if (status == SQLITE_OK) part = ledger_show(image.at, image.length, parcel, &refusal);
    if (refusal == LEDGER_NOT_WAITING) return;
    answer(context, status, refusal, values[0], wrong, 0, 0);
    if (part.length > 0) sqlite3_result_blob64(context, image.at + part.offset, part.length, SQLITE_TRANSIENT);
}

int add_questions(sqlite3 *db) {
    static const struct scalar scalars[] = {
        {"ledger_actor", 2, actor},       {"ledger_offer", 2, offer},
        {"ledger_smallest", 2, smallest}, {"ledger_ready_count", 2, ready_count},
        {"ledger_show", 2, show},         {"ledger_all_heard_frozen", 2, all_heard_frozen},
        {"ledger_independent", 3, independent}};
    return add_scalars(db, scalars, sizeof scalars / sizeof *scalars);
}
