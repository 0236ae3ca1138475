/* ledger_sha256(text or blob), by OpenSSL; ledger_hex(text or blob); ledger_list(number, step): steps put together to a
 * list. Of a text the first two take its UTF-8 bytes, whatever encoding the database has (SQLite's own hex does not). */
#include <openssl/evp.h>
#include <string.h>

#include "extension.h"
SQLITE_EXTENSION_INIT3

static int bytes_of(sqlite3_context *context, sqlite3_value *value, struct store_bytes *bytes) {
    int type = sqlite3_value_type(value);
    if (type != SQLITE_BLOB && type != SQLITE_TEXT) {
        sqlite3_result_error(context, "neither a text nor a blob", -1);
        return 0;
    }
    bytes->at = type == SQLITE_TEXT ? sqlite3_value_text(value) : sqlite3_value_blob(value);
    bytes->length = (size_t)sqlite3_value_bytes(value);
    if (!bytes->at) bytes->at = (const uint8_t *)"";
    return 1;
}

/* 32 bytes. */
static void sha256(sqlite3_context *context, int count, sqlite3_value **values) {
    uint8_t sum[EVP_MAX_MD_SIZE];
    unsigned length = 0;
    struct store_bytes bytes;
    if (any_null(count, values) || !bytes_of(context, values[0], &bytes)) return;
    if (!EVP_Digest(bytes.at, bytes.length, sum, &length, EVP_sha256(), NULL)) {
        sqlite3_result_error(context, "OpenSSL gives no sum", -1);
        return;
    }
    sqlite3_result_blob(context, sum, (int)length, SQLITE_TRANSIENT);
}

static void hex(sqlite3_context *context, int count, sqlite3_value **values) {
    static const char digits[] = "0123456789abcdef";
    struct store_bytes bytes;
    if (any_null(count, values) || !bytes_of(context, values[0], &bytes)) return;
    char *out = sqlite3_malloc64(2 * bytes.length + 1);
    if (!out) {
        sqlite3_result_error_nomem(context);
        return;
    }
    for (size_t i = 0; i < bytes.length; i++) {
        out[2 * i] = digits[bytes.at[i] >> 4];
        out[2 * i + 1] = digits[bytes.at[i] & 15];
    }
    sqlite3_result_text64(context, out, 2 * bytes.length, sqlite3_free, SQLITE_UTF8);
}

/* What ledger_list has put together so far. */
struct list {
    uint8_t *at;
    size_t length, room;
    sqlite3_int64 last;
};

static int grow(struct list *list) {
    size_t room = list->room ? 2 * list->room : 64 * LEDGER_STEP;
    uint8_t *more = sqlite3_realloc64(list->at, room);
    if (!more) return SQLITE_NOMEM;
    list->at = more;
    list->room = room;
    return SQLITE_OK;
}

/* Steps must come in rising numbers without gaps: what order the rows come in is the query's affair, and here it is seen. */
static void list_step(sqlite3_context *context, int count, sqlite3_value **values) {
    struct list *list = sqlite3_aggregate_context(context, sizeof *list);
    struct store_bytes step;
    char *wrong = NULL;
    if (!list || any_null(count, values)) return;
    int status = value_blob(values[1], "step", &step, &wrong);
    sqlite3_int64 number = sqlite3_value_int64(values[0]);
    int follows = list->length == 0 || (number > INT64_MIN && number - 1 == list->last);
    if (status == SQLITE_OK && (step.length != LEDGER_STEP || !follows)) {
        wrong = sqlite3_mprintf("ledger_list: step %lld is not whole, or does not follow step %lld", number, list->last);
        status = SQLITE_ERROR;
    }
    if (status == SQLITE_OK && list->length == list->room) status = grow(list);
    if (status != SQLITE_OK) {
        fail_with(context, status, wrong);
        return;
    }
    memcpy(list->at + list->length, step.at, LEDGER_STEP);
    list->length += LEDGER_STEP;
    list->last = number;
}

static void list_final(sqlite3_context *context) {
    struct list *list = sqlite3_aggregate_context(context, 0);
    if (list && list->at) sqlite3_result_blob64(context, list->at, list->length, sqlite3_free);
    else sqlite3_result_zeroblob(context, 0);
}

int add_sums(sqlite3 *db) {
    static const struct scalar scalars[] = {{"ledger_sha256", 1, sha256}, {"ledger_hex", 1, hex}};
    int flags = SQLITE_UTF8 | SQLITE_DETERMINISTIC | SQLITE_INNOCUOUS;
    int status = add_scalars(db, scalars, sizeof scalars / sizeof *scalars);
    if (status != SQLITE_OK) return status;
    return sqlite3_create_function_v2(db, "ledger_list", 2, flags, NULL, NULL, list_step, list_final, NULL);
}
