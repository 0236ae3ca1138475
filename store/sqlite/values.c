/* Values of SQL as the library wants them. */
#include <string.h>

#include "extension.h"
SQLITE_EXTENSION_INIT3

int value_blob(sqlite3_value *value, const char *what, struct store_bytes *bytes, char **wrong) {
    static const uint8_t nothing[1];
    if (sqlite3_value_type(value) != SQLITE_BLOB) {
        *wrong = sqlite3_mprintf("%s: not a blob", what);
        return SQLITE_ERROR;
    }
    bytes->at = sqlite3_value_blob(value);
    bytes->length = (size_t)sqlite3_value_bytes(value);
    if (!bytes->at) bytes->at = nothing; /* SQLite gives null for an empty blob, which the library must not get */
    return SQLITE_OK;
}

/* A negative number is past every limit, as it is when C makes an unsigned number of it: refused as such. */
int value_number(sqlite3_value *value, const char *what, size_t *number, char **wrong) {
    if (sqlite3_value_type(value) != SQLITE_INTEGER) {
        *wrong = sqlite3_mprintf("%s: not a whole number", what);
        return SQLITE_ERROR;
    }
    *number = (size_t)sqlite3_value_int64(value);
    return SQLITE_OK;
}

int value_refused(unsigned refusal, char **wrong) {
    struct store_bytes none = {NULL, 0};
    return image_refused(refusal, none, wrong);
}

int image_refused(unsigned refusal, struct store_bytes image, char **wrong) {
    char sentence[STORE_SENTENCE];
    if (refusal == 0) return SQLITE_OK;
    store_sentence_of(refusal, image, sentence);
    *wrong = sqlite3_mprintf("%s", sentence);
    return SQLITE_ERROR;
}

int any_null(int count, sqlite3_value **values) {
    for (int i = 0; i < count; i++)
        if (sqlite3_value_type(values[i]) == SQLITE_NULL) return 1;
    return 0;
}

int not_live(unsigned refusal) { return refusal == LEDGER_UNOPENED || refusal == LEDGER_GONE; }

void fail_with(sqlite3_context *context, int status, char *wrong) {
    if (status == SQLITE_NOMEM || !wrong) sqlite3_result_error_nomem(context);
    else sqlite3_result_error(context, wrong, -1);
    sqlite3_free(wrong);
}

int copied(struct store_bytes bytes, uint8_t **to) {
    sqlite3_free(*to);
    *to = sqlite3_malloc64(bytes.length + 1);
    if (!*to) return SQLITE_NOMEM;
    memcpy(*to, bytes.at, bytes.length);
    return SQLITE_OK;
}

int copied_image(sqlite3_value *value, uint8_t **to, char **wrong) {
    struct store_bytes image;
    int status = value_blob(value, "image", &image, wrong);
    if (status == SQLITE_OK) status = image_refused(store_form(image), image, wrong);
    return status == SQLITE_OK ? copied(image, to) : status;
}

int add_scalars(sqlite3 *db, const struct scalar *scalars, size_t count) {
    int flags = SQLITE_UTF8 | SQLITE_DETERMINISTIC | SQLITE_INNOCUOUS, status = SQLITE_OK;
    for (size_t i = 0; status == SQLITE_OK && i < count; i++)
        status = sqlite3_create_function_v2(db, scalars[i].name, scalars[i].arguments, flags, NULL, scalars[i].call,
                                            NULL, NULL, NULL);
    return status;
}
