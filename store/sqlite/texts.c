/* Steps, replies and images as text, and back: ledger_pack, ledger_text, ledger_reply_text, ledger_image_text,
 * ledger_refusal_text. The grammar and the words are the library's (docs/NOTATION.md). */
#include "extension.h"
SQLITE_EXTENSION_INIT3

enum { SHORTEST = 6 }; /* characters of the shortest step, as `read 0` */

static void pack(sqlite3_context *context, int count, sqlite3_value **values) {
    size_t line, column;
    uint8_t expected;
    char sentence[STORE_SENTENCE];
    if (any_null(count, values)) return;
    if (sqlite3_value_type(values[0]) != SQLITE_TEXT) {
        sqlite3_result_error(context, "steps: not a text", -1);
        return;
    }
    const unsigned char *text = sqlite3_value_text(values[0]);
    size_t length = (size_t)sqlite3_value_bytes(values[0]), room = LEDGER_STEP * (length / SHORTEST + 1);
    uint8_t *out = text ? sqlite3_malloc64(room) : NULL;
    if (!out) {
        sqlite3_result_error_nomem(context);
        return;
    }
    size_t steps = notation_parse(text, length, out, room, &line, &column, &expected);
    if (expected == NOTATION_NOTHING) {
        sqlite3_result_blob64(context, out, LEDGER_STEP * steps, sqlite3_free);
        return;
    }
    sqlite3_free(out);
    store_fault(line, column, expected, sentence);
    sqlite3_result_error(context, sentence, -1);
}

/* Gives a text that has been put together; takes it. */
static void give(sqlite3_context *context, sqlite3_str *text) {
    int status = sqlite3_str_errcode(text), length = sqlite3_str_length(text);
    char *whole = sqlite3_str_finish(text);
    if (status == SQLITE_TOOBIG) sqlite3_result_error_toobig(context);
    else if (status != SQLITE_OK) sqlite3_result_error_nomem(context);
    else sqlite3_result_text64(context, whole ? whole : "", (sqlite3_uint64)length, SQLITE_TRANSIENT, SQLITE_UTF8);
    sqlite3_free(whole);
}

static void text(sqlite3_context *context, int count, sqlite3_value **values) {
    struct store_bytes list;
    uint8_t line[NOTATION_LINE];
    char *wrong = NULL;
    if (any_null(count, values)) return;
    int status = value_blob(values[0], "steps", &list, &wrong);
    if (status == SQLITE_OK) status = value_refused(notation_length(list.at, list.length % LEDGER_STEP).refusal, &wrong);
    if (status != SQLITE_OK) {
        fail_with(context, status, wrong);
        return;
    }
    sqlite3_str *out = sqlite3_str_new(sqlite3_context_db_handle(context));
    for (size_t i = 0; i < list.length / LEDGER_STEP && !sqlite3_str_errcode(out); i++)
        sqlite3_str_append(out, (char *)line, (int)notation_step(list.at, list.length, i, line, sizeof line).length);
    give(context, out);
}

static void reply_text(sqlite3_context *context, int count, sqlite3_value **values) {
    struct store_bytes list, replies;
    uint8_t line[NOTATION_LINE];
    char *wrong = NULL;
    if (any_null(count, values)) return;
    int status = value_blob(values[0], "steps", &list, &wrong);
    if (status == SQLITE_OK) status = value_blob(values[1], "replies", &replies, &wrong);
    if (status == SQLITE_OK) status = value_refused(notation_length(list.at, list.length % LEDGER_STEP).refusal, &wrong);
    if (status == SQLITE_OK) status = value_refused(list.length != replies.length ? LEDGER_WRONG_ROOM : 0, &wrong);
    if (status != SQLITE_OK) {
        fail_with(context, status, wrong);
        return;
    }
    sqlite3_str *out = sqlite3_str_new(sqlite3_context_db_handle(context));
    for (size_t i = 0; i < list.length / LEDGER_STEP && !sqlite3_str_errcode(out); i++) {
        struct notation_given given =
            notation_reply(list.at, list.length, replies.at, replies.length, i, line, sizeof line);
        sqlite3_str_append(out, (char *)line, (int)given.length);
        sqlite3_str_appendchar(out, 1, '\n');
    }
    give(context, out);
}

static void image_text(sqlite3_context *context, int count, sqlite3_value **values) {
    struct store_bytes image;
    uint8_t line[NOTATION_LINE];
    char *wrong = NULL;
    if (any_null(count, values)) return;
    int status = value_blob(values[0], "image", &image, &wrong);
    if (status == SQLITE_OK) status = image_refused(store_form(image), image, &wrong);
    if (status != SQLITE_OK) {
        fail_with(context, status, wrong);
        return;
    }
    sqlite3_str *out = sqlite3_str_new(sqlite3_context_db_handle(context));
    for (size_t i = 0; i < NOTATION_LINES; i++)
        sqlite3_str_append(out, (char *)line, (int)notation_image(image.at, image.length, i, line, sizeof line).length);
    give(context, out);
}

/* The words of a refusal, 16 to 35; NULL for another number. */
static void refusal_text(sqlite3_context *context, int count, sqlite3_value **values) {
    uint8_t words[NOTATION_LINE];
    size_t number;
    char *wrong = NULL;
    if (any_null(count, values)) return;
    int status = value_number(values[0], "refusal", &number, &wrong);
    if (status != SQLITE_OK) fail_with(context, status, wrong);
    else if (number < 256) {
        struct notation_given given = notation_refusal_text((uint8_t)number, words, sizeof words);
        if (given.length > 0) sqlite3_result_text(context, (char *)words, (int)given.length, SQLITE_TRANSIENT);
    }
}

int add_texts(sqlite3 *db) {
    static const struct scalar scalars[] = {{"ledger_pack", 1, pack},
                                            {"ledger_text", 1, text},
                                            {"ledger_reply_text", 2, reply_text},
                                            {"ledger_image_text", 1, image_text},
                                            {"ledger_refusal_text", 1, refusal_text}};
    return add_scalars(db, scalars, sizeof scalars / sizeof *scalars);
}
