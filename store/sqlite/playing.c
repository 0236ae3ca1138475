/* ledger_begin, ledger_run, ledger_replies, ledger_thin, ledger_forward, ledger_back, ledger_version. */
#include <stdio.h>

#include "extension.h"
SQLITE_EXTENSION_INIT3

static void version(sqlite3_context *context, int count, sqlite3_value **values) {
    char text[16];
    uint32_t v = ledger_version();
    (void)count, (void)values;
    snprintf(text, sizeof text, "%u.%u.%u", v >> 16 & 255u, v >> 8 & 255u, v & 255u);
    sqlite3_result_text(context, text, -1, SQLITE_TRANSIENT);
}

static void begin(sqlite3_context *context, int count, sqlite3_value **values) {
    static const char *const what[] = {"takes", "parcels", "signings"};
    size_t limit[] = {LEDGER_TRANSACTORS, LEDGER_MESSAGES, LEDGER_CHECKPOINTS};
    int status = SQLITE_OK;
    char *wrong = NULL;
    if (any_null(count, values)) return;
    for (int i = 0; status == SQLITE_OK && i < count; i++) status = value_number(values[i], what[i], &limit[i], &wrong);
    uint8_t *image = sqlite3_malloc(LEDGER_IMAGE);
    if (!image) status = SQLITE_NOMEM;
    if (status == SQLITE_OK) status = value_refused(ledger_begin(image, LEDGER_IMAGE, limit[0], limit[1], limit[2]), &wrong);
    if (status == SQLITE_OK) {
        sqlite3_result_blob(context, image, LEDGER_IMAGE, sqlite3_free);
        return;
    }
    sqlite3_free(image);
    fail_with(context, status, wrong);
}

/* Image and steps of a call: the image as a copy that may be written to. */
struct given {
    uint8_t *image, *out;
    struct store_bytes asked; /* the image as it was given */
    struct store_bytes list;
};

static int take_in(sqlite3_value **values, struct given *given, char **wrong) {
    int status = value_blob(values[0], "image", &given->asked, wrong);
    if (status == SQLITE_OK) status = value_blob(values[1], "steps", &given->list, wrong);
    if (status == SQLITE_OK) status = copied(given->asked, &given->image);
    if (status == SQLITE_OK && !(given->out = sqlite3_malloc64(given->list.length + 1))) status = SQLITE_NOMEM;
    return status;
}

static void run(sqlite3_context *context, int count, sqlite3_value **values) {
    struct given given = {0};
    char *wrong = NULL;
    if (any_null(count, values)) return;
    int status = take_in(values, &given, &wrong);
    if (status == SQLITE_OK)
        status = image_refused(store_run(given.image, given.asked.length, given.list, NULL), given.asked, &wrong);
    sqlite3_free(given.out);
    if (status == SQLITE_OK) {
        sqlite3_result_blob64(context, given.image, given.asked.length, sqlite3_free);
        return;
    }
    sqlite3_free(given.image);
    fail_with(context, status, wrong);
}

/* Replies, or the short list: bytes in given.out, of which so many are the answer. */
static void answer_out(sqlite3_context *context, struct given *given, size_t length, int status, char *wrong) {
    sqlite3_free(given->image);
    if (status == SQLITE_OK) {
        sqlite3_result_blob64(context, given->out, length, sqlite3_free);
        return;
    }
    sqlite3_free(given->out);
    fail_with(context, status, wrong);
}

static void replies(sqlite3_context *context, int count, sqlite3_value **values) {
    struct given given = {0};
    char *wrong = NULL;
    if (any_null(count, values)) return;
    int status = take_in(values, &given, &wrong);
    if (status == SQLITE_OK)
        status = image_refused(store_run(given.image, given.asked.length, given.list, given.out), given.asked, &wrong);
    answer_out(context, &given, given.list.length, status, wrong);
}

static void thin(sqlite3_context *context, int count, sqlite3_value **values) {
    struct given given = {0};
    char *wrong = NULL;
    unsigned refusal = 0;
    size_t kept = 0;
    if (any_null(count, values)) return;
    int status = take_in(values, &given, &wrong);
    if (status == SQLITE_OK) kept = store_thin(given.image, given.asked.length, given.list, given.out, &refusal);
    if (status == SQLITE_OK) status = image_refused(refusal, given.asked, &wrong);
    answer_out(context, &given, kept, status, wrong);
}

static void convert(sqlite3_context *context, sqlite3_value *value, size_t target,
                    uint8_t (*call)(const uint8_t *, size_t, uint8_t *, size_t)) {
    struct store_bytes source;
    char *wrong = NULL;
    uint8_t *out = sqlite3_malloc64(target);
    int status = out ? value_blob(value, "image", &source, &wrong) : SQLITE_NOMEM;
    if (status == SQLITE_OK) status = image_refused(call(source.at, source.length, out, target), source, &wrong);
    if (status == SQLITE_OK) {
        sqlite3_result_blob64(context, out, target, sqlite3_free);
        return;
    }
    sqlite3_free(out);
    fail_with(context, status, wrong);
}

static void forward(sqlite3_context *context, int count, sqlite3_value **values) {
    if (!any_null(count, values)) convert(context, values[0], LEDGER_IMAGE, ledger_forward);
}

static void back(sqlite3_context *context, int count, sqlite3_value **values) {
    if (!any_null(count, values)) convert(context, values[0], LEDGER_OLD_IMAGE, ledger_back);
}

int add_playing(sqlite3 *db) {
    static const struct scalar scalars[] = {
        {"ledger_version", 0, version}, {"ledger_begin", 0, begin},  {"ledger_begin", 3, begin},
        {"ledger_run", 2, run},         {"ledger_replies", 2, replies}, {"ledger_thin", 2, thin},
        {"ledger_forward", 1, forward}, {"ledger_back", 1, back}};
    return add_scalars(db, scalars, sizeof scalars / sizeof *scalars);
}
