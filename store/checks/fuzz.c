/* A fuzzer for the functions of SQL that take blobs, by libFuzzer, over SQLite with the extension linked in.
 *
 * The first byte of an input names the call. Then comes the image: a good one with some bytes changed, or, if the second byte
 * is odd, the rest of the input as it is. What is left is the second argument, as a blob, a text or a number. */
#include <sqlite3.h>
#include <stdlib.h>
#include <string.h>

#include "store.h"

int sqlite3_takeledger_init(sqlite3 *db, char **wrong, const void *api);
int LLVMFuzzerTestOneInput(const uint8_t *data, size_t size);

static const char *const calls[] = {
    "SELECT ledger_run(?1, ?2)", "SELECT ledger_replies(?1, ?2)", "SELECT ledger_thin(?1, ?2)", "SELECT ledger_back(?1)",
    "SELECT ledger_forward(?1)", "SELECT ledger_actor(?1, ?2)", "SELECT ledger_offer(?1, ?3)", "SELECT ledger_smallest(?1, ?3)",
    "SELECT ledger_ready_count(?1, ?3)", "SELECT ledger_all_heard_frozen(?1, ?3)", "SELECT ledger_show(?1, ?3)",
    "SELECT ledger_image_text(?1)", "SELECT ledger_text(?2)", "SELECT ledger_reply_text(?2, ?2)", "SELECT ledger_pack(?4)",
    "SELECT ledger_refusal_text(?3)", "SELECT ledger_begin(?3, ?3, ?3)", "SELECT ledger_independent(?1, ?2, ?2)",
    "SELECT ledger_sha256(?2), ledger_hex(?4)", "SELECT * FROM ledger_play(?1, ?2)", "SELECT * FROM ledger_takes(?1)",
    "SELECT * FROM ledger_parcels(?1)", "SELECT * FROM ledger_marks(?1)", "SELECT * FROM ledger_plan(?1, ?3)",
    "SELECT * FROM ledger_diff(?1, ledger_run(?1, ?2))", "SELECT * FROM ledger_acting(?1, ?2)",
    "SELECT * FROM ledger_dependents(?1, ?3)", "SELECT * FROM ledger_obstacle(?1, ?3)",
    "SELECT * FROM ledger_impediment(?1, ?3)", "SELECT * FROM ledger_worst_window(?2, ?3)",
    "SELECT ledger_list(value, ?2) FROM json_each('[1,2,3]')", "SELECT ledger_pack(ledger_text(?2)) = ?2",
    "SELECT * FROM ledger_fault(?1)",
    "SELECT ledger_list(n, ?2) FROM (SELECT ?3 AS n UNION ALL SELECT iif(?3 < 9223372036854775807, ?3 + 1, ?3))"};

enum { CALLS = sizeof calls / sizeof *calls };

static sqlite3_stmt *prepared[CALLS];

static void prepare(void) {
    static sqlite3 *db;
    if (db) return;
    if (sqlite3_open(":memory:", &db) != SQLITE_OK || sqlite3_takeledger_init(db, NULL, NULL) != SQLITE_OK) abort();
    for (size_t i = 0; i < CALLS; i++)
        if (sqlite3_prepare_v2(db, calls[i], -1, &prepared[i], NULL) != SQLITE_OK) abort();
}

/* Sixteen takes, of which some rest on others, one signed, one vanished, parcels waiting. */
static void good(uint8_t *image) {
    static const char text[] =
        "root text 1\nroot text 2\nroot text 3\nletter to 0 text 1\nreceive 0\nwrite 0 text 9\nsend 0 to 1 text 9\n"
        "freeze 0\nsign {0}\nletter to 0 text 4\nreceive 2\nread 0\nsend 0 to 1 text 1\nnew 0 text 5\nreceive 1\n"
        "write 1 text 3\nsend 1 to 2 text 7\nfail 2\nletter to 3 text 1\n";
    uint8_t list[512], expected;
    size_t line, column;
    size_t steps = notation_parse((const uint8_t *)text, sizeof text - 1, list, sizeof list, &line, &column, &expected);
    struct store_bytes all = {list, LEDGER_STEP * steps};
    ledger_begin(image, LEDGER_IMAGE, LEDGER_TRANSACTORS, LEDGER_MESSAGES, LEDGER_CHECKPOINTS);
    if (expected || store_run(image, LEDGER_IMAGE, all, NULL)) abort();
}

/* Reads every column of every row, so that a byte that is not there is seen. */
static unsigned read_all(sqlite3_stmt *statement) {
    unsigned seen = 0;
    int rows = 0;
    while (sqlite3_step(statement) == SQLITE_ROW && rows++ < 2000)
        for (int i = 0; i < sqlite3_column_count(statement); i++) {
            const unsigned char *at = sqlite3_column_blob(statement, i);
            for (int k = 0; k < sqlite3_column_bytes(statement, i); k++) seen ^= at[k];
        }
    return seen;
}

int LLVMFuzzerTestOneInput(const uint8_t *data, size_t size) {
    static uint8_t image[LEDGER_IMAGE];
    sqlite3_int64 number = 0;
    prepare();
    if (size < 3) return 0;
    sqlite3_stmt *statement = prepared[data[0] % CALLS];
    size_t changes = data[1] & 1 ? 0 : data[2] % 8, at = 3;
    good(image);
    for (; changes > 0 && at + 3 <= size; changes--, at += 3)
        image[(data[at] << 8 | data[at + 1]) % LEDGER_IMAGE] = data[at + 2];
    const uint8_t *rest = data + at;
    size_t length = size - at;
    memcpy(&number, rest, length < sizeof number ? length : sizeof number);
    if (data[1] & 1) sqlite3_bind_blob64(statement, 1, rest, length, SQLITE_STATIC);
    else sqlite3_bind_blob64(statement, 1, image, sizeof image, SQLITE_STATIC);
    sqlite3_bind_blob64(statement, 2, rest, length, SQLITE_STATIC);
    sqlite3_bind_int64(statement, 3, data[1] & 2 ? number : number & 31);
    sqlite3_bind_text(statement, 4, (const char *)rest, (int)length, SQLITE_STATIC);
    unsigned seen = read_all(statement);
    sqlite3_reset(statement);
    return seen > 255; /* never; so that nothing is left out */
}
