/* The entry point of the extension. */
#include <pthread.h>

#include "extension.h"
SQLITE_EXTENSION_INIT1

#ifdef __GNUC__
__attribute__((visibility("default")))
#endif
int sqlite3_takeledger_init(sqlite3 *db, char **wrong, const sqlite3_api_routines *api);

int sqlite3_takeledger_init(sqlite3 *db, char **wrong, const sqlite3_api_routines *api) {
    static pthread_once_t once = PTHREAD_ONCE_INIT;
    SQLITE_EXTENSION_INIT2(api);
    if (ledger_version() >> 16 != LEDGER_VERSION >> 16) {
        *wrong = sqlite3_mprintf("the library is of another version than its header");
        return SQLITE_ERROR;
    }
    pthread_once(&once, store_learn);
    int status = add_playing(db);
    if (status == SQLITE_OK) status = add_questions(db);
    if (status == SQLITE_OK) status = add_texts(db);
    if (status == SQLITE_OK) status = add_sums(db);
    if (status == SQLITE_OK) status = add_lists(db);
    if (status == SQLITE_OK) status = add_answers(db);
    return status;
}
