/* Table-valued functions: one module of SQLite for all of them; what differs is in struct table. */
#include <string.h>

#include "extension.h"
SQLITE_EXTENSION_INIT3

struct connected {
    sqlite3_vtab base;
    const struct table *table;
};

struct cursor {
    sqlite3_vtab_cursor base;
    struct rows rows;
    size_t at;
};

static int connect(sqlite3 *db, void *given, int count, const char *const *words, sqlite3_vtab **out, char **wrong) {
    const struct table *table = given;
    (void)count, (void)words, (void)wrong;
    int status = sqlite3_declare_vtab(db, table->columns);
    if (status != SQLITE_OK) return status;
    struct connected *made = sqlite3_malloc(sizeof *made);
    if (!made) return SQLITE_NOMEM;
    memset(made, 0, sizeof *made);
    made->table = table;
    *out = &made->base;
    return sqlite3_vtab_config(db, SQLITE_VTAB_INNOCUOUS);
}

static int disconnect(sqlite3_vtab *table) {
    sqlite3_free(table);
    return SQLITE_OK;
}

/* Every argument must be given, by rows that come before; they are passed on in their order. */
static int best_index(sqlite3_vtab *base, sqlite3_index_info *info) {
    const struct table *table = ((struct connected *)base)->table;
    int given = 0;
    for (int i = 0; i < info->nConstraint; i++) {
        int argument = info->aConstraint[i].iColumn - table->shown;
        int usable = info->aConstraint[i].usable && info->aConstraint[i].op == SQLITE_INDEX_CONSTRAINT_EQ;
        if (argument < 0 || !usable || given >> argument & 1) continue;
        given |= 1 << argument;
        info->aConstraintUsage[i].argvIndex = argument + 1;
        info->aConstraintUsage[i].omit = 1;
    }
    info->estimatedCost = table->one_row ? 10 : 1000;
    info->estimatedRows = table->one_row ? 1 : 100;
    return given == (1 << table->arguments) - 1 ? SQLITE_OK : SQLITE_CONSTRAINT;
}

static int open_cursor(sqlite3_vtab *table, sqlite3_vtab_cursor **out) {
    struct cursor *cursor = sqlite3_malloc(sizeof *cursor);
    (void)table;
    if (!cursor) return SQLITE_NOMEM;
    memset(cursor, 0, sizeof *cursor);
    *out = &cursor->base;
    return SQLITE_OK;
}

static void empty(struct rows *rows) {
    sqlite3_free(rows->image);
    sqlite3_free(rows->other);
    sqlite3_free(rows->list);
    sqlite3_free(rows->replies);
    sqlite3_free(rows->played);
    sqlite3_free(rows->index);
    memset(rows, 0, sizeof *rows);
}

static int close_cursor(sqlite3_vtab_cursor *base) {
    empty(&((struct cursor *)base)->rows);
    sqlite3_free(base);
    return SQLITE_OK;
}

static int filter(sqlite3_vtab_cursor *base, int plan, const char *name, int count, sqlite3_value **values) {
    struct cursor *cursor = (struct cursor *)base;
    const struct table *table = ((struct connected *)base->pVtab)->table;
    char *wrong = NULL;
    int status = SQLITE_OK;
    (void)plan, (void)name;
    empty(&cursor->rows);
    cursor->at = 0;
    if (any_null(count, values)) cursor->rows.nothing = table->one_row;
    else status = table->fill(&cursor->rows, values, &wrong);
    if (cursor->rows.nothing) cursor->rows.count = 1;
    if (status == SQLITE_OK) return SQLITE_OK;
    empty(&cursor->rows);
    sqlite3_free(base->pVtab->zErrMsg);
    base->pVtab->zErrMsg = wrong;
    return status;
}

static int next(sqlite3_vtab_cursor *base) {
    ((struct cursor *)base)->at++;
    return SQLITE_OK;
}

static int at_end(sqlite3_vtab_cursor *base) {
    struct cursor *cursor = (struct cursor *)base;
    return cursor->at >= cursor->rows.count;
}

static int column(sqlite3_vtab_cursor *base, sqlite3_context *context, int i) {
    struct cursor *cursor = (struct cursor *)base;
    const struct table *table = ((struct connected *)base->pVtab)->table;
    if (!cursor->rows.nothing && i < table->shown) table->column(&cursor->rows, cursor->at, i, context);
    return SQLITE_OK;
}

static int row_id(sqlite3_vtab_cursor *base, sqlite3_int64 *id) {
    *id = (sqlite3_int64)((struct cursor *)base)->at;
    return SQLITE_OK;
}

int add_tables(sqlite3 *db, const struct table *tables, size_t count) {
    static const sqlite3_module module = {.xConnect = connect, .xBestIndex = best_index, .xDisconnect = disconnect,
                                          .xOpen = open_cursor, .xClose = close_cursor, .xFilter = filter,
                                          .xNext = next, .xEof = at_end, .xColumn = column, .xRowid = row_id};
    int status = SQLITE_OK;
    for (size_t i = 0; status == SQLITE_OK && i < count; i++) {
        void *given = (void *)(uintptr_t)&tables[i]; /* only read */
        status = sqlite3_create_module_v2(db, tables[i].name, &module, given, NULL);
    }
    return status;
}
