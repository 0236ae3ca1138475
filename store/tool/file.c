/* The file of a hearing: opened, asked, made. */
#define _XOPEN_SOURCE 700
#include <errno.h>
#include <fcntl.h>
#include <stdlib.h>
#include <string.h>
#include <sys/stat.h>
#include <unistd.h>

#include "hearing.h"

static const char *const SCHEMA[] = {
#include "hearing_lines.h"
};

sqlite3 *db;
struct place reading;

int sqlite3_takeledger_init(sqlite3 *, char **, const void *);

void turned_back(const char *what) {
    union { const char *from; uint8_t *at; } said = {what};
    fputs("take-ledger: ", stderr);
    if (reading.file && reading.line) fprintf(stderr, "%s:%zu: ", reading.file, reading.line);
    else if (reading.file) fprintf(stderr, "%s: ", reading.file);
    tell_text(stderr, (struct bytes){said.at, strlen(what)});
    fputc('\n', stderr);
    exit(NO);
}

/* ---- questions */

void must_be_text(struct bytes text) {
    if (memchr(text.at, 0, text.length)) turned_back("a zero byte in a text: UTF-8 is wanted");
    if (!is_utf8(text)) turned_back("a text that is not UTF-8");
}

sqlite3_stmt *asked(const char *text, int count, const char *const *values) {
    sqlite3_stmt *statement;
    if (sqlite3_prepare_v2(db, text, -1, &statement, NULL) != SQLITE_OK) turned_back(sqlite3_errmsg(db));
    for (int i = 0; i < count; i++) {
        union { const char *from; uint8_t *at; } word = {values[i]};
        if (values[i]) must_be_text((struct bytes){word.at, strlen(values[i])});
        sqlite3_bind_text(statement, i + 1, values[i], -1, SQLITE_TRANSIENT);
    }
    return statement;
}

int next_row(sqlite3_stmt *statement) {
    int status = sqlite3_step(statement);
    if (status != SQLITE_ROW && status != SQLITE_DONE) turned_back(sqlite3_errmsg(db));
    return status == SQLITE_ROW;
}

struct bytes column(sqlite3_stmt *statement, int i) {
    int blob = sqlite3_column_type(statement, i) == SQLITE_BLOB; /* a text as UTF-8, whatever the file keeps it as */
    union { const void *from; uint8_t *at; } kept = {blob ? sqlite3_column_blob(statement, i) : sqlite3_column_text(statement, i)};
    return (struct bytes){kept.at, (size_t)sqlite3_column_bytes(statement, i)};
}

void done(const char *text, int count, const char *const *values) {
    sqlite3_stmt *statement = asked(text, count, values);
    while (next_row(statement)) {}
    sqlite3_finalize(statement);
}

/* ---- opening */

/* A path is a path, also where it looks like one of SQLite's other names. */
static char *as_path(const char *name) {
    char *path = sqlite3_mprintf(name[0] == '/' ? "%s" : "./%s", name);
    if (!path) fail("no memory for", name);
    return path;
}

/* The last one to close a file puts all that was said into the file itself: so it can be copied when nobody is at work. */
void close_file(void) {
    if (sqlite3_close(db) == SQLITE_OK) db = NULL;
}

void open_file(const char *name, int flags) {
    char *path = as_path(name);
    atexit(close_file);
    if (sqlite3_open_v2(path, &db, flags, NULL) != SQLITE_OK) {
        fprintf(stderr, "take-ledger: can't open %s: %s\n", name, sqlite3_errmsg(db));
        exit(WRONG);
    }
    sqlite3_free(path);
    prepare_connection();
}

void prepare_connection(void) {
    if (sqlite3_takeledger_init(db, NULL, NULL) != SQLITE_OK) turned_back("the functions can't be added");
    sqlite3_busy_timeout(db, 60000);
    sqlite3_db_config(db, SQLITE_DBCONFIG_DEFENSIVE, 1, NULL);
    done("PRAGMA trusted_schema = OFF", 0, NULL); /* a file from elsewhere calls no function but the ledger's and SQLite's own */
    done("PRAGMA synchronous = FULL", 0, NULL);
}

void open_hearing(const char *name) {
    if (!is_hearing(name)) {
        load(name); /* one that is not there is told so */
        fprintf(stderr, "take-ledger: %s is no hearing\n", name);
        exit(NO);
    }
    open_file(name, SQLITE_OPEN_READWRITE);
    sqlite3_stmt *tables = asked("SELECT count(*) FROM sqlite_schema WHERE type = 'table' AND name IN"
                                 " ('hearing', 'step', 'take', 'words', 'snapshot')", 0, NULL);
    int whole = next_row(tables) && sqlite3_column_int(tables, 0) == 5;
    sqlite3_finalize(tables);
    if (whole) return;
    fprintf(stderr, "take-ledger: %s is a file of SQLite, but no hearing\n", name);
    exit(NO);
}

/* ---- making */

void put_schema(void) {
    sqlite3_str *all = sqlite3_str_new(db);
    for (size_t i = 0; i < sizeof SCHEMA / sizeof *SCHEMA; i++) sqlite3_str_appendall(all, SCHEMA[i]);
    char *whole = sqlite3_str_finish(all);
    if (!whole || sqlite3_exec(db, whole, NULL, NULL, NULL) != SQLITE_OK) turned_back(sqlite3_errmsg(db));
    sqlite3_free(whole);
}

/* The file while it is being made: whatever ends the program, no part of it stays. */
static char *unfinished;

static void remove_unfinished(void) {
    static const char *const also[] = {"", "-wal", "-shm", "-journal"};
    for (size_t i = 0; unfinished && i < sizeof also / sizeof *also; i++) {
        char *name = sqlite3_mprintf("%s%s", unfinished, also[i]);
        if (name) unlink(name);
        sqlite3_free(name);
    }
}

void begin_new(const char *name) {
    struct stat is;
    const char *slash = strrchr(name, '/');
    if (lstat(name, &is) == 0) fail("there is such a file already:", name);
    unfinished = sqlite3_mprintf("%.*s.ledger-XXXXXX", slash ? (int)(slash - name) + 1 : 0, name);
    int f = unfinished ? mkstemp(unfinished) : -1;
    mode_t mask = umask(0);
    umask(mask);
    if (f < 0 || fchmod(f, 0666 & ~mask) != 0 || close(f) != 0) fail_errno("can't write beside", name);
    atexit(remove_unfinished);
    open_file(unfinished, SQLITE_OPEN_READWRITE);
    put_schema();
}

/* A link fails if there is such a file; some file systems know no links. */
void finish_new(const char *name) {
    struct stat is;
    close_file();
    if (db) turned_back(sqlite3_errmsg(db));
    int linked = link(unfinished, name) == 0, why = errno;
    if (!linked && why != EEXIST && lstat(name, &is) != 0) linked = rename(unfinished, name) == 0, why = errno;
    errno = why;
    if (!linked) fail_errno("can't write", name);
}

int verb_new(int count, char **words) {
    char limits[3][24];
    const char *values[5] = {words[1], words[2], limits[0], limits[1], limits[2]};
    (void)count;
    for (int i = 0; i < 3; i++) snprintf(limits[i], sizeof limits[i], "%zu", options.limits[i]);
    begin_new(words[0]);
    done("INSERT INTO hearing(title, house, takes, parcels, signings) VALUES (?1, ?2, cast(?3 AS INTEGER), cast(?4 AS INTEGER),"
         " cast(?5 AS INTEGER))", 5, values);
    finish_new(words[0]);
    return DONE;
}
