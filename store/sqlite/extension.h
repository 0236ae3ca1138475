/* The take ledger inside SQLite: what the files of this folder share. docs/STORE.md says what each function gives. */
#ifndef EXTENSION_H
#define EXTENSION_H

#include <sqlite3ext.h>

#include "store.h"

/* ---- values (values.c) */

/* Each answers SQLITE_OK, or SQLITE_ERROR with a message in *wrong. A value of another type is never converted: a text in
 * the place of an image, or a word in that of a number, is a slip, not an answer about something else. */
int value_blob(sqlite3_value *value, const char *what, struct store_bytes *bytes, char **wrong);
int value_number(sqlite3_value *value, const char *what, size_t *number, char **wrong);
int value_refused(unsigned refusal, char **wrong);

/* The same of a call that got this image: an ill-formed one is told with its byte and its clause. */
int image_refused(unsigned refusal, struct store_bytes image, char **wrong);

int any_null(int count, sqlite3_value **values);

/* Whether a refusal only says that a take is not opened or has vanished: queries over takes give NULL then. */
int not_live(unsigned refusal);

/* Ends a scalar function where something is wrong; takes the message. */
void fail_with(sqlite3_context *context, int status, char *wrong);

/* ---- scalar functions */

int add_playing(sqlite3 *db);    /* playing.c: begin, run, replies, thin, forward, back */
int add_questions(sqlite3 *db);  /* questions.c: actor, offer, smallest, ready_count, .. */
int add_texts(sqlite3 *db);      /* texts.c: pack, text, reply_text, image_text, refusal_text */
int add_sums(sqlite3 *db);       /* sums.c: ledger_sha256, the aggregate ledger_list */

typedef void scalar_function(sqlite3_context *, int, sqlite3_value **);

struct scalar {
    const char *name;
    int arguments;
    scalar_function *call;
};

int add_scalars(sqlite3 *db, const struct scalar *scalars, size_t count);

/* ---- table-valued functions (tables.c) */

/* The rows of one call, and all that they are read from; the bytes are copies. */
struct rows {
    size_t count;
    int nothing; /* one row, all NULL */
    uint8_t *image, *other, *list, *replies;
    size_t list_length;
    struct store_played *played;
    uint16_t *index; /* of each row, where it is found */
    sqlite3_int64 number[4];
};

struct table {
    const char *name;
    const char *columns; /* the shown ones, then the arguments as HIDDEN ones */
    int shown;
    int arguments;
    int one_row; /* an answer, not a list: NULL arguments give one row of NULLs, not none */
    int (*fill)(struct rows *, sqlite3_value **, char **wrong);
    void (*column)(const struct rows *, size_t row, int column, sqlite3_context *);
};

int add_tables(sqlite3 *db, const struct table *tables, size_t count);
int add_lists(sqlite3 *db);   /* lists.c: play, takes, parcels, marks, plan, diff */
int add_answers(sqlite3 *db); /* answers.c: fault, acting, dependents, obstacle, .. */

/* Copies of blobs, into *to; SQLITE_NOMEM. */
int copied(struct store_bytes bytes, uint8_t **to);

/* A well-formed image, copied; else its refusal. */
int copied_image(sqlite3_value *value, uint8_t **to, char **wrong);

#endif
