/* The verbs of hearings, in the program take-ledger-hearing: what its files share. No rule and no grammar stands here: the
 * file's own triggers and the library decide. */
#ifndef HEARING_H
#define HEARING_H

#include <sqlite3.h>
#include <stdio.h>

#include "tool.h"

/* ---- file.c: the file, and questions of SQL */

extern sqlite3 *db;

/* Where a table or a list is being read: told with what is wrong. */
struct place {
    const char *file;
    size_t line;
};
extern struct place reading;

/* Says what is wrong, and ends the program with status 1: the file or the question is turned back. */
void turned_back(const char *what);

/* Opens a file of SQLite; `flags` are sqlite3_open_v2's. */
void open_file(const char *name, int flags);
void close_file(void);
/* Gives a connection the ledger's functions. */
void prepare_connection(void);
/* Opens a hearing; anything else ends the program. */
void open_hearing(const char *name);
/* The tables of an empty file: store/hearing.sql. */
void put_schema(void);
/* A file with these tables, under another name beside this one until it is finished: whatever ends the program before, no part
 * of it stays. A file that is there is not written over. */
void begin_new(const char *name);
void finish_new(const char *name);

/* A statement with texts for its parameters; NULL for NULL. What SQLite finds wrong ends the program. */
sqlite3_stmt *asked(const char *text, int count, const char *const *values);
/* Its next row: whether there is one. */
int next_row(sqlite3_stmt *statement);
/* A column as its bytes, a number as its digits; none for NULL. */
struct bytes column(sqlite3_stmt *statement, int i);
/* Does a statement to its end. */
void done(const char *text, int count, const char *const *values);

/* ---- lines.c: what is printed */

/* A text with each control character, and each that turns the direction of writing, as \n or \x1b: a name is not to look like
 * a line of the log, nor command a terminal. */
void tell_text(FILE *to, struct bytes text);
/* The same, as a text. */
struct bytes shown(struct bytes text);
/* The rows of a question, a line each, with blanks between the columns. */
void tell_rows(const char *text);
/* A row of number, step and reply, without LF. */
void tell_row(sqlite3_stmt *statement);

/* ---- names.c: names in the place of numbers */

/* The one step that a text says; names of takes may stand in the place of their numbers, and a text that is missing at the
 * end is 0. */
void step_said(const char *text, uint8_t step[LEDGER_STEP]);

/* ---- tables.c: tables as CSV */

/* Reads a table of three columns, of which the first is a number; gives each row to `row`. */
void read_table(const char *name, void (*row)(const char *const *fields));
/* Prints the rows of a question as a table. */
void tell_table(const char *text);

/* ---- log.c: the whole log */

/* Prints every row with its sum. */
void tell_log(void);
/* Makes a hearing of what tell_log printed, with its times and sums; none, where the log does not hold. */
void import_log(const char *name, const char *log);

/* A text that the command line or a file gives: UTF-8 without zero bytes, or the program ends. */
void must_be_text(struct bytes text);

#endif
