/* The whole log of a hearing as text: a line for each row of the view `entry`, with its sum before it. It comes in again as a
 * file that ends in the same sum: rows are put in as they are, with their times and sums, and the check decides whether they
 * hold. The page's desk reads and writes the same text. */
#include <stdlib.h>
#include <string.h>

#include "hearing.h"

enum { MOST_FIELDS = 7, SUM = 64 };

void tell_log(void) {
    tell_rows("SELECT ledger_hex(sum), line FROM entry ORDER BY entry");
}

/* How each form of line is put into its table. A letter for each field of the line: n a number, b bytes, t a text in the digits
 * of its bytes, w a word as it is. The sum is next, and, but for the hearing itself, the row's number in the log. */
static const struct form {
    const char *name, *fields, *insert;
} FORMS[] = {
    {"hearing", "nnnwtt", "INSERT INTO hearing(takes, parcels, signings, at, house, title, sum) VALUES (?1, ?2, ?3, ?4, ?5, ?6, ?7)"},
    {"step", "nbbwtn", "INSERT INTO step(number, step, reply, at, who, call, sum, entry) VALUES (?1, ?2, ?3, ?4, ?5, ?6, ?7, ?8)"},
    {"take", "nttwt", "INSERT INTO take(take, name, owner, at, who, sum, entry) VALUES (?1, ?2, ?3, ?4, ?5, ?6, ?7)"},
    {"words", "nttwt", "INSERT INTO words(text, speaker, words, at, who, sum, entry) VALUES (?1, ?2, ?3, ?4, ?5, ?6, ?7)"},
};

static const struct form *form_of(const char *name, size_t fields) {
    for (size_t i = 0; i < sizeof FORMS / sizeof *FORMS; i++)
        if (strcmp(FORMS[i].name, name) == 0 && strlen(FORMS[i].fields) == fields) return &FORMS[i];
    turned_back("this is no line of a log");
    return NULL;
}

/* ---- fields */

static int digit(char c) {
    return c >= '0' && c <= '9' ? c - '0' : c >= 'a' && c <= 'f' ? c - 'a' + 10 : -1;
}

/* The bytes that hexadecimal digits say. */
static struct bytes bytes_of(const char *digits) {
    struct bytes bytes = room(strlen(digits) / 2);
    if (strlen(digits) % 2) turned_back("half a byte");
    for (size_t i = 0; i < bytes.length; i++) {
        int high = digit(digits[2 * i]), low = digit(digits[2 * i + 1]);
        if (high < 0 || low < 0) turned_back("a byte is two digits, 0 to 9 and a to f");
        bytes.at[i] = (uint8_t)(high * 16 + low);
    }
    return bytes;
}

static void bind_bytes(sqlite3_stmt *statement, int place, const char *digits, int as_text) {
    struct bytes bytes = bytes_of(digits);
    if (as_text) must_be_text(bytes);
    if (as_text) sqlite3_bind_text(statement, place, (char *)bytes.at, (int)bytes.length, SQLITE_TRANSIENT);
    else sqlite3_bind_blob(statement, place, bytes.at, (int)bytes.length, SQLITE_TRANSIENT);
    free(bytes.at);
}

/* A number as a log writes it, with no other sign before, in or behind it. */
static sqlite3_int64 number_of(const char *field) {
    char again[24];
    long long number = strtoll(field, NULL, 10);
    snprintf(again, sizeof again, "%lld", number);
    if (strcmp(again, field) != 0) turned_back("a field is no number");
    return number;
}

/* A dash alone stands for nothing. */
static void bind_field(sqlite3_stmt *statement, int place, char letter, const char *field) {
    if (letter == 'w') sqlite3_bind_text(statement, place, field, -1, SQLITE_TRANSIENT);
    else if (strcmp(field, "-") == 0) sqlite3_bind_null(statement, place);
    else if (letter == 'n') sqlite3_bind_int64(statement, place, number_of(field));
    else bind_bytes(statement, place, field, letter == 't');
}

/* ---- lines */

/* One line: its sum, its kind, and its fields, with a blank between them. */
static void insert_line(char *line, sqlite3_int64 entry) {
    char *fields[MOST_FIELDS] = {NULL};
    size_t n = 0;
    if (strlen(line) <= SUM || line[SUM] != ' ') turned_back("this line has no sum");
    line[SUM] = 0;
    for (char *at = line + SUM + 1; at; n++) {
        char *end = strchr(at, ' ');
        if (n == MOST_FIELDS) turned_back("this is no line of a log");
        if (end) *end++ = 0;
        fields[n] = at;
        at = end;
    }
    const struct form *form = form_of(fields[0], n - 1);
    sqlite3_stmt *statement = asked(form->insert, 0, NULL);
    for (size_t i = 1; i < n; i++) bind_field(statement, (int)i, form->fields[i - 1], fields[i]);
    bind_bytes(statement, (int)n, line, 0);
    if (form != FORMS) sqlite3_bind_int64(statement, (int)n + 1, entry);
    next_row(statement);
    sqlite3_finalize(statement);
}

/* The lines, ended by LF or CR LF; those that start with # say nothing, nor do empty ones. */
static void insert_lines(char *at) {
    sqlite3_int64 entry = 0;
    for (reading.line = 1; *at; reading.line++) {
        size_t length = strcspn(at, "\n");
        char *next = at + length + (at[length] == '\n');
        at[length] = 0;
        if (length > 0 && at[length - 1] == '\r') at[length - 1] = 0;
        if (*at && *at != '#') insert_line(at, entry++);
        at = next;
    }
    reading.line = 0;
}

/* Says what is wrong with what came in. */
static void must_hold(void) {
    sqlite3_stmt *check = asked("SELECT holds, 'the log does not hold: ' || fault || ' at ' || fault_at FROM hearing, hearing_check",
                                0, NULL);
    if (!next_row(check)) turned_back("there is no hearing in this log");
    if (!sqlite3_column_int(check, 0)) turned_back((const char *)column(check, 1).at);
    sqlite3_finalize(check);
}

/* The triggers would make times and sums of their own: they rest while the rows come in. */
void import_log(const char *name, const char *log) {
    if (options.as) fail("a log says who said each of its rows:", "--as is for steps, names and words");
    struct bytes whole = load(log);
    reading = (struct place){log, 0};
    must_be_text(whole);
    begin_new(name);
    sqlite3_db_config(db, SQLITE_DBCONFIG_ENABLE_TRIGGER, 0, NULL);
    done("BEGIN IMMEDIATE", 0, NULL);
    insert_lines((char *)whole.at);
    done("INSERT INTO snapshot SELECT 1, 0, ledger_begin(takes, parcels, signings) FROM hearing", 0, NULL);
    done("UPDATE step SET opened = (SELECT opened FROM replayed r WHERE r.number = step.number)", 0, NULL);
    must_hold();
    done("UPDATE snapshot SET (at, image) = (SELECT steps, image FROM now)", 0, NULL);
    done("COMMIT", 0, NULL);
    finish_new(name);
}
