/* Tables as CSV, as spreadsheets write them: fields in quotes where need be, commas or semicolons, LF or CR LF. */
#include <string.h>

#include "hearing.h"

enum { COLUMNS = 3 };

/* Whether a field that is not in quotes ends here. */
static int ends(const char *at, char separator) {
    return *at == separator || *at == '\n' || (*at == '\r' && at[1] == '\n');
}

/* One field, written to *to with a zero byte behind it; *ended is what ended it, and *at is left behind that. */
static const char *field(const char **at, char separator, char **to, char *ended) {
    const char *from = *at, *start = *to;
    int quoted = *from == '"';
    for (from += quoted; *from; from++) {
        if (quoted && from[0] == '"' && from[1] == '"') from++;
        else if (quoted && *from == '"') {
            quoted = 0;
            continue;
        } else if (!quoted && ends(from, separator)) break;
        *(*to)++ = *from;
    }
    if (quoted) turned_back("a quote is not closed");
    *(*to)++ = 0;
    *ended = *from;
    *at = from + (*from == '\r' ? 2 : *from != 0);
    return start;
}

/* The fields of the next row; how many it has. */
static int next_fields(const char **at, char separator, char **to, const char **fields) {
    int n = 0;
    char ended;
    do {
        const char *given = field(at, separator, to, &ended);
        if (n < COLUMNS) fields[n] = given;
        n++;
    } while (ended == separator);
    return n;
}

/* Ten digits hold every number of a take or a text; the tables look at its size. */
static int is_number(const char *field) {
    size_t n = strspn(field, "0123456789");
    return n > 0 && n <= 10 && field[n] == 0;
}

void read_table(const char *name, void (*row)(const char *const *fields)) {
    struct bytes whole = load(name);
    char *to = (char *)room(whole.length + 1).at, separator;
    const char *at = (const char *)whole.at, *start = at;
    reading = (struct place){name, 0};
    must_be_text(whole);
    separator = at[strcspn(at, ",;\n")] == ';' ? ';' : ',';
    for (reading.line = 1; *at; start = at) {
        const char *fields[COLUMNS] = {"", "", ""};
        int n = next_fields(&at, separator, &to, fields), head = reading.line == 1 && (fields[0][0] < '0' || fields[0][0] > '9');
        if (!head && !(n == 1 && fields[0][0] == 0)) { /* the head of the table, or an empty line */
            if (n != COLUMNS) turned_back("a row of the table has not its three columns");
            if (!is_number(fields[0])) turned_back("the first column is no number");
            row(fields);
        }
        for (; start < at; start++) reading.line += *start == '\n';
    }
}

/* A field, in quotes where need be. */
static void tell_field(struct bytes text, int last) {
    int quotes = 0;
    for (size_t i = 0; i < text.length; i++) quotes |= memchr(",;\"\r\n", text.at[i], 5) != NULL;
    if (quotes) putchar('"');
    for (size_t i = 0; i < text.length; i++) {
        if (text.at[i] == '"') putchar('"');
        putchar(text.at[i]);
    }
    fputs(quotes ? last ? "\"\n" : "\"," : last ? "\n" : ",", stdout);
}

void tell_table(const char *text) {
    sqlite3_stmt *row = asked(text, 0, NULL);
    int columns = sqlite3_column_count(row);
    for (int i = 0; i < columns; i++) printf("%s%s", sqlite3_column_name(row, i), i + 1 == columns ? "\n" : ",");
    while (next_row(row))
        for (int i = 0; i < columns; i++) tell_field(column(row, i), i + 1 == columns);
    sqlite3_finalize(row);
}
