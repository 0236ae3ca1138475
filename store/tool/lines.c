/* What is printed of a hearing. */
#define _XOPEN_SOURCE 700
#include <string.h>

#include "hearing.h"

/* How many bytes from here on are a character that is not shown as it is: controls, and those that turn the direction. */
static size_t hidden(const uint8_t *at, size_t length) {
    if (at[0] < 0x20 || at[0] == 0x7F) return 1;
    if (length > 1 && at[0] == 0xC2 && at[1] < 0xA0) return 2;
    if (length > 2 && at[0] == 0xE2 && at[1] == 0x80 && at[2] >= 0x8E && at[2] <= 0x8F) return 3;
    if (length > 2 && at[0] == 0xE2 && at[1] == 0x80 && at[2] >= 0xA8 && at[2] <= 0xAE) return 3;
    if (length > 2 && at[0] == 0xE2 && at[1] == 0x81 && at[2] >= 0xA6 && at[2] <= 0xA9) return 3;
    return 0;
}

void tell_text(FILE *to, struct bytes text) {
    for (size_t i = 0; i < text.length;) {
        size_t n = hidden(text.at + i, text.length - i);
        if (text.at[i] == '\n') fputs("\\n", to);
        else if (text.at[i] == '\\') fputs("\\\\", to);
        else if (n == 0) fputc(text.at[i], to);
        for (size_t k = 0; k < n && text.at[i] != '\n'; k++) fprintf(to, "\\x%02x", text.at[i + k]);
        i += n ? n : 1;
    }
}

struct bytes shown(struct bytes text) {
    char *at = NULL;
    size_t length = 0;
    FILE *to = open_memstream(&at, &length);
    if (!to) fail_errno("can't show", "a name");
    tell_text(to, text);
    if (fclose(to) != 0) fail_errno("can't show", "a name");
    return (struct bytes){(uint8_t *)at, length};
}

void tell_rows(const char *text) {
    sqlite3_stmt *statement = asked(text, 0, NULL);
    int columns = sqlite3_column_count(statement);
    while (next_row(statement))
        for (int i = 0; i < columns; i++) {
            tell_text(stdout, column(statement, i));
            putchar(i + 1 < columns ? ' ' : '\n');
        }
    sqlite3_finalize(statement);
}

void tell_row(sqlite3_stmt *statement) {
    struct bytes step = column(statement, 1), reply = column(statement, 2);
    uint8_t said[NOTATION_LINE], told[NOTATION_LINE];
    if (step.length != LEDGER_STEP || reply.length != LEDGER_STEP) turned_back("a row of the log is not whole: see check");
    size_t n = step_words(step.at, LEDGER_STEP, 0, said), m = reply_words(step.at, reply.at, told);
    printf("%lld %.*s # %s%.*s%s", (long long)sqlite3_column_int64(statement, 0), (int)n, (const char *)said,
           colour(ledger_reply_outcome(reply.at)), (int)m, (const char *)told, plain());
}
