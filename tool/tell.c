/* What is printed: words, names, colours, JSON. */
#define _XOPEN_SOURCE 700
#include <stdio.h>
#include <stdlib.h>
#include <string.h>
#include <unistd.h>

#include "tool.h"

struct bytes take_names[LEDGER_TRANSACTORS];

/* ---- the library's words */

size_t step_words(const uint8_t *list, size_t length, size_t i, uint8_t *out) {
    size_t n = notation_step(list, length, i, out, NOTATION_LINE).length;
    return n > 0 ? n - 1 : 0; /* without its LF */
}

size_t reply_words(const uint8_t *step, const uint8_t *reply, uint8_t *out) {
    return notation_reply(step, LEDGER_STEP, reply, LEDGER_STEP, 0, out, NOTATION_LINE).length;
}

/* ---- names */

void note_names(struct bytes text, const uint8_t *image) {
    static uint8_t copy[LEDGER_IMAGE];
    struct bytes list = steps_of(options.names ? options.names : "the list", text);
    struct bytes *comments = comments_of(text, list.length / LEDGER_STEP);
    memcpy(copy, image, sizeof copy);
    for (size_t i = 0; i < list.length / LEDGER_STEP; i++) {
        const uint8_t *step = list.at + LEDGER_STEP * i;
        uint8_t reply[LEDGER_STEP];
        if (ledger_run(copy, sizeof copy, step, LEDGER_STEP, 0, LEDGER_STEP, reply, sizeof reply)) return;
        unsigned kind = step[0] >> 4;
        if ((kind != LEDGER_ROOT && kind != LEDGER_NEW) || ledger_reply_outcome(reply) != LEDGER_OUTCOME_DONE) continue;
        take_names[ledger_reply_transactor(reply) % LEDGER_TRANSACTORS] = name_in(step, comments[i]);
    }
}

static void tell_name(unsigned take) {
    struct bytes name = take < LEDGER_TRANSACTORS ? take_names[take] : (struct bytes){0};
    if (name.length == 0) return;
    fputs(" (", stdout);
    fwrite(name.at, 1, name.length, stdout); /* a name has any bytes, so printf won't do */
    putchar(')');
}

void tell_take(unsigned take) {
    printf("take %u", take);
    tell_name(take);
}

/* ---- volumes and steps */

/* " (speaker names, page 1)": the takes of a volume by their names, where one has a name. */
static void tell_members(unsigned volume) {
    const char *between = " (";
    int named = 0;
    for (unsigned t = 0; t < LEDGER_TRANSACTORS; t++) named |= (volume >> t & 1) && take_names[t].length > 0;
    for (unsigned t = 0; named && t < LEDGER_TRANSACTORS; t++) {
        if (!(volume >> t & 1)) continue;
        fputs(between, stdout);
        if (take_names[t].length > 0) fwrite(take_names[t].at, 1, take_names[t].length, stdout);
        else printf("take %u", t);
        between = ", ";
    }
    if (named) putchar(')');
}

void tell_volume(unsigned volume) {
    uint8_t step[LEDGER_STEP], line[NOTATION_LINE];
    ledger_step(step, LEDGER_SIGN, 0, 0, volume, 0);
    size_t n = step_words(step, sizeof step, 0, line), word = strlen("sign ");
    if (volume == 0) fputs("nobody", stdout);
    else fwrite(line + word, 1, n - word, stdout);
    tell_members(volume);
}

/* The takes that a step's line names, for a reader who goes by names. */
void tell_step(const uint8_t *step) {
    uint8_t line[NOTATION_LINE];
    fwrite(line, 1, step_words(step, LEDGER_STEP, 0, line), stdout);
    unsigned kind = step[0] >> 4, take = step[0] & 15u, other = step[1] >> 4;
    if (kind == LEDGER_SIGN) tell_members((unsigned)step[2] << 8 | step[3]);
    else if (kind == LEDGER_SEND) tell_members(1u << take | 1u << other);
    else if (kind == LEDGER_LETTER || (kind >= LEDGER_NEW && kind <= LEDGER_FAIL)) tell_members(1u << take);
}

/* ---- colours */

static int coloured(void) {
    const char *no = getenv("NO_COLOR");
    return isatty(STDOUT_FILENO) && !(no && *no);
}

const char *colour(unsigned outcome) {
    static const char *const OF[] = {"", "\033[2m", "\033[33m", "\033[33m", "\033[33m", "\033[36m"};
    if (!coloured()) return "";
    return outcome <= LEDGER_OUTCOME_NOT_READY ? OF[outcome] : "\033[31m";
}

const char *plain(void) { return coloured() ? "\033[0m" : ""; }

/* ---- JSON */

/* How many bytes the character at the front has; 0 where it is no UTF-8. */
static size_t character(const uint8_t *at, size_t length) {
    static const uint32_t LEAST[] = {0, 0, 0x80, 0x800, 0x10000};
    size_t n = at[0] < 0x80 ? 1 : at[0] >> 5 == 6 ? 2 : at[0] >> 4 == 14 ? 3 : at[0] >> 3 == 30 ? 4 : 0;
    uint32_t c = n == 1 ? at[0] : n == 0 ? 0 : at[0] & (0x7Fu >> n);
    if (n == 0 || n > length) return 0;
    for (size_t i = 1; i < n; i++) {
        if (at[i] >> 6 != 2) return 0;
        c = c << 6 | (at[i] & 0x3Fu);
    }
    return c < LEAST[n] || c > 0x10FFFF || (c >> 11 == 0x1B) ? 0 : n;
}

int is_utf8(struct bytes text) {
    size_t n = 1;
    for (size_t i = 0; i < text.length && n > 0; i += n) n = character(text.at + i, text.length - i);
    return n > 0;
}

void json_string(struct bytes text) {
    putchar('"');
    for (size_t i = 0; i < text.length;) {
        uint8_t c = text.at[i];
        size_t n = character(text.at + i, text.length - i);
        if (n == 0) fputs("\\ufffd", stdout);
        else if (c < 0x20 || c == '"' || c == '\\' || c == 0x7F) printf("\\u%04x", c);
        else fwrite(text.at + i, 1, n, stdout);
        i += n == 0 ? 1 : n;
    }
    putchar('"');
}

void json_word(const char *text) {
    union { const char *from; uint8_t *at; } word = {text};
    json_string((struct bytes){word.at, strlen(text)});
}

void json_volume(unsigned volume) {
    const char *between = "";
    putchar('[');
    for (unsigned t = 0; t < LEDGER_TRANSACTORS; t++)
        if (volume >> t & 1) printf("%s%u", between, t), between = ", ";
    putchar(']');
}
