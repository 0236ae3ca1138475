/* Step lists as text: parsing and printing are the library's; here are lines, comments and names. */
#include <stdio.h>
#include <stdlib.h>
#include <string.h>

#include "tool.h"

struct bytes steps_of(const char *name, struct bytes text) {
    struct bytes list = room(LEDGER_STEP * (text.length + 1));
    size_t line, column;
    uint8_t expected;
    list.length = LEDGER_STEP * notation_parse(text.at, text.length, list.at, list.length, &line, &column, &expected);
    if (expected != NOTATION_NOTHING) {
        uint8_t words[NOTATION_LINE];
        size_t n = notation_expected_text(expected, words, sizeof words).length;
        fprintf(stderr, "%s:%zu:%zu: expected %.*s\n", name, line, column, (int)n, (const char *)words);
        exit(NO);
    }
    return list;
}

struct bytes list_of(const char *name, struct bytes file) {
    return kind_of(file) == STEPS_FILE ? file : steps_of(name, file);
}

struct bytes text_of(struct bytes list) {
    struct bytes out = room(NOTATION_STEP * (list.length / LEDGER_STEP) + NOTATION_LINE);
    size_t n = 0;
    for (size_t i = 0; i < list.length / LEDGER_STEP; i++)
        n += notation_step(list.at, list.length, i, out.at + n, out.length - n).length;
    out.length = n;
    return out;
}

/* The next line, without its LF; whether there is one. */
static int next_line(struct bytes text, size_t *from, struct bytes *line) {
    if (*from >= text.length) return 0;
    uint8_t *start = text.at + *from, *end = memchr(start, '\n', text.length - *from);
    line->at = start;
    line->length = end ? (size_t)(end - start) : text.length - *from;
    *from += line->length + 1;
    return 1;
}

static int step_in(struct bytes line, uint8_t *step) {
    size_t l, c;
    uint8_t expected;
    return notation_parse(line.at, line.length, step, LEDGER_STEP, &l, &c, &expected) == 1;
}

static int blank(uint8_t c) { return c == ' ' || c == '\t' || c == '\r'; }

/* From # on, without the blanks at its end; empty where there is none. */
static struct bytes comment_in(struct bytes line) {
    uint8_t *hash = memchr(line.at, '#', line.length);
    struct bytes c = {hash, hash ? line.length - (size_t)(hash - line.at) : 0};
    while (c.length > 0 && blank(c.at[c.length - 1])) c.length--;
    return c;
}

/* One line: its step in canonical form, and its comment. */
static size_t format_line(struct bytes line, uint8_t *out) {
    struct bytes comment = comment_in(line);
    uint8_t step[LEDGER_STEP];
    size_t n = step_in(line, step) ? notation_step(step, sizeof step, 0, out, NOTATION_LINE).length - 1 : 0;
    if (comment.length > 0) {
        if (n > 0) out[n++] = ' ';
        memcpy(out + n, comment.at, comment.length);
        n += comment.length;
    }
    out[n] = '\n';
    return n + 1;
}

static size_t lines_in(struct bytes text) {
    size_t lines = 1;
    for (size_t i = 0; i < text.length; i++) lines += text.at[i] == '\n';
    return lines;
}

struct bytes formatted(struct bytes text) {
    struct bytes out = room(text.length + (NOTATION_STEP + 2) * lines_in(text) + NOTATION_LINE), line;
    size_t n = 0, from = 0;
    while (next_line(text, &from, &line)) n += format_line(line, out.at + n);
    out.length = n;
    return out;
}

struct bytes *comments_of(struct bytes text, size_t steps) {
    struct bytes *comments = (struct bytes *)(void *)room(sizeof *comments * (steps + 1)).at, line;
    uint8_t step[LEDGER_STEP];
    for (size_t from = 0, i = 0; i < steps && next_line(text, &from, &line);) {
        if (!step_in(line, step)) continue;
        struct bytes c = comment_in(line);
        if (c.length > 0) c.at++, c.length--;
        while (c.length > 0 && blank(*c.at)) c.at++, c.length--;
        comments[i++] = c;
    }
    return comments;
}

/* One that is a reply, from a text that was run before, gives what it has in brackets: so a name stays what it is
 * however often the text is run, also where the reply is no longer the same. */
struct bytes name_in(const uint8_t *step, struct bytes comment) {
    for (unsigned i = 0; i < 32; i++) {
        uint8_t reply[LEDGER_STEP] = {0}, words[NOTATION_LINE];
        reply[i < LEDGER_TRANSACTORS ? 1 : 0] = (uint8_t)i; /* done, by the take opened; from 16 on a refusal */
        size_t n = reply_words(step, reply, words);
        if (comment.length < n || memcmp(comment.at, words, n) != 0) continue;
        struct bytes rest = {comment.at + n, comment.length - n};
        if (rest.length == 0) return rest;
        if (rest.length < 3 || memcmp(rest.at, " (", 2) != 0 || rest.at[rest.length - 1] != ')') continue;
        return (struct bytes){rest.at + 2, rest.length - 3};
    }
    return comment;
}
