/* Names in the place of numbers. What a step is stays the library's affair: a text that is a step as it stands is that step,
 * whatever names there are, so that nobody changes what others say by naming a take `0,1`. */
#include <ctype.h>
#include <stdlib.h>
#include <string.h>

#include "hearing.h"

/* The takes that have names; the longest first, those that vanished behind the others of the same length. */
static struct {
    struct bytes name;
    unsigned take;
    int vanished;
} named[LEDGER_TRANSACTORS];
static size_t names;

static struct bytes kept_copy(struct bytes text) {
    struct bytes copy = room(text.length);
    if (text.length > 0) memcpy(copy.at, text.at, text.length);
    return copy;
}

static void note_all(void) {
    sqlite3_stmt *rows = asked("SELECT h.name, h.take, t.status = 'vanished' FROM now, ledger_takes(now.image) t JOIN holder h"
                               " ON h.take = t.take WHERE h.name IS NOT NULL ORDER BY length(h.name) DESC, 3, 2", 0, NULL);
    for (names = 0; names < LEDGER_TRANSACTORS && next_row(rows); names++) {
        named[names].name = kept_copy(column(rows, 0));
        named[names].take = (unsigned)sqlite3_column_int(rows, 1) % LEDGER_TRANSACTORS;
        named[names].vanished = sqlite3_column_int(rows, 2);
    }
    sqlite3_finalize(rows);
}

static int same(struct bytes a, struct bytes b) { return a.length == b.length && memcmp(a.at, b.at, a.length) == 0; }

/* The take of name i; two that have it, and did not vanish, are none. */
static unsigned only_take(size_t i) {
    for (size_t k = i + 1; k < names; k++) {
        if (!same(named[i].name, named[k].name) || named[i].vanished != named[k].vanished) continue;
        fprintf(stderr, "take-ledger: takes %u and %u have the same name, so give a number: ", named[i].take, named[k].take);
        tell_text(stderr, named[i].name);
        fputc('\n', stderr);
        exit(NO);
    }
    return named[i].take;
}

/* ---- in a step */

static int inside_word(uint8_t c) { return isalnum(c) || c == '_' || (c & 128); }

static int word_of_steps(const uint8_t *word, size_t length) {
    static const char *const words[] = {"root", "letter", "receive", "new",  "send", "read", "write", "freeze", "done",
                                        "fall", "fail",   "lose",    "sign", "raw",  "to",   "text"};
    for (size_t i = 0; i < sizeof words / sizeof *words; i++)
        if (strlen(words[i]) == length && memcmp(words[i], word, length) == 0) return 1;
    return 0;
}

/* Whether a name can stand in a step. One with a word or a sign of the notation in it could be read as more than a name, one
 * of digits as a number: such takes are given by their numbers. */
static int usable(struct bytes name) {
    int digits = 1;
    for (size_t i = 0, start = 0; i <= name.length; i++) {
        uint8_t c = i < name.length ? name.at[i] : ' ';
        if (memchr("{},#", c, 4) || c < ' ' || c == 127) return 0;
        if (i < name.length && (c < '0' || c > '9')) digits = 0;
        if (c != ' ') continue;
        if (i == start || word_of_steps(name.at + start, i - start)) return 0; /* two blanks, or one at an end, too */
        start = i + 1;
    }
    return !digits;
}

/* The place in `named` of the name that begins here, the longest first; `names` for none. */
static size_t name_here(struct bytes text, size_t at) {
    if (at > 0 && inside_word(text.at[at - 1])) return names;
    for (size_t i = 0; i < names; i++) {
        size_t end = at + named[i].name.length;
        if (end > text.length || !usable(named[i].name)) continue;
        if (memcmp(text.at + at, named[i].name.at, named[i].name.length) != 0) continue;
        if (end == text.length || !inside_word(text.at[end])) return i;
    }
    return names;
}

static char *with_numbers(struct bytes text) {
    sqlite3_str *out = sqlite3_str_new(db);
    for (size_t at = 0; at < text.length;) {
        size_t i = name_here(text, at);
        if (i < names) sqlite3_str_appendf(out, "%u", only_take(i));
        else sqlite3_str_appendchar(out, 1, (char)text.at[at]);
        at += i < names ? named[i].name.length : 1;
    }
    char *step = sqlite3_str_finish(out);
    if (!step) fail("no memory for", "a step");
    return step;
}

/* The step of a text; what the library expects at the first fault, NOTATION_NOTHING for a whole step. */
static unsigned fault_of(const char *text, uint8_t step[LEDGER_STEP], size_t *column) {
    uint8_t expected;
    size_t line;
    struct bytes list = room(LEDGER_STEP * (strlen(text) + 1));
    size_t steps = notation_parse((const uint8_t *)text, strlen(text), list.at, list.length, &line, column, &expected);
    if (expected == NOTATION_NOTHING && steps != 1) turned_back("one step is wanted");
    memcpy(step, list.at, LEDGER_STEP);
    free(list.at);
    return expected;
}

void step_said(const char *text, uint8_t step[LEDGER_STEP]) {
    union { const char *from; uint8_t *at; } word = {text};
    uint8_t words[NOTATION_LINE];
    size_t column, ignored;
    must_be_text((struct bytes){word.at, strlen(text)});
    if (fault_of(text, step, &column) == NOTATION_NOTHING) return;
    note_all();
    char *numbered = with_numbers((struct bytes){word.at, strlen(text)}), *whole = sqlite3_mprintf("%s text 0", numbered);
    unsigned expected = fault_of(numbered, step, &column);
    if (!whole) fail("no memory for", "a step");
    if (expected == NOTATION_NOTHING) return;
    if (expected == NOTATION_WORD_TEXT && fault_of(whole, step, &ignored) == NOTATION_NOTHING) return;
    size_t n = notation_expected_text((uint8_t)expected, words, sizeof words).length;
    fprintf(stderr, "take-ledger: %s: column %zu: expected %.*s\n", numbered, column, (int)n, (const char *)words);
    exit(NO);
}

/* ---- as a word of the command line */

static int opened;

unsigned hearing_take(const char *word) {
    union { const char *from; uint8_t *at; } given = {word};
    struct bytes name = {given.at, strlen(word)};
    if (*word && strspn(word, "0123456789") == name.length) return (unsigned)number_in(word, 65535, "a take");
    for (size_t i = 0; i < names; i++)
        if (same(named[i].name, name)) return only_take(i);
    fail("no take has this name:", word);
    return 0;
}

int hearing_opened(void) { return opened; }

struct bytes hearing_image(const char *name) {
    if (options.names) fail("a hearing has its names:", "--names is for images");
    if (opened) fail("one hearing at a time:", name);
    open_hearing(name);
    note_all();
    for (size_t i = names; i-- > 0;) take_names[named[i].take] = shown(named[i].name);
    sqlite3_stmt *now = asked("SELECT image FROM now", 0, NULL);
    if (!next_row(now)) turned_back("no image in this file: see check");
    struct bytes image = kept_copy(column(now, 0));
    sqlite3_finalize(now);
    opened = 1;
    return image;
}
