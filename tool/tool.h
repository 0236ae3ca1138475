/* What the parts of the program take-ledger share. No rule and no grammar stands in any of them: every
 * answer is the proved libraries'. */
#ifndef TOOL_H
#define TOOL_H

#include <stddef.h>
#include <stdint.h>

#include "ledger.h"
#include "looking.h"
#include "notation.h"

enum { DONE = 0, NO = 1, WRONG = 2 }; /* exit status */

struct bytes {
    uint8_t *at;
    size_t length;
};

/* What the command line says beside its words. */
struct options {
    int force;          /* --force: replace a file of another kind */
    int json;           /* --json */
    int strict;         /* --strict: a refused step ends a run with status 1 */
    const char *from;   /* --from IMAGE: in the place of a fresh session */
    const char *names;  /* --names TEXT: names of takes, from the comments of a list */
    const char *as;     /* --as NAME: who says a step */
    size_t limits[3];   /* --limits T,P,S */
    int limited;        /* whether --limits was given */
};

extern struct options options;

/* A verb, how many words it takes, which options it knows, and whether it is one of hearings alone. */
struct verb {
    const char *name;
    int least, most;
    int (*act)(int count, char **words);
    const char *options;
    int hearings;
};

/* ---- main.c */

/* Says what is wrong, with errno in words where it tells more, and ends with status 2. */
void fail(const char *what, const char *name);
void fail_errno(const char *what, const char *name);
/* Bytes that are zero, with one more behind them that is too. */
struct bytes room(size_t length);

/* ---- files.c */

/* What a file is, by what the libraries say of its bytes. */
enum kind { NOTHING_THERE, EMPTY, IMAGE_FILE, OLD_IMAGE_FILE, TEXT_FILE, STEPS_FILE, OTHER_FILE, NEW_TEXT };

enum kind kind_of(struct bytes b);
/* Reads a file, or standard input where the name is "-". */
struct bytes load(const char *name);
/* Writes a file of this kind, or standard output where the name is NULL or "-". A file that is there is replaced
 * only if it is empty or of the same kind, or with --force; never the file `source`, the one that --from names, one that
 * is read-only, or one that another program writes at the same time. No file that is there is of the kind NEW_TEXT. */
void save(const char *name, const char *source, enum kind kind, const uint8_t *at, size_t length);
/* Ends with status 2 if save would not write: asked before anything is printed. */
void may_save(const char *name, const char *source, enum kind kind);
/* Reads a file, to write it in its own place: not where it is another one by then. */
struct bytes load_to_rewrite(const char *name);
void rewrite(const char *name, const uint8_t *at, size_t length);

/* ---- texts.c */

/* The steps that a text says; a fault is told with its place, and ends with status 1. */
struct bytes steps_of(const char *name, struct bytes text);
/* The steps of a file, which is a text or packed. */
struct bytes list_of(const char *name, struct bytes file);
/* The text of a list, a step a line. */
struct bytes text_of(struct bytes list);
/* A text in its canonical form, comments kept. */
struct bytes formatted(struct bytes text);
/* For each of so many steps of a text the comment on its line, without # and blanks around it. */
struct bytes *comments_of(struct bytes text, size_t steps);
/* The name that a comment on this step gives to the take that it opens; empty if none. */
struct bytes name_in(const uint8_t *step, struct bytes comment);

/* ---- tell.c */

/* The names of the takes, by number; empty where there is none. */
extern struct bytes take_names[LEDGER_TRANSACTORS];

/* Notes the names that the comments of a text give, played from this image. */
void note_names(struct bytes text, const uint8_t *image);
/* Colours on a terminal, unless NO_COLOR is set. */
const char *colour(unsigned outcome);
const char *plain(void);
/* "take 3 (page 1)". */
void tell_take(unsigned take);
/* "{0,3}", or "nobody"; then the names, where there are some. */
void tell_volume(unsigned volume);
/* A step in words, without LF, its takes with names. */
void tell_step(const uint8_t *step);
/* Whether a text is UTF-8. */
int is_utf8(struct bytes text);
/* A string of JSON; bytes that are no UTF-8 become U+FFFD. */
void json_string(struct bytes text);
void json_word(const char *text);
/* The takes of a volume, as a list of JSON. */
void json_volume(unsigned volume);
/* The words of step i of a list, or of its reply; with room of NOTATION_LINE bytes. */
size_t step_words(const uint8_t *list, size_t length, size_t i, uint8_t *out);
size_t reply_words(const uint8_t *step, const uint8_t *reply, uint8_t *out);

/* ---- sessions.c and asks.c: the verbs; words are what follows the verb */

int verb_fmt(int count, char **words);
int verb_pack(int count, char **words);
int verb_unpack(int count, char **words);
int verb_run(int count, char **words);
int verb_thin(int count, char **words);
int verb_convert(int count, char **words);
int verb_window(int count, char **words);
int verb_show(int count, char **words);
int verb_diff(int count, char **words);
int verb_why(int count, char **words);
int verb_who(int count, char **words);
int verb_plan(int count, char **words);
int verb_offer(int count, char **words);
int verb_ready(int count, char **words);
int verb_decide(int count, char **words);
int verb_same(int count, char **words);

/* ---- hearings.c: the verbs of hearings are in store/tool, in a program of its own that is linked with SQLite */

/* Whether a name is that of a file of SQLite, as a hearing is. A pipe is not looked into. */
int is_hearing(const char *name);
/* Whether a call is about a hearing, and this program is the one without SQLite. */
int about_hearing(const struct verb *verb, int count, char **words);
/* Runs take-ledger-hearing, which stands beside this program, with the same words in its place. */
int hand_over(char **words);

#ifdef HEARINGS
int verb_new(int count, char **words);
int verb_do(int count, char **words);
int verb_log(int count, char **words);
int verb_status(int count, char **words);
int verb_check(int count, char **words);
int verb_export(int count, char **words);
int verb_import(int count, char **words);

/* The image of a hearing as it stands; the names of its takes are noted. */
struct bytes hearing_image(const char *name);
/* A take of the hearing that was opened, by its number or its name. */
unsigned hearing_take(const char *word);
/* Whether one was. */
int hearing_opened(void);
#endif

/* A number in digits, at most `most`; else status 2. */
size_t number_in(const char *word, size_t most, const char *what);
/* A take by its number, or by its name where names are known; status 2 for anything else. */
unsigned take_in(const char *word);
/* An image from a file, refused in words where it is none, with status 1. */
struct bytes image_in(const char *name);
/* Says a refusal of a call about a file in the library's words; status 1. */
int refused(const char *name, unsigned number);

#endif
