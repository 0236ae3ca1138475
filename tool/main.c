/* take-ledger: step lists and images from a command line, over the proved libraries. help.txt says what it does. */
#define _XOPEN_SOURCE 700
#include <errno.h>
#include <fcntl.h>
#include <signal.h>
#include <stdio.h>
#include <stdlib.h>
#include <string.h>

#include "help.h"
#include "tool.h"

struct options options = {.limits = {LEDGER_TRANSACTORS, LEDGER_MESSAGES, LEDGER_CHECKPOINTS}};

void fail(const char *what, const char *name) {
    fprintf(stderr, "take-ledger: %s %s\n", what, name);
    exit(WRONG);
}

void fail_errno(const char *what, const char *name) {
    fprintf(stderr, "take-ledger: %s %s: %s\n", what, name, strerror(errno));
    exit(WRONG);
}

struct bytes room(size_t length) {
    struct bytes b = {calloc(length + 1, 1), length};
    if (!b.at) fail("no memory for", "a file");
    return b;
}

/* The output is out, or this fails: nobody is to take a part for the whole. */
static int finished(int status) {
    if (fflush(stdout) || ferror(stdout)) fail_errno("can't write", "the output");
    return status;
}

#ifdef HEARINGS
#define OF_HEARINGS(verb) verb
#else
#define OF_HEARINGS(verb) NULL /* handed over */
#endif

static const struct verb VERBS[] = {
    {"fmt", 1, 1, verb_fmt, "", 0},
    {"pack", 1, 2, verb_pack, "force", 0},
    {"unpack", 1, 2, verb_unpack, "force", 0},
    {"run", 1, 2, verb_run, "force from limits strict json", 0},
    {"thin", 1, 2, verb_thin, "force from limits", 0},
    {"same", 2, 2, verb_same, "from limits names", 0},
    {"window", 2, 2, verb_window, "from limits json", 0},
    {"show", 1, 1, verb_show, "names json", 0},
    {"diff", 2, 2, verb_diff, "", 0},
    {"why", 2, 17, verb_why, "names json", 0},
    {"who", 2, 2, verb_who, "names json", 0},
    {"plan", 2, 2, verb_plan, "names json", 0},
    {"offer", 2, 2, verb_offer, "names json", 0},
    {"ready", 1, 2, verb_ready, "json", 0},
    {"decide", 2, 2, verb_decide, "names json", 0},
    {"convert", 1, 2, verb_convert, "force", 0},
    {"new", 3, 3, OF_HEARINGS(verb_new), "limits", 1},
    {"do", 2, 2, OF_HEARINGS(verb_do), "as", 1},
    {"log", 1, 1, OF_HEARINGS(verb_log), "", 1},
    {"status", 1, 1, OF_HEARINGS(verb_status), "", 1},
    {"check", 1, 2, OF_HEARINGS(verb_check), "", 1},
    {"export", 2, 2, OF_HEARINGS(verb_export), "", 1},
    {"import", 3, 3, OF_HEARINGS(verb_import), "as", 1},
};

static const struct verb *verb_of(const char *name) {
    for (size_t i = 0; i < sizeof VERBS / sizeof *VERBS; i++)
        if (strcmp(VERBS[i].name, name) == 0) return &VERBS[i];
    return NULL;
}

/* ---- help */

enum { HELP_LINES = sizeof HELP / sizeof *HELP };

static int help_all(FILE *to) {
    for (size_t i = 0; i < HELP_LINES; i++) fputs(HELP[i], to);
    return finished(DONE);
}

/* What the help says of one verb: from its line up to the next empty one. */
static int help_verb(const char *name, FILE *to) {
    char line[64];
    size_t at = 0;
    snprintf(line, sizeof line, "  take-ledger %.40s ", name);
    while (at < HELP_LINES && strncmp(HELP[at], line, strlen(line)) != 0) at++;
    if (at == HELP_LINES || !verb_of(name)) {
        fprintf(stderr, "take-ledger: no verb %s; take-ledger help lists them\n", name);
        return WRONG;
    }
    for (; at < HELP_LINES && HELP[at][0] != '\n'; at++) fputs(HELP[at], to);
    return finished(DONE);
}

static int wrong_use(const char *what, const char *word) {
    fprintf(stderr, "take-ledger: %s%s; take-ledger help says more\n", what, word);
    return WRONG;
}

/* ---- options */

static void read_limits(const char *word) {
    unsigned long t, p, s;
    char rest;
    if (strspn(word, "0123456789,") != strlen(word) || sscanf(word, "%5lu,%5lu,%5lu%c", &t, &p, &s, &rest) != 3)
        fail("three numbers are wanted, as 4,8,15, and not", word);
    options.limits[0] = t, options.limits[1] = p, options.limits[2] = s, options.limited = 1;
}

/* Whether a list of words has this one. */
static int has_word(const char *list, const char *word) {
    size_t n = strlen(word);
    for (const char *at = list; (at = strstr(at, word)); at++)
        if ((at == list || at[-1] == ' ') && (at[n] == 0 || at[n] == ' ')) return 1;
    return 0;
}

/* Takes an option; whether it used the next word too. */
static int read_option(const struct verb *verb, const char *word, const char *next) {
    const char *name = word + 2;
    if (word[1] != '-' || *name == 0 || !has_word(verb->options, name)) fail("no such option of this verb:", word);
    if (strcmp(name, "force") == 0) return options.force = 1, 0;
    if (strcmp(name, "json") == 0) return options.json = 1, 0;
    if (strcmp(name, "strict") == 0) return options.strict = 1, 0;
    if (!next) fail("something is wanted behind", word);
    if (strcmp(name, "from") == 0) return options.from = next, 1;
    if (strcmp(name, "names") == 0) return options.names = next, 1;
    if (strcmp(name, "as") == 0) return options.as = next, 1;
    if (strcmp(name, "limits") == 0) return read_limits(next), 1;
    fail("no such option:", word);
    return 0;
}

/* Options wherever they stand, up to "--"; the other words are moved to the front. */
static int words_left(const struct verb *verb, int count, char **words) {
    int left = 0, options_end = 0;
    for (int i = 0; i < count; i++) {
        if (options_end || words[i][0] != '-' || words[i][1] == 0) words[left++] = words[i];
        else if (strcmp(words[i], "--") == 0) options_end = 1;
        else i += read_option(verb, words[i], i + 1 < count ? words[i + 1] : NULL);
    }
    return left;
}

static int asks_help(int count, char **words) {
    for (int i = 0; i < count; i++) {
        if (strcmp(words[i], "--") == 0) return 0;
        if (strcmp(words[i], "--help") == 0 || strcmp(words[i], "-h") == 0) return 1;
    }
    return 0;
}

/* A standard stream that is closed would become the first file that is opened, and be written to: it is held open, so
 * that what is read from it or written to it fails. A file over its limit fails too, and does not end the program. */
static void hold_streams(void) {
    for (int f = 0; f <= 2; f++)
        if (fcntl(f, F_GETFD) < 0 && open("/dev/null", f == 0 ? O_WRONLY : O_RDONLY) != f) exit(WRONG);
    signal(SIGXFSZ, SIG_IGN);
}

int main(int count, char **words) {
    hold_streams();
    const char *name = count > 1 ? words[1] : "";
    if (*name == 0) return wrong_use("a verb is wanted", "");
    if (strcmp(name, "--help") == 0 || strcmp(name, "-h") == 0 || (strcmp(name, "help") == 0 && count == 2)) return help_all(stdout);
    if (strcmp(name, "help") == 0) return help_verb(words[2], stdout);
    if (strcmp(name, "--version") == 0) {
        uint32_t v = ledger_version();
        printf("take-ledger %u.%u.%u\n", (unsigned)(v >> 16), (unsigned)(v >> 8 & 255), (unsigned)(v & 255));
        return finished(DONE);
    }
    const struct verb *verb = verb_of(name);
    if (!verb) return wrong_use("no verb ", name);
    if (asks_help(count - 2, words + 2)) return help_verb(name, stdout);
    if (about_hearing(verb, count - 2, words + 2)) return hand_over(words);
    int left = words_left(verb, count - 2, words + 2);
    if (left < verb->least || left > verb->most) return help_verb(name, stderr), WRONG;
    return finished(verb->act(left, words + 2));
}
