/* Files: what kind each is, and that none is lost. A file is written beside its place, synced and renamed, so that it
 * is the old one or the new one whatever happens; a link and the file's mode stay. */
#define _XOPEN_SOURCE 700
#include <errno.h>
#include <fcntl.h>
#include <signal.h>
#include <stdio.h>
#include <stdlib.h>
#include <string.h>
#include <sys/stat.h>
#include <unistd.h>

#include "tool.h"

/* ---- kinds */

static const char *const KIND_WORDS[] = {"nothing", "an empty file", "an image", "an image of the old form", "a step list as text", "packed steps", "another kind of file", "a new file"};

static int is_image(struct bytes b) {
    uint8_t copy[LEDGER_IMAGE], replies[1], list[1] = {0};
    if (b.length != LEDGER_IMAGE) return 0;
    memcpy(copy, b.at, sizeof copy);
    return ledger_run(copy, sizeof copy, list, 0, 0, 0, replies, 0) == 0;
}

static int is_old_image(struct bytes b) {
    static uint8_t target[LEDGER_IMAGE];
    return b.length == LEDGER_OLD_IMAGE && ledger_forward(b.at, b.length, target, sizeof target) == 0;
}

/* At least one step: a file of remarks alone may be anything. */
static int is_text(struct bytes b) {
    struct bytes list = room(LEDGER_STEP * (b.length + 1));
    size_t line, column;
    uint8_t expected;
    size_t steps = notation_parse(b.at, b.length, list.at, list.length, &line, &column, &expected);
    free(list.at);
    return steps > 0;
}

/* Whole steps, each of a kind that the documents have: the text of any other begins with raw. */
static int is_steps(struct bytes b) {
    if (b.length % LEDGER_STEP != 0) return 0;
    for (size_t i = 0; i < b.length / LEDGER_STEP; i++) {
        uint8_t line[NOTATION_LINE];
        size_t n = notation_step(b.at, b.length, i, line, sizeof line).length;
        if (n >= 4 && memcmp(line, "raw ", 4) == 0) return 0;
    }
    return 1;
}

/* Zero bytes and small numbers look like steps that are all roots: a file of such may be anything. */
static int is_roots_alone(struct bytes b) {
    for (size_t i = 0; i < b.length; i += LEDGER_STEP)
        if (b.at[i] >> 4 != LEDGER_ROOT) return 0;
    return 1;
}

enum kind kind_of(struct bytes b) {
    if (b.length == 0) return EMPTY;
    if (is_image(b)) return IMAGE_FILE;
    if (is_old_image(b)) return OLD_IMAGE_FILE;
    if (is_text(b)) return TEXT_FILE;
    return is_steps(b) ? STEPS_FILE : OTHER_FILE;
}

/* ---- reading */

static const size_t LONGEST_FILE = (size_t)1 << 28; /* a device may have no end */

static struct bytes read_all(FILE *f, const char *name) {
    struct bytes b = room(1 << 16);
    size_t used = 0;
    for (;;) {
        size_t n = fread(b.at + used, 1, b.length - used, f);
        used += n;
        if (n == 0) break;
        if (used < b.length) continue;
        if (used >= LONGEST_FILE) fail("over 256 mebibytes, so no list and no image:", name);
        b.length *= 2;
        b.at = realloc(b.at, b.length + 1);
        if (!b.at) fail("no memory for", name);
    }
    if (ferror(f)) fail_errno("can't read", name);
    b.length = used;
    b.at[used] = 0;
    return b;
}

/* A mark that some editors put before a text (U+FEFF) is no part of it. */
static struct bytes without_mark(struct bytes b) {
    if (b.length >= 3 && memcmp(b.at, "\xEF\xBB\xBF", 3) == 0) {
        b.at += 3;
        b.length -= 3;
    }
    return b;
}

/* A list that is printed to its own end would be read as it grows, and be another one afterwards. */
static void not_the_output(FILE *f, const char *name) {
    struct stat in, out;
    if (fstat(fileno(f), &in) != 0 || fstat(STDOUT_FILENO, &out) != 0) return;
    if (S_ISREG(in.st_mode) && in.st_dev == out.st_dev && in.st_ino == out.st_ino) fail("not read, since the output goes there:", name);
}

static struct bytes load_input(void) {
    static int read_before;
    if (read_before) fail("standard input can be read once:", "-");
    read_before = 1;
    not_the_output(stdin, "standard input");
    return without_mark(read_all(stdin, "standard input"));
}

struct bytes load(const char *name) {
    if (strcmp(name, "-") == 0) return load_input();
    FILE *f = fopen(name, "rb");
    if (!f) fail_errno("can't read", name);
    struct stat is;
    if (fstat(fileno(f), &is) == 0 && S_ISDIR(is.st_mode)) fail("a folder and no file:", name);
    not_the_output(f, name);
    struct bytes b = read_all(f, name);
    fclose(f);
    return without_mark(b);
}

/* ---- writing */

static int put(int f, const uint8_t *at, size_t length) {
    while (length > 0) {
        ssize_t n = write(f, at, length);
        if (n < 0 && errno == EINTR) continue;
        if (n <= 0) return 0;
        at += n;
        length -= (size_t)n;
    }
    return 1;
}

/* A name in the folder of a file. */
static char *beside(const char *place, const char *name) {
    const char *slash = strrchr(place, '/');
    size_t folder = slash ? (size_t)(slash - place) + 1 : 0;
    char *path = (char *)room(folder + strlen(name)).at;
    memcpy(path, place, folder);
    memcpy(path + folder, name, strlen(name));
    return path;
}

/* A rename lasts once its folder is synced; a file system that knows no such sync answers EINVAL. */
static int synced(const char *folder) {
    int f = open(folder, O_RDONLY | O_DIRECTORY);
    int done = f >= 0 && (fsync(f) == 0 || errno == EINVAL);
    if (f >= 0) close(f);
    return done;
}

/* A file as it was looked at last: whether it was there, and which it was. */
struct seen {
    int there;
    struct stat is;
};

static struct seen look(const char *name) {
    struct seen s;
    s.there = stat(name, &s.is) == 0;
    return s;
}

/* Whether nobody has changed, removed or made it since. */
static int still(const char *name, const struct seen *s) {
    struct seen now = look(name);
    if (!s->there || !now.there) return s->there == now.there;
    return s->is.st_dev == now.is.st_dev && s->is.st_ino == now.is.st_ino && s->is.st_size == now.is.st_size &&
           s->is.st_mtim.tv_sec == now.is.st_mtim.tv_sec && s->is.st_mtim.tv_nsec == now.is.st_mtim.tv_nsec;
}

/* The whole file in its place; a name that is new is linked, which fails where another has made it meanwhile. Some
 * file systems know no links. */
static int moved(const char *fresh, const char *place, const struct seen *was) {
    if (was->there) return rename(fresh, place) == 0;
    if (link(fresh, place) == 0) return unlink(fresh), 1;
    return (errno == EPERM || errno == ENOTSUP || errno == ENOSYS || errno == EMLINK) && rename(fresh, place) == 0;
}

/* Mode and owner stay; whoever may not give a file away keeps it as his own. */
static int like(int f, const struct seen *was) {
    mode_t mask = umask(0); /* the only way to ask for it */
    umask(mask);
    if (was->there && fchown(f, was->is.st_uid, was->is.st_gid) != 0 && fchown(f, (uid_t)-1, was->is.st_gid) != 0) errno = 0;
    return fchmod(f, was->there ? was->is.st_mode & 07777 : 0666 & ~mask) == 0;
}

static void replace(const char *name, const char *place, const struct seen *was, const uint8_t *at, size_t length) {
    char *fresh = beside(place, ".ledger-XXXXXX");
    int f = mkstemp(fresh);
    if (f < 0) fail_errno("can't write beside", name);
    int whole = put(f, at, length) && like(f, was) && fsync(f) == 0, why = errno;
    if (close(f) && whole) whole = 0, why = errno;
    if (whole && !still(name, was)) {
        unlink(fresh);
        fail("not written, since another program has changed it meanwhile:", name);
    }
    if (!whole || !moved(fresh, place, was)) {
        why = whole ? errno : why;
        unlink(fresh);
        errno = why;
        fail_errno("can't write", name);
    }
    if (!synced(beside(place, "."))) fail("written, but its folder can't be synced:", name);
}

/* A pipe or a terminal is no file to be replaced; a disk is not written to. */
static void pour(const char *name, const struct seen *was, const uint8_t *at, size_t length) {
    if (S_ISBLK(was->is.st_mode)) fail("a disk and no file:", name);
    int f = open(name, O_WRONLY | O_NOCTTY);
    if (f < 0 || !put(f, at, length) || close(f)) fail_errno("can't write", name);
}

/* What ends the program from outside waits until the file is whole, and none is left beside it. */
static void place(const char *name, const struct seen *was, const uint8_t *at, size_t length) {
    struct stat link_itself;
    if (was->there && S_ISDIR(was->is.st_mode)) fail("a folder and no file:", name);
    if (was->there && !S_ISREG(was->is.st_mode)) {
        pour(name, was, at, length);
        return;
    }
    if (!was->there && lstat(name, &link_itself) == 0) fail("a link to no file:", name);
    if (was->there && (!(was->is.st_mode & 0222) || access(name, W_OK) != 0)) fail("read-only, so not written:", name);
    const char *real = was->there ? realpath(name, NULL) : name;
    if (!real) fail_errno("can't write", name);
    static const int ENDING[] = {SIGINT, SIGTERM, SIGHUP, SIGQUIT};
    sigset_t ending, before;
    sigemptyset(&ending);
    for (size_t i = 0; i < sizeof ENDING / sizeof *ENDING; i++) sigaddset(&ending, ENDING[i]);
    sigprocmask(SIG_BLOCK, &ending, &before);
    replace(name, real, was, at, length);
    sigprocmask(SIG_SETMASK, &before, NULL);
}

static int is_output(const char *name) { return !name || strcmp(name, "-") == 0; }

/* Whether a file is the one that was read; "-" is what standard input reads. */
static int same_file(const struct seen *file, const char *source) {
    struct stat b;
    if (!source || !file->there || !S_ISREG(file->is.st_mode)) return 0;
    if ((strcmp(source, "-") == 0 ? fstat(STDIN_FILENO, &b) : stat(source, &b)) != 0) return 0;
    return file->is.st_dev == b.st_dev && file->is.st_ino == b.st_ino;
}

/* Whether what is there may be replaced by a file of this kind; as it was looked at. */
static struct seen checked(const char *name, const char *source, enum kind kind) {
    struct seen was = look(name);
    if (same_file(&was, source) || same_file(&was, options.from)) fail("not written, since it is what was read:", name);
    if (was.there && S_ISREG(was.is.st_mode) && is_hearing(name)) fail("not written, since it is a hearing:", name);
    if (!was.there || !S_ISREG(was.is.st_mode) || options.force || was.is.st_size == 0) return was;
    enum kind is = OTHER_FILE;
    if (was.is.st_size <= (off_t)LONGEST_FILE) {
        struct bytes there = load(name);
        is = kind_of(there);
        if (is == STEPS_FILE && is_roots_alone(there)) is = OTHER_FILE;
    }
    if (is == kind) return was;
    fprintf(stderr, "take-ledger: %s is there and is %s, not %s: --force replaces it\n", name, KIND_WORDS[is], KIND_WORDS[kind]);
    exit(WRONG);
}

void may_save(const char *name, const char *source, enum kind kind) {
    if (!is_output(name)) checked(name, source, kind);
}

void save(const char *name, const char *source, enum kind kind, const uint8_t *at, size_t length) {
    if (!is_output(name)) {
        struct seen was = checked(name, source, kind);
        place(name, &was, at, length);
    } else if (kind != TEXT_FILE && isatty(STDOUT_FILENO)) fail("not written to a terminal:", KIND_WORDS[kind]);
    else if (fwrite(at, 1, length, stdout) != length) fail_errno("can't write", "the output");
}

/* The file as it was when it was read: what came into it since stays. */
static struct seen read_from;

struct bytes load_to_rewrite(const char *name) {
    if (!is_output(name)) read_from = look(name);
    return load(name);
}

void rewrite(const char *name, const uint8_t *at, size_t length) {
    if (is_output(name)) save(NULL, NULL, TEXT_FILE, at, length);
    else place(name, &read_from, at, length);
}
