/* Hearings are files of SQLite. This program is not linked with it: one that is, take-ledger-hearing, stands beside it, has the
 * same verbs and those of hearings, and is run in its place where a call is about a hearing. */
#define _XOPEN_SOURCE 700
#include <errno.h>
#include <stdio.h>
#include <string.h>
#include <sys/stat.h>
#include <unistd.h>

#include "tool.h"

int is_hearing(const char *name) {
    static const char start[] = "SQLite format 3"; /* and a zero byte */
    char front[sizeof start];
    struct stat is;
    if (stat(name, &is) != 0 || !S_ISREG(is.st_mode)) return 0;
    FILE *f = fopen(name, "rb");
    size_t n = f ? fread(front, 1, sizeof front, f) : 0;
    if (f) fclose(f);
    return n == sizeof front && memcmp(front, start, sizeof front) == 0;
}

#ifdef HEARINGS

int about_hearing(const struct verb *verb, int count, char **words) {
    (void)verb, (void)count, (void)words;
    return 0;
}

int hand_over(char **words) {
    (void)words;
    return WRONG;
}

#else

int about_hearing(const struct verb *verb, int count, char **words) {
    for (int i = 0; i < count && !verb->hearings; i++)
        if (is_hearing(words[i])) return 1;
    return verb->hearings;
}

int hand_over(char **words) {
    char program[4096];
    static const char other[] = "-hearing";
    ssize_t n = readlink("/proc/self/exe", program, sizeof program - sizeof other);
    if (n > 0) {
        memcpy(program + n, other, sizeof other);
        execv(program, words);
    }
    fprintf(stderr, "take-ledger: hearings need the program take-ledger-hearing beside this one: %s\n", strerror(errno));
    return WRONG;
}

#endif
