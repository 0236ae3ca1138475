/* The verbs that ask an image: show, diff, why, who, plan, offer, ready, decide. */
#include <stdio.h>
#include <stdlib.h>
#include <string.h>

#include "tool.h"

int refused(const char *name, unsigned number) {
    uint8_t said[NOTATION_LINE];
    size_t n = notation_refusal_text((uint8_t)number, said, sizeof said).length;
    fprintf(stderr, "take-ledger: %s: refused %u: %.*s\n", name, number, (int)n, (const char *)said);
    return NO;
}

/* Digits alone: strtoul would take a sign, and a number that is one modulo 2^64. */
size_t number_in(const char *word, size_t most, const char *what) {
    size_t n = 0;
    const char *c = word;
    for (; *c >= '0' && *c <= '9'; c++) {
        size_t digit = (size_t)(*c - '0');
        if (n > (most - digit) / 10) break;
        n = 10 * n + digit;
    }
    if (*c == 0 && c != word) return n;
    fprintf(stderr, "take-ledger: not %s: '%s'\n", what, word);
    exit(WRONG);
}

unsigned take_in(const char *word) {
#ifdef HEARINGS
    if (hearing_opened()) return hearing_take(word);
#endif
    for (unsigned t = 0; t < LEDGER_TRANSACTORS; t++)
        if (take_names[t].length > 0 && take_names[t].length == strlen(word) && memcmp(take_names[t].at, word, strlen(word)) == 0) return t;
    return (unsigned)number_in(word, 65535, "a take, by its number or by a name that --names gives");
}

/* An image that is ill-formed says where. */
static void tell_fault(const char *name, struct bytes image) {
    size_t at;
    uint8_t clause;
    if (ledger_fault(image.at, image.length, &at, &clause) != LEDGER_ILL_FORMED) return;
    fprintf(stderr, "take-ledger: %s: byte %zu, clause %u of the form (docs/RULES.md, section 8)\n", name, at, clause);
}

struct bytes image_in(const char *name) {
#ifdef HEARINGS
    if (is_hearing(name)) return hearing_image(name);
#endif
    uint8_t reply[1], list[1] = {0};
    struct bytes image = load(name), copy = room(image.length);
    memcpy(copy.at, image.at, image.length);
    uint8_t refusal = ledger_run(copy.at, copy.length, list, 0, 0, 0, reply, 0);
    if (refusal) {
        refused(name, refusal);
        tell_fault(name, image);
        exit(NO);
    }
    static uint8_t fresh[LEDGER_IMAGE];
    ledger_begin(fresh, sizeof fresh, LEDGER_TRANSACTORS, LEDGER_MESSAGES, LEDGER_CHECKPOINTS);
    if (options.names) note_names(load(options.names), fresh);
    return image;
}

/* ---- show, diff */

static int json_lines(struct bytes image) {
    const char *between = "";
    fputs("{\"lines\": [", stdout);
    for (size_t n = 0; n < NOTATION_LINES; n++) {
        uint8_t line[NOTATION_LINE];
        size_t length = notation_image(image.at, image.length, n, line, sizeof line).length;
        if (length == 0) continue;
        printf("%s\n  ", between);
        json_string((struct bytes){line, length - 1});
        between = ",";
    }
    puts("\n]}");
    return DONE;
}

int verb_show(int count, char **words) {
    (void)count;
    struct bytes image = image_in(words[0]);
    if (options.json) return json_lines(image);
    for (size_t n = 0; n < NOTATION_LINES; n++) {
        uint8_t line[NOTATION_LINE];
        size_t length = notation_image(image.at, image.length, n, line, sizeof line).length;
        unsigned take;
        if (length > 0 && sscanf((const char *)line, "take %u:", &take) == 1 && take < LEDGER_TRANSACTORS && take_names[take].length > 0) {
            tell_take(take);
            uint8_t *colon = memchr(line, ':', length);
            fwrite(colon, 1, length - (size_t)(colon - line), stdout);
        } else fwrite(line, 1, length, stdout);
    }
    return DONE;
}

static void tell_side(const char *mark, const uint8_t *line, size_t length) {
    if (length == 0) printf("%s (nothing)\n", mark);
    else printf("%s %.*s", mark, (int)length, (const char *)line);
}

int verb_diff(int count, char **words) {
    (void)count;
    struct bytes a = image_in(words[0]), b = image_in(words[1]);
    int differences = 0;
    for (size_t n = 0; n < NOTATION_LINES; n++) {
        uint8_t x[NOTATION_LINE], y[NOTATION_LINE];
        size_t g = notation_image(a.at, a.length, n, x, sizeof x).length, h = notation_image(b.at, b.length, n, y, sizeof y).length;
        if (g == h && memcmp(x, y, g) == 0) continue;
        tell_side("<", x, g);
        tell_side(">", y, h);
        differences++;
    }
    return differences ? NO : DONE;
}

/* ---- why, who */

static void volume_line(const char *what, unsigned volume) {
    printf("%s: ", what);
    tell_volume(volume);
    putchar('\n');
}

int verb_who(int count, char **words) {
    (void)count;
    struct bytes image = image_in(words[0]);
    uint8_t refusal;
    struct ledger_resting d = ledger_dependents(image.at, image.length, take_in(words[1]), &refusal);
    if (refusal) return refused(words[0], refusal);
    if (options.json) {
        fputs("{\"resting\": ", stdout), json_volume(d.resting);
        fputs(", \"through\": ", stdout), json_volume(d.through);
        fputs(", \"unfinished\": ", stdout), json_volume(d.unfinished);
        printf(", \"carried\": %u}\n", d.carried);
        return DONE;
    }
    volume_line("rest on it", d.resting);
    volume_line("through others too", d.through);
    volume_line("at work with it", d.unfinished);
    printf("parcels that carry it: %u\n", d.carried);
    return DONE;
}

/* "take 1 is not frozen", "take 1 rests on take 0". */
static void one_line(unsigned take, const char *says) {
    tell_take(take);
    puts(says);
}

static void two_line(unsigned take, const char *says, unsigned ground, const char *end) {
    tell_take(take);
    fputs(says, stdout);
    tell_take(ground);
    puts(end);
}

static int json_reason(const char *kind, unsigned take, unsigned ground) {
    fputs("{\"kind\": ", stdout), json_word(kind);
    printf(", \"take\": %u, \"ground\": %u}\n", take, ground);
    return strcmp(kind, "nothing") == 0 ? DONE : NO;
}

static int why_none(const char *name, struct bytes image, unsigned take) {
    static const char *const KINDS[] = {"nothing", "hopeless", "exhausted", "not frozen"};
    uint8_t refusal;
    struct ledger_cause o = ledger_impediment(image.at, image.length, take, &refusal);
    if (refusal) return refused(name, refusal);
    if (options.json) return json_reason(KINDS[o.kind], o.transactor, o.ground);
    if (o.kind == LEDGER_NO_IMPEDIMENT) {
        volume_line("can be signed", ledger_smallest_group(image.at, image.length, take, &refusal));
        return DONE;
    }
    for (unsigned at = take; at != o.transactor;) {
        struct ledger_cause on = ledger_impediment(image.at, image.length, at, &refusal);
        two_line(at, " rests on ", on.next, "");
        at = on.next;
    }
    if (o.kind == LEDGER_HOPELESS) two_line(o.transactor, " rests on a withdrawn life of ", o.ground, "");
    if (o.kind == LEDGER_EXHAUSTED) one_line(o.transactor, " has all its signings");
    if (o.kind == LEDGER_NOT_STABLE) one_line(o.transactor, " is not frozen");
    return NO;
}

int verb_why(int count, char **words) {
    static const char *const KINDS[] = {"nothing", "not frozen", "outside", "withdrawn"};
    struct bytes image = image_in(words[0]);
    if (count == 2) return why_none(words[0], image, take_in(words[1]));
    size_t group = 0;
    for (int i = 1; i < count; i++) group |= ledger_member(take_in(words[i]));
    uint8_t refusal;
    struct ledger_reason o = ledger_obstacle(image.at, image.length, group, &refusal);
    if (refusal) return refused(words[0], refusal);
    if (options.json) return json_reason(KINDS[o.kind], o.transactor, o.ground);
    if (o.kind == LEDGER_NOTHING) return volume_line("can be signed", (unsigned)group), DONE;
    if (o.kind == LEDGER_UNSTABLE) one_line(o.transactor, " is not frozen");
    if (o.kind == LEDGER_OUTSIDE) two_line(o.transactor, " rests on ", o.ground, ", which is not in the volume");
    if (o.kind == LEDGER_SUPERSEDED_OR_ANNIHILATED) two_line(o.transactor, " rests on a withdrawn life of ", o.ground, "");
    return NO;
}

/* ---- plan, offer, ready, decide */

static void json_steps(const uint8_t *list, size_t steps) {
    fputs("{\"steps\": [", stdout);
    for (size_t i = 0; i < steps; i++) {
        uint8_t line[NOTATION_LINE];
        size_t n = step_words(list, LEDGER_STEP * steps, i, line);
        fputs(i ? ", " : "", stdout);
        json_string((struct bytes){line, n});
    }
    puts("]}");
}

int verb_plan(int count, char **words) {
    (void)count;
    struct bytes image = image_in(words[0]);
    uint8_t out[LEDGER_PLAN], refusal;
    unsigned take = take_in(words[1]);
    size_t steps = ledger_plan(image.at, image.length, take, out, sizeof out, &refusal);
    if (refusal) return refused(words[0], refusal);
    if (options.json) return json_steps(out, steps), steps ? DONE : NO;
    for (size_t i = 0; i < steps; i++) tell_step(out + LEDGER_STEP * i), putchar('\n');
    if (steps > 0) return DONE;
    struct ledger_cause o = ledger_impediment(image.at, image.length, take, &refusal);
    if (o.kind == LEDGER_HOPELESS || o.kind == LEDGER_EXHAUSTED) return why_none(words[0], image, take);
    puts("no room for the letters that wake idle takes: receive or lose a parcel first");
    return NO;
}

int verb_offer(int count, char **words) {
    (void)count;
    struct bytes image = image_in(words[0]);
    uint8_t refusal;
    unsigned parcel = ledger_offer(image.at, image.length, take_in(words[1]), &refusal);
    if (refusal) return refused(words[0], refusal);
    if (options.json) parcel == LEDGER_NONE ? puts("{\"parcel\": null}") : printf("{\"parcel\": %u}\n", parcel);
    else parcel == LEDGER_NONE ? puts("none") : printf("%u\n", parcel);
    return parcel == LEDGER_NONE ? NO : DONE;
}

/* How many volumes are ready, of one size or of each. */
int verb_ready(int count, char **words) {
    struct bytes image = image_in(words[0]);
    size_t from = count > 1 ? number_in(words[1], SIZE_MAX, "a size") : 1, to = count > 1 ? from : LEDGER_TRANSACTORS;
    const char *between = "";
    if (options.json) fputs("{", stdout);
    for (size_t size = from; size <= to; size++) {
        uint8_t refusal;
        size_t n = ledger_ready_count(image.at, image.length, size, &refusal);
        if (refusal) return refused(words[0], refusal);
        if (options.json) printf("%s\"%zu\": %zu", between, size, n), between = ", ";
        else if (count > 1) printf("%zu\n", n);
        else if (n > 0) printf("%zu of %zu take%s\n", n, size, size == 1 ? "" : "s");
    }
    if (options.json) puts("}");
    return DONE;
}

int verb_decide(int count, char **words) {
    (void)count;
    static const char *const SAYS[] = {"would be taken in", "", "would be dropped", "makes its receiver fall back", "makes its receiver vanish"};
    struct bytes image = image_in(words[0]);
    uint8_t refusal;
    struct looking_verdict d = looking_decision(image.at, image.length, number_in(words[1], SIZE_MAX, "a parcel"), &refusal);
    if (refusal) return refused(words[0], refusal);
    if (options.json) return printf("{\"outcome\": %zu, \"take\": %zu}\n", d.outcome, d.transactor), DONE;
    printf("parcel %s %s", words[1], SAYS[d.outcome]);
    if (d.outcome != LEDGER_OUTCOME_DONE) fputs(", going by the marks of ", stdout), tell_take((unsigned)d.transactor);
    putchar('\n');
    return DONE;
}
