/* The verbs that write: fmt, pack, unpack, run, thin, convert; and the worst window of a run. */
#include <stdio.h>
#include <stdlib.h>
#include <string.h>

#include "tool.h"

int verb_fmt(int count, char **words) {
    (void)count;
    struct bytes text = load_to_rewrite(words[0]), out;
    int to_output = strcmp(words[0], "-") == 0, steps = steps_of(words[0], text).length > 0;
    out = formatted(text);
    if (to_output || steps) rewrite(words[0], out.at, out.length); /* remarks alone may be of another kind of file */
    return DONE;
}

int verb_pack(int count, char **words) {
    struct bytes list = steps_of(words[0], load(words[0]));
    save(count > 1 ? words[1] : NULL, words[0], STEPS_FILE, list.at, list.length);
    return DONE;
}

int verb_unpack(int count, char **words) {
    struct bytes list = load(words[0]);
    enum kind is = kind_of(list);
    if (list.length % LEDGER_STEP != 0 || is == TEXT_FILE || is == IMAGE_FILE || is_hearing(words[0])) {
        fprintf(stderr, "take-ledger: %s is no packed steps of %d bytes each\n", words[0], LEDGER_STEP);
        return NO;
    }
    struct bytes text = text_of(list);
    save(count > 1 ? words[1] : NULL, words[0], TEXT_FILE, text.at, text.length);
    return DONE;
}

/* ---- run */

/* A fresh session with the limits, or the image that --from names. */
static void start(uint8_t *image) {
    if (options.from) {
        if (options.limited) fail("an image has its limits:", "--from and --limits don't go together");
        memcpy(image, image_in(options.from).at, LEDGER_IMAGE);
        return;
    }
    uint8_t refusal = ledger_begin(image, LEDGER_IMAGE, options.limits[0], options.limits[1], options.limits[2]);
    if (refusal) refused("--limits", refusal), exit(WRONG);
}

static void tell_played(const uint8_t *step, const uint8_t *reply, struct bytes comment) {
    uint8_t line[NOTATION_LINE], words[NOTATION_LINE];
    size_t n = step_words(step, LEDGER_STEP, 0, line), m = reply_words(step, reply, words);
    unsigned outcome = ledger_reply_outcome(reply), kind = step[0] >> 4;
    printf("%.*s # %s%.*s%s", (int)n, (const char *)line, colour(outcome), (int)m, (const char *)words, plain());
    struct bytes name = name_in(step, comment);
    if ((kind == LEDGER_ROOT || kind == LEDGER_NEW) && outcome == LEDGER_OUTCOME_DONE && name.length > 0) {
        fputs(" (", stdout);
        fwrite(name.at, 1, name.length, stdout);
        putchar(')');
    }
    putchar('\n');
}

static void json_played(size_t i, const uint8_t *step, const uint8_t *reply, struct bytes comment) {
    uint8_t line[NOTATION_LINE], words[NOTATION_LINE];
    struct bytes said = {line, step_words(step, LEDGER_STEP, 0, line)}, told = {words, reply_words(step, reply, words)};
    unsigned kind = step[0] >> 4, outcome = ledger_reply_outcome(reply);
    printf("{\"number\": %zu, \"step\": ", i + 1);
    json_string(said);
    printf(", \"outcome\": %u, \"take\": %u, \"parcel\": %u, \"text\": %lu, \"reply\": ", outcome, ledger_reply_transactor(reply),
           ledger_reply_message(reply), (unsigned long)ledger_reply_value(reply));
    json_string(told);
    struct bytes name = name_in(step, comment);
    if ((kind == LEDGER_ROOT || kind == LEDGER_NEW) && outcome == LEDGER_OUTCOME_DONE && name.length > 0) fputs(", \"name\": ", stdout), json_string(name);
    puts("}");
}

/* Plays a list of any length and gives its replies. */
static struct bytes replies_to(uint8_t *image, struct bytes list) {
    struct bytes replies = room(list.length);
    for (size_t from = 0; from < list.length; from += LEDGER_LONGEST) {
        size_t end = list.length < from + LEDGER_LONGEST ? list.length : from + LEDGER_LONGEST;
        uint8_t refusal = ledger_run(image, LEDGER_IMAGE, list.at, list.length, from, end, replies.at + from, end - from);
        if (refusal) exit(refused("the list", refusal));
    }
    return replies;
}

int verb_run(int count, char **words) {
    static uint8_t image[LEDGER_IMAGE];
    struct bytes file = load(words[0]), list = list_of(words[0], file);
    size_t steps = list.length / LEDGER_STEP;
    struct bytes *comments = comments_of(list.at == file.at ? (struct bytes){0} : file, steps);
    int refusals = 0;
    if (count > 1 && strcmp(words[1], "-") == 0) fail("the replies go to standard output, so not", "the image");
    start(image);
    if (count > 1) may_save(words[1], words[0], IMAGE_FILE);
    struct bytes replies = replies_to(image, list);
    for (size_t i = 0; i < steps; i++) {
        const uint8_t *step = list.at + LEDGER_STEP * i, *reply = replies.at + LEDGER_STEP * i;
        if (options.json) json_played(i, step, reply, comments[i]);
        else tell_played(step, reply, comments[i]);
        refusals |= ledger_reply_outcome(reply) > LEDGER_OUTCOME_NOT_READY;
        if (refusals && options.strict) return NO; /* nothing is written */
    }
    if (fflush(stdout) || ferror(stdout)) fail_errno("can't write", "the output"); /* before the image, which is not to replace one whose replies nobody saw */
    if (count > 1) save(words[1], words[0], IMAGE_FILE, image, sizeof image);
    return DONE;
}

/* ---- thin, convert, window */

int verb_thin(int count, char **words) {
    static uint8_t image[LEDGER_IMAGE];
    struct bytes list = list_of(words[0], load(words[0])), out = room(list.length);
    uint8_t refusal;
    start(image);
    size_t kept = ledger_thin(image, sizeof image, list.at, list.length, 0, list.length, out.at, out.length, &refusal);
    if (refusal) return refused(words[0], refusal);
    out.length = LEDGER_STEP * kept;
    struct bytes text = text_of(out);
    /* a list by a list: of two names in the wrong order, or of a pattern, nobody could tell which was meant */
    save(count > 1 ? words[1] : NULL, words[0], count > 1 && strcmp(words[1], "-") != 0 ? NEW_TEXT : TEXT_FILE, text.at, text.length);
    fprintf(stderr, "%zu of %zu steps kept\n", kept, list.length / LEDGER_STEP);
    return DONE;
}

int verb_convert(int count, char **words) {
    static uint8_t target[LEDGER_IMAGE];
    struct bytes source = load(words[0]);
    int forward = source.length == LEDGER_OLD_IMAGE;
    size_t length = forward ? LEDGER_IMAGE : LEDGER_OLD_IMAGE;
    uint8_t refusal = forward ? ledger_forward(source.at, source.length, target, length) : ledger_back(source.at, source.length, target, length);
    if (refusal) return refused(words[0], refusal);
    save(count > 1 ? words[1] : NULL, words[0], forward ? IMAGE_FILE : OLD_IMAGE_FILE, target, length);
    return DONE;
}

int verb_window(int count, char **words) {
    (void)count;
    static uint8_t image[LEDGER_IMAGE];
    struct bytes list = list_of(words[0], load(words[0]));
    size_t width = number_in(words[1], SIZE_MAX, "a width");
    uint8_t refusal;
    start(image);
    struct bytes replies = replies_to(image, list);
    struct ledger_window w = ledger_worst_window(replies.at, replies.length, width, &refusal);
    if (refusal) return refused(words[0], refusal);
    if (options.json) printf("{\"count\": %zu, \"place\": %zu}\n", w.count, w.place);
    else printf("most falls in a window of %zu replies: %zu, from step %zu on\n", width, w.count, w.place + 1);
    return DONE;
}
