/* tests/lent.c: each call that answers with a struct and its sibling that writes into a lent one say the same, refused
 * and not; a null pointer is left alone, and nothing else is touched. Prints how many pairs were compared. */
#include <stdio.h>
#include <stdlib.h>
#include <string.h>

#include "ledger.h"
#include "looking.h"
#include "notation.h"

enum { BLANK = 0xA5 };

static uint8_t image[LEDGER_IMAGE], list[13 * LEDGER_STEP], replies[sizeof list], out[4096], other[4096];
static size_t compared;

static void holds(int yes, const char *what) {
    if (yes) {
        compared++;
        return;
    }
    printf("not so: %s\n0 passed, 1 failed\n", what);
    exit(1);
}

/* A call with a lent number for the refusal: what the two write, and that a null answer leaves the number. */
#define SAME(STRUCT, NAME, ...)                                                              \
    do {                                                                                     \
        uint8_t refusal = BLANK, lent = BLANK, kept = BLANK;                                 \
        struct STRUCT by_value = NAME(__VA_ARGS__, &refusal), into;                          \
        memset(&into, BLANK, sizeof into);                                                   \
        NAME##_into(__VA_ARGS__, &lent, &into);                                              \
        holds(refusal == lent && memcmp(&by_value, &into, sizeof into) == 0, #NAME);         \
        NAME##_into(__VA_ARGS__, &kept, NULL);                                               \
        holds(kept == BLANK, #NAME ", null");                                                \
    } while (0)

/* A call that writes a text: the struct has padding, so its members are compared, and the bytes written. */
#define SAME_TEXT(NAME, ROOM, ...)                                                           \
    do {                                                                                     \
        struct notation_given by_value, into;                                                \
        memset(&into, BLANK, sizeof into);                                                   \
        memset(out, BLANK, sizeof out);                                                      \
        memset(other, BLANK, sizeof other);                                                  \
        by_value = NAME(__VA_ARGS__, out, ROOM);                                             \
        NAME##_into(__VA_ARGS__, other, ROOM, &into);                                        \
        holds(by_value.length == into.length && by_value.refusal == into.refusal, #NAME);    \
        holds(memcmp(out, other, sizeof out) == 0, #NAME ", its text");                      \
        memset(out, BLANK, sizeof out);                                                      \
        memset(other, BLANK, sizeof other);                                                  \
        NAME##_into(__VA_ARGS__, other, ROOM, NULL);                                         \
        holds(memcmp(out, other, sizeof out) == 0, #NAME ", null");                          \
    } while (0)

/* Take 1 rests on take 0; parcel 2 waits. */
static void hearing(void) {
    uint8_t *at = list;
    ledger_begin(image, sizeof image, 16, 32, 15);
    ledger_root(at, 7), at += LEDGER_STEP;
    ledger_root(at, 8), at += LEDGER_STEP;
    ledger_letter(at, 0, 5), at += LEDGER_STEP;
    ledger_receive(at, 0), at += LEDGER_STEP;
    ledger_send(at, 0, 1, 9), at += LEDGER_STEP;
    ledger_receive(at, 1), at += LEDGER_STEP;
    ledger_write(at, 1, 10), at += LEDGER_STEP;
    ledger_freeze(at, 1), at += LEDGER_STEP;
    ledger_finish(at, 1), at += LEDGER_STEP;
    ledger_send(at, 0, 1, 11), at += LEDGER_STEP;
    ledger_root(at, 12), at += LEDGER_STEP;
    ledger_fail(at, 2), at += LEDGER_STEP;
    ledger_sign(at, 3);
    if (ledger_run(image, sizeof image, list, sizeof list, 0, sizeof list, replies, sizeof replies)) exit(1);
}

static void of_images(const uint8_t *of, size_t length) {
    for (size_t n = 0; n < 40; n++) {
        SAME(ledger_resting, ledger_dependents, of, length, n);
        SAME(ledger_reason, ledger_obstacle, of, length, n);
        SAME(ledger_cause, ledger_impediment, of, length, n);
        SAME(ledger_part, ledger_show, of, length, n);
        SAME(looking_verdict, looking_decision, of, length, n);
        SAME_TEXT(notation_image, n, of, length, n);
        SAME_TEXT(notation_image, NOTATION_LINE, of, length, 30 * n);
    }
    for (size_t i = 0; i < sizeof list; i += LEDGER_STEP) {
        SAME(ledger_acting, ledger_actor, of, length, list + i, LEDGER_STEP);
        SAME(ledger_acting, ledger_actor, of, length, list + i, (size_t)7);
    }
}

static void of_lists(void) {
    for (size_t n = 0; n <= sizeof list; n++) {
        struct notation_given by_value = notation_length(list, n), into = {BLANK, BLANK};
        notation_length_into(list, n, &into);
        holds(by_value.length == into.length && by_value.refusal == into.refusal, "notation_length");
        notation_length_into(list, n, NULL);
        SAME(ledger_window, ledger_worst_window, replies, n, (size_t)3);
        SAME(ledger_window, ledger_worst_window, replies, sizeof replies, 5 * n);
        SAME_TEXT(notation_print, (size_t)512, list, n);
        SAME_TEXT(notation_print, n, list, sizeof list);
        SAME_TEXT(notation_step, NOTATION_LINE, list, sizeof list, n);
        SAME_TEXT(notation_step, n / 4, list, sizeof list, (size_t)4);
        SAME_TEXT(notation_reply, NOTATION_LINE, list, sizeof list, replies, sizeof replies, n);
    }
    for (unsigned n = 0; n < 256; n++) {
        SAME_TEXT(notation_refusal_text, NOTATION_LINE, (uint8_t)n);
        SAME_TEXT(notation_expected_text, NOTATION_LINE, (uint8_t)n);
        SAME_TEXT(notation_refusal_text, (size_t)3, (uint8_t)n);
    }
}

int main(void) {
    hearing();
    of_images(image, sizeof image);
    of_images(image, sizeof image - 1);
    for (size_t at = 0; at < 3; at++) {
        const uint8_t *left = image + 8 + 9 + 33 * at, *right = image + 8 + 1593 + 9;
        SAME(looking_comparison, looking_compare, left, (size_t)LEDGER_HISTORY, right, (size_t)LEDGER_HISTORY);
        SAME(looking_comparison, looking_compare, left, (size_t)LEDGER_HISTORY, right, (size_t)LEDGER_HISTORY - 1);
    }
    for (size_t at = 0; at < LEDGER_IMAGE + 2; at++) {
        struct looking_place by_value = looking_field(at), into;
        memset(&into, BLANK, sizeof into);
        looking_field_into(at, &into);
        looking_field_into(at, NULL);
        if (memcmp(&by_value, &into, sizeof into) != 0) holds(0, "looking_field");
    }
    holds(1, "looking_field");
    of_lists();
    image[3] = 1;
    of_images(image, sizeof image);
    printf("%zu passed, 0 failed\n", compared);
    return 0;
}
