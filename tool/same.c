/* take-ledger same A B: whether two lists are the same up to the order of independent steps. The order is looked for
 * here; whether two steps are independent is asked of the library each time. A step may be brought forward past all
 * that it is independent of, each judged on the image just before it in the list as it stands. */
#include <stdio.h>
#include <stdlib.h>
#include <string.h>

#include "tool.h"

/* What stands in the way: the step at `met` of the first list, or nothing. */
struct way {
    int free;
    size_t met;
};

static void play_one(uint8_t *image, const uint8_t *step) {
    uint8_t reply[LEDGER_STEP];
    uint8_t refusal = ledger_run(image, LEDGER_IMAGE, step, LEDGER_STEP, 0, LEDGER_STEP, reply, sizeof reply);
    if (refusal) exit(refused("a step", refusal));
}

/* Whether step j of the list can be brought to place i, from the image before step i. */
static struct way way_to(const uint8_t *image, const uint8_t *list, size_t i, size_t j) {
    static uint8_t copy[LEDGER_IMAGE];
    memcpy(copy, image, sizeof copy);
    for (size_t k = i; k < j; k++) {
        const uint8_t *step = list + LEDGER_STEP * k, *late = list + LEDGER_STEP * j;
        uint8_t refusal;
        if (!looking_independent(copy, sizeof copy, step, LEDGER_STEP, late, LEDGER_STEP, &refusal)) return (struct way){0, k};
        play_one(copy, step);
    }
    return (struct way){1, 0};
}

static void bring(uint8_t *list, size_t *places, size_t i, size_t j) {
    uint8_t step[LEDGER_STEP];
    size_t place = places[j];
    memcpy(step, list + LEDGER_STEP * j, LEDGER_STEP);
    memmove(list + LEDGER_STEP * (i + 1), list + LEDGER_STEP * i, LEDGER_STEP * (j - i));
    memmove(places + i + 1, places + i, sizeof *places * (j - i));
    memcpy(list + LEDGER_STEP * i, step, LEDGER_STEP);
    places[i] = place;
}

static void tell_place(const char *name, size_t place, const uint8_t *step) {
    printf("%s, step %zu: ", name, place + 1);
    tell_step(step);
    putchar('\n');
}

/* The first place from i on that has the step; the length if there is none. */
static size_t find(const uint8_t *list, size_t i, size_t steps, const uint8_t *step) {
    while (i < steps && memcmp(list + LEDGER_STEP * i, step, LEDGER_STEP) != 0) i++;
    return i;
}

static int differs(char **names, size_t i, const uint8_t *b) {
    puts("different:");
    tell_place(names[1], i, b + LEDGER_STEP * i);
    printf("%s has no such step left\n", names[0]);
    return NO;
}

static int meets(char **names, const uint8_t *a, const size_t *places, size_t met, size_t j, size_t i) {
    puts("another order of two steps that are not independent:");
    tell_place(names[0], places[met], a + LEDGER_STEP * met);
    tell_place(names[0], places[j], a + LEDGER_STEP * j);
    printf("%s has the second of them first, as step %zu\n", names[1], i + 1);
    return NO;
}

static int ordered(uint8_t *image, char **names, uint8_t *a, const uint8_t *b, size_t steps) {
    size_t *places = (size_t *)(void *)room(sizeof *places * (steps + 1)).at, brought = 0;
    for (size_t i = 0; i < steps; i++) places[i] = i;
    for (size_t i = 0; i < steps; i++) {
        size_t j = find(a, i, steps, b + LEDGER_STEP * i);
        if (j == steps) return differs(names, i, b);
        struct way way = way_to(image, a, i, j);
        if (!way.free) return meets(names, a, places, way.met, j, i);
        bring(a, places, i, j);
        brought += j > i;
        play_one(image, a + LEDGER_STEP * i);
    }
    if (brought == 0) puts("the same");
    else printf("the same up to order: %zu step%s earlier in %s\n", brought, brought == 1 ? " is" : "s are", names[1]);
    return DONE;
}

int verb_same(int count, char **words) {
    static uint8_t image[LEDGER_IMAGE];
    (void)count;
    struct bytes first = load(words[0]), second = load(words[1]);
    struct bytes a = list_of(words[0], first), b = list_of(words[1], second);
    if (options.from) memcpy(image, image_in(options.from).at, sizeof image);
    else {
        uint8_t refusal = ledger_begin(image, sizeof image, options.limits[0], options.limits[1], options.limits[2]);
        if (refusal) return refused("--limits", refusal);
        if (a.at != first.at) note_names(first, image);
    }
    if (a.length == b.length) return ordered(image, words, a.at, b.at, a.length / LEDGER_STEP);
    printf("different: %zu steps and %zu\n", a.length / LEDGER_STEP, b.length / LEDGER_STEP);
    return NO;
}
