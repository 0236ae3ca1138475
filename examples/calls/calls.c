/* An example of each call in C; docs/CALLS.md shows them, tests/calls compiles and runs them. */
#include <assert.h>
#include <stdio.h>
#include <string.h>

#include "engine.h"
#include "ledger.h"
#include "looking.h"
#include "notation.h"

static uint8_t image[LEDGER_IMAGE], refusal;

/* Runs the steps of a text on the image and gives the outcome of the last one. */
static unsigned run(const char *text) {
    uint8_t list[LEDGER_STEP * 16], replies[LEDGER_STEP * 16], expected;
    size_t line, column, n = LEDGER_STEP * notation_parse((const uint8_t *)text, strlen(text), list, sizeof list, &line, &column, &expected);
    assert(n > 0 && ledger_run(image, sizeof image, list, n, 0, n, replies, n) == 0);
    return ledger_reply_outcome(replies + n - LEDGER_STEP);
}

/* Take 0 is the names, take 1 a page that was set from them and is frozen; parcel 2 waits. */
static void hearing(void) {
    assert(ledger_begin(image, sizeof image, 16, 32, 15) == 0);
    run("root text 7\nroot text 8\nletter to 0 text 5\nreceive 0\nwrite 0 text 9\nsend 0 to 1 text 9\n"
        "receive 1\nwrite 1 text 10\nfreeze 1\nsend 0 to 1 text 11\n");
}

static void ledger_version_example(void) {
    assert(ledger_version() >> 16 == LEDGER_VERSION >> 16); /* the same major number */
}

static void ledger_begin_example(void) {
    assert(ledger_begin(image, sizeof image, 4, 8, 15) == 0);
    assert(ledger_begin(image, sizeof image, 17, 8, 15) == 33);
}

static void ledger_run_example(void) {
    uint8_t list[2 * LEDGER_STEP], replies[sizeof list];
    ledger_begin(image, sizeof image, 16, 32, 15);
    ledger_step(list, LEDGER_ROOT, 0, 0, 0, 7);
    ledger_step(list + LEDGER_STEP, LEDGER_LETTER, 0, 0, 0, 5);
    assert(ledger_run(image, sizeof image, list, sizeof list, 0, sizeof list, replies, sizeof replies) == 0);
    assert(ledger_reply_outcome(replies + LEDGER_STEP) == 0 && ledger_reply_message(replies + LEDGER_STEP) == 0);
}

static void ledger_offer_example(void) {
    hearing();
    assert(ledger_offer(image, sizeof image, 1, &refusal) == 2);
    assert(ledger_offer(image, sizeof image, 0, &refusal) == LEDGER_NONE);
}

static void ledger_show_example(void) {
    hearing();
    struct ledger_part part = ledger_show(image, sizeof image, 2, &refusal);
    const uint8_t *map = image + part.offset;
    assert(part.length == LEDGER_MAP && map[0] >> 7 == 1); /* it has a mark of take 0 */
}

static void ledger_smallest_group_example(void) {
    hearing();
    assert(ledger_smallest_group(image, sizeof image, 1, &refusal) == 0);
    run("freeze 0\n");
    assert(ledger_smallest_group(image, sizeof image, 1, &refusal) == (ledger_member(0) | ledger_member(1)));
}

static void ledger_ready_count_example(void) {
    hearing();
    run("freeze 0\n");
    assert(ledger_ready_count(image, sizeof image, 1, &refusal) == 1); /* the names alone */
    assert(ledger_ready_count(image, sizeof image, 2, &refusal) == 1); /* the names and the page */
}

static void ledger_all_heard_stable_example(void) {
    hearing();
    assert(ledger_all_heard_stable(image, sizeof image, 1, &refusal) == 0); /* the names were not frozen when they sent */
}

static void ledger_dependents_example(void) {
    hearing();
    struct ledger_resting reached = ledger_dependents(image, sizeof image, 0, &refusal);
    assert(reached.through == (ledger_member(0) | ledger_member(1)) && reached.carried == 1);
}

static void ledger_obstacle_example(void) {
    hearing();
    struct ledger_reason why = ledger_obstacle(image, sizeof image, ledger_member(1), &refusal);
    assert(why.kind == LEDGER_OUTSIDE && why.transactor == 1 && why.ground == 0);
}

static void ledger_impediment_example(void) {
    hearing();
    struct ledger_cause why = ledger_impediment(image, sizeof image, 1, &refusal);
    assert(why.kind == LEDGER_NOT_STABLE && why.transactor == 0);
}

static void ledger_actor_example(void) {
    uint8_t step[LEDGER_STEP];
    hearing();
    ledger_step(step, LEDGER_RECEIVE, 0, 0, 2, 0);
    struct ledger_acting who = ledger_actor(image, sizeof image, step, sizeof step, &refusal);
    assert(who.takes == ledger_member(1)); /* parcel 2 is addressed to take 1 */
}

static void ledger_plan_example(void) {
    uint8_t plan[LEDGER_PLAN], replies[LEDGER_PLAN];
    hearing();
    size_t steps = ledger_plan(image, sizeof image, 1, plan, sizeof plan, &refusal); /* freeze 0, sign {0,1} */
    size_t end = LEDGER_STEP * steps;
    assert(steps == 2 && ledger_run(image, sizeof image, plan, sizeof plan, 0, end, replies, end) == 0);
    assert(ledger_reply_outcome(replies) == 0 && ledger_reply_outcome(replies + LEDGER_STEP) == 0);
}

static void ledger_fault_example(void) {
    size_t at;
    uint8_t clause;
    hearing();
    image[7] = 1;
    assert(ledger_fault(image, sizeof image, &at, &clause) == 19 && at == 7 && clause == LEDGER_FRONT_ZEROS);
}

static void ledger_thin_example(void) {
    uint8_t list[3 * LEDGER_STEP], out[sizeof list];
    ledger_begin(image, sizeof image, 16, 32, 15);
    ledger_step(list, LEDGER_ROOT, 0, 0, 0, 1);
    ledger_step(list + 8, LEDGER_READ, 0, 0, 0, 0); /* refused: take 0 is idle */
    ledger_step(list + 16, LEDGER_ROOT, 0, 0, 0, 2);
    assert(ledger_thin(image, sizeof image, list, sizeof list, 0, sizeof list, out, sizeof out, &refusal) == 2);
}

static void ledger_forward_example(void) {
    static uint8_t old[LEDGER_OLD_IMAGE], again[LEDGER_IMAGE];
    hearing();
    assert(ledger_back(image, sizeof image, old, sizeof old) == 0);
    assert(ledger_forward(old, sizeof old, again, sizeof again) == 0 && memcmp(image, again, sizeof image) == 0);
}

static void ledger_back_example(void) {
    static uint8_t old[LEDGER_OLD_IMAGE];
    ledger_begin(image, sizeof image, 4, 8, 15);
    assert(ledger_back(image, sizeof image, old, sizeof old) == 32); /* the old form has no limits */
}

static void ledger_worst_window_example(void) {
    uint8_t replies[4 * LEDGER_STEP] = {0};
    replies[1 * LEDGER_STEP] = 4, replies[3 * LEDGER_STEP] = 4;
    struct ledger_window worst = ledger_worst_window(replies, sizeof replies, 3, &refusal);
    assert(worst.count == 2 && worst.place == 1);
}

static void engine_play_example(void) {
    uint8_t list[LEDGER_STEP], replies[LEDGER_STEP];
    ledger_step(list, LEDGER_ROOT, 0, 0, 0, 7);
    assert(engine_play(list, sizeof list, replies, sizeof replies, 16, 32, 15) == 0 && ledger_reply_outcome(replies) == 0);
}

static void looking_decision_example(void) {
    hearing();
    run("done 1\n"); /* only an idle take receives */
    struct looking_verdict would = looking_decision(image, sizeof image, 2, &refusal);
    assert(refusal == 0 && would.outcome == 0); /* it would be taken in */
}

static void looking_compare_example(void) {
    hearing();
    const uint8_t *own = image + 8 + 9; /* the own mark of take 0 */
    struct looking_comparison c = looking_compare(own, LEDGER_HISTORY, own, LEDGER_HISTORY, &refusal);
    assert(c.relation == LOOKING_SAME_INCARNATION);
}

static void looking_field_example(void) {
    struct looking_place f = looking_field(9); /* in the text of take 0 */
    assert(f.kind == LOOKING_FIELD_VALUE && f.holder == 0 && f.byte == 0);
}

static void looking_independent_example(void) {
    uint8_t first[LEDGER_STEP], second[LEDGER_STEP];
    hearing();
    ledger_step(first, LEDGER_FREEZE, 0, 0, 0, 0);
    ledger_step(second, LEDGER_FINISH, 1, 0, 0, 0);
    assert(looking_independent(image, sizeof image, first, sizeof first, second, sizeof second, &refusal) == 1);
}

static void notation_parse_example(void) {
    const char *text = "read 16\n";
    uint8_t out[LEDGER_STEP], expected;
    size_t line, column;
    assert(notation_parse((const uint8_t *)text, strlen(text), out, sizeof out, &line, &column, &expected) == 0);
    assert(line == 1 && column == 6 && expected == NOTATION_TAKE);
}

/* Whether the words are these. */
static int says(const uint8_t *out, struct notation_given given, const char *words) {
    return given.refusal == 0 && given.length == strlen(words) && memcmp(out, words, given.length) == 0;
}

static void notation_expected_text_example(void) {
    uint8_t out[NOTATION_LINE];
    assert(says(out, notation_expected_text(NOTATION_TAKE, out, sizeof out), "a take, 0 to 15"));
}

static void notation_refusal_text_example(void) {
    uint8_t out[NOTATION_LINE];
    assert(says(out, notation_refusal_text(19, out, sizeof out), "image ill-formed"));
}

static void notation_length_example(void) {
    uint8_t list[LEDGER_STEP];
    ledger_step(list, LEDGER_ROOT, 0, 0, 0, 7);
    assert(notation_length(list, sizeof list).length == strlen("root text 7\n"));
}

static void notation_print_example(void) {
    uint8_t list[LEDGER_STEP], out[NOTATION_LINE];
    ledger_step(list, LEDGER_SIGN, 0, 0, ledger_member(0) | ledger_member(1), 0);
    assert(says(out, notation_print(list, sizeof list, out, sizeof out), "sign {0,1}\n"));
}

static void notation_step_example(void) {
    uint8_t list[LEDGER_STEP], out[NOTATION_LINE];
    ledger_step(list, LEDGER_READ, 3, 0, 0, 0);
    assert(says(out, notation_step(list, sizeof list, 0, out, sizeof out), "read 3\n"));
}

static void notation_reply_example(void) {
    uint8_t list[LEDGER_STEP], replies[LEDGER_STEP] = {21}, out[NOTATION_LINE];
    ledger_step(list, LEDGER_READ, 3, 0, 0, 0);
    struct notation_given given = notation_reply(list, sizeof list, replies, sizeof replies, 0, out, sizeof out);
    assert(says(out, given, "refused 21: acting take, addressee or named take not opened"));
}

static void notation_image_example(void) {
    uint8_t out[NOTATION_LINE];
    hearing();
    struct notation_given given = notation_image(image, sizeof image, 0, out, sizeof out);
    assert(says(out, given, "limits: takes 16, parcels 32, signings 15\n"));
}
