/* ledger_plan: what is left to do so that a take is signed (docs/RULES.md, 9.10).
 *
 * By hand: the steps of small sessions, what tells the two kinds of empty plan apart, the refusals in their order,
 * and the longest plan there is. Then random sessions: after every step every take is asked for. Each plan is run
 * on a copy of the image, and all that the rules say of it is held against that copy. A life of which hopeless or
 * exhausted was ever said must not be signed later. */
#include "../../include/ledger.h"
#include <stdio.h>
#include <stdlib.h>
#include <string.h>

enum { TAKE = 1593, FIRST = 8, PARCELS = 25496, PARCEL = 535, MARK = 33, LIVES = 64, STEPS = 120 };
static uint8_t image[LEDGER_IMAGE], copy[LEDGER_IMAGE];
static uint8_t out[LEDGER_PLAN], replies[LEDGER_PLAN];
static long passed, failed;

static int check(int holds, const char *what) {
    if (!holds) {
        failed++;
        printf("failed: %s\n", what);
    }
    return holds;
}

static void test(int holds, const char *what) { passed += check(holds, what); }

/* ---- the image */

static const uint8_t *take_at(const uint8_t *i, size_t t) { return i + FIRST + TAKE * t; }
static unsigned status(const uint8_t *i, size_t t) { return take_at(i, t)[0] >> 6; }
static const uint8_t *own_mark(const uint8_t *i, size_t t) { return take_at(i, t) + 9 + MARK * t; }
static unsigned signings(const uint8_t *i, size_t t) { return own_mark(i, t)[0] & 15; }

/* a life is the mark without its frozen flag */
static void life(const uint8_t *i, size_t t, uint8_t *to) {
    memcpy(to, own_mark(i, t), MARK);
    to[0] &= 0xBF;
}

/* ---- steps */

static void play(unsigned kind, unsigned take, unsigned other, unsigned parcel) {
    uint8_t step[LEDGER_STEP], reply[LEDGER_STEP];
    ledger_step(step, kind, take, other, parcel, 0);
    if (ledger_run(image, LEDGER_IMAGE, step, 8, 0, 8, reply, 8) || reply[0]) check(0, "a step of a session made by hand");
}

/* the parcels of a session made by hand are numbered as sent */
static unsigned sent;

static void begin(size_t takes, size_t parcels, size_t signed_often, unsigned roots) {
    ledger_begin(image, LEDGER_IMAGE, takes, parcels, signed_often);
    for (unsigned t = 0; t < roots; t++) play(LEDGER_ROOT, 0, 0, 0);
    sent = 0;
}

static void wake(unsigned take) {
    play(LEDGER_LETTER, take, 0, 0);
    play(LEDGER_RECEIVE, 0, 0, sent++);
}

/* take b, which is idle, writes on a parcel of take a, which is at work: b rests on a's life, and is at work */
static void rest(unsigned b, unsigned a) {
    play(LEDGER_SEND, a, b, 0);
    play(LEDGER_RECEIVE, 0, 0, sent++);
    play(LEDGER_WRITE, b, 0, 0);
}

static size_t plan(size_t take, uint8_t *refusal) {
    memset(out, 0xAA, sizeof out);
    *refusal = 99;
    return ledger_plan(image, LEDGER_IMAGE, take, out, sizeof out, refusal);
}

/* ---- by hand */

/* the plan for the take is these steps: kind, take, parcel in turn */
static void expect(size_t take, size_t steps, const unsigned (*wanted)[3], const char *what) {
    uint8_t list[LEDGER_PLAN] = {0}, refusal;
    for (size_t i = 0; i < steps; i++) ledger_step(list + LEDGER_STEP * i, wanted[i][0], wanted[i][1], 0, wanted[i][2], 0);
    size_t n = plan(take, &refusal);
    test(n == steps && refusal == 0 && !memcmp(out, list, sizeof list), what);
}

/* no steps, and impediment says this of the same image */
static void expect_none(size_t take, size_t impediment, const char *what) {
    uint8_t refusal;
    expect(take, 0, NULL, what);
    test(ledger_impediment(image, LEDGER_IMAGE, take, &refusal).kind == impediment && refusal == 0, what);
}

static void by_hand(void) {
    begin(4, 2, 1, 3);
    wake(0);
    const unsigned work[2][3] = {{LEDGER_FREEZE, 0, 0}, {LEDGER_SIGN, 0, 1}};
    expect(0, 2, work, "a take at work is frozen and signed");
    const unsigned idle[4][3] = {{LEDGER_LETTER, 2, 0}, {LEDGER_RECEIVE, 0, 1}, {LEDGER_FREEZE, 2, 0}, {LEDGER_SIGN, 0, 4}};
    expect(2, 4, idle, "an idle take is woken first, by the next number");
    rest(1, 0);
    play(LEDGER_FINISH, 0, 0, 0);
    const unsigned both[5][3] = {{LEDGER_LETTER, 0, 0}, {LEDGER_RECEIVE, 0, 2}, {LEDGER_FREEZE, 0, 0}, {LEDGER_FREEZE, 1, 0}, {LEDGER_SIGN, 0, 3}};
    expect(1, 5, both, "what it rests on comes with it");
    play(LEDGER_LETTER, 2, 0, 0);
    const unsigned next[5][3] = {{LEDGER_LETTER, 0, 0}, {LEDGER_RECEIVE, 0, 3}, {LEDGER_FREEZE, 0, 0}, {LEDGER_FREEZE, 1, 0}, {LEDGER_SIGN, 0, 3}};
    expect(1, 5, next, "one free place is enough");
    play(LEDGER_LETTER, 2, 0, 0);
    expect_none(1, LEDGER_NOT_STABLE, "no place for a letter: 0 steps, and not hopeless");
    play(LEDGER_LOSE, 0, 0, 3);
    sent = 4;
    wake(0);
    play(LEDGER_FREEZE, 0, 0, 0);
    play(LEDGER_FREEZE, 1, 0, 0);
    const unsigned ready[1][3] = {{LEDGER_SIGN, 0, 3}};
    expect(1, 1, ready, "a take that is ready: the signing alone");
    play(LEDGER_SIGN, 0, 0, 3);
    expect_none(1, LEDGER_EXHAUSTED, "all its signings are used: 0 steps, and exhausted");
}

/* take 1 rests on take 0, which vanishes */
static void in_the_way(void) {
    begin(2, 1, 1, 2);
    wake(0);
    rest(1, 0);
    play(LEDGER_FREEZE, 1, 0, 0);
    uint8_t step[LEDGER_STEP], reply[LEDGER_STEP], refusal;
    ledger_step(step, LEDGER_FAIL, 0, 0, 0, 0);
    ledger_run(image, LEDGER_IMAGE, step, 8, 0, 8, reply, 8);
    expect_none(1, LEDGER_HOPELESS, "it rests on a withdrawn life: 0 steps, and hopeless");
    test(plan(0, &refusal) == 0 && refusal == LEDGER_GONE && out[0] == 0xAA && out[LEDGER_PLAN - 1] == 0xAA, "22, and nothing written");
    /* the numbers end: two idle takes, one number left */
    begin(2, 2, 1, 2);
    image[1] = 255;
    image[2] = 254;
    const unsigned last[4][3] = {{LEDGER_LETTER, 0, 0}, {LEDGER_RECEIVE, 0, 65534}, {LEDGER_FREEZE, 0, 0}, {LEDGER_SIGN, 0, 1}};
    expect(0, 4, last, "the last number is used");
    image[2] = 255;
    expect_none(0, LEDGER_NOT_STABLE, "no number for a letter: 0 steps, and not hopeless");
}

static void refusals(void) {
    uint8_t refusal;
    begin(1, 1, 1, 1);
    test(ledger_plan(image, LEDGER_IMAGE - 1, 9, out, 0, &refusal) == 0 && refusal == LEDGER_WRONG_LENGTH, "16 first");
    image[3] = 1;
    test(ledger_plan(image, LEDGER_IMAGE, 9, out, 0, &refusal) == 0 && refusal == LEDGER_ILL_FORMED, "19 second");
    image[3] = 0;
    test(ledger_plan(image, LEDGER_IMAGE, 1, out, 0, &refusal) == 0 && refusal == LEDGER_UNOPENED, "21 third");
    test(ledger_plan(image, LEDGER_IMAGE, 65536, out, 0, &refusal) == 0 && refusal == LEDGER_UNOPENED, "no number is cut off");
    test(ledger_plan(image, LEDGER_IMAGE, 0, out, LEDGER_PLAN - 1, &refusal) == 0 && refusal == LEDGER_WRONG_ROOM, "18 last");
    test(plan(0, &refusal) == 4 && refusal == 0, "then it is answered");
}

/* sixteen takes, each resting on the one before it, all idle: the longest plan */
static void longest_plan(void) {
    uint8_t refusal;
    begin(16, 1, 1, 16);
    for (unsigned t = 0; t < 15; t++) {
        wake(t);
        rest(t + 1, t);
        play(LEDGER_FINISH, t, 0, 0);
        play(LEDGER_FINISH, t + 1, 0, 0);
    }
    test(plan(0, &refusal) == 4, "the first of the chain rests on nobody");
    test(plan(15, &refusal) == 49, "the last rests on all");
    size_t zeros = 0;
    if (check(ledger_run(image, LEDGER_IMAGE, out, sizeof out, 0, sizeof out, replies, sizeof replies) == 0, "the longest plan is run"))
        for (size_t j = 0; j < 49; j++) zeros += replies[LEDGER_STEP * j] == 0;
    test(zeros == 49, "each of its steps is answered with 0");
    expect_none(15, LEDGER_EXHAUSTED, "signed once, and no more");
}

/* ---- random sessions */

static uint64_t seed = 88172645463325252u;

static unsigned below(unsigned n) {
    seed ^= seed << 13;
    seed ^= seed >> 7;
    seed ^= seed << 17;
    return (unsigned)(seed >> 33) % n;
}

static long plans, steps_planned, letters, lasting, without_room;

/* the lives of which hopeless or exhausted was said, by take */
static uint8_t doomed[LEDGER_TRANSACTORS][LIVES][MARK];
static size_t many[LEDGER_TRANSACTORS];

static int is_doomed(size_t t, const uint8_t *of) {
    for (size_t d = 0; d < many[t]; d++)
        if (!memcmp(doomed[t][d], of, MARK)) return 1;
    return 0;
}

static void note_doomed(size_t t) {
    uint8_t now[MARK];
    life(image, t, now);
    if (!is_doomed(t, now) && many[t] < LIVES) memcpy(doomed[t][many[t]++], now, MARK);
}

/* a take at work and a waiting parcel, if some guesses find one; -1 if not */
static int a_busy_take(unsigned opened) {
    for (int g = 0; g < 8; g++) {
        unsigned t = below(opened);
        if (status(image, t) == 2) return (int)t;
    }
    return -1;
}

static int a_parcel(void) {
    for (int g = 0; g < 6; g++) {
        const uint8_t *m = image + PARCELS + PARCEL * below(LEDGER_MESSAGES);
        if (m[0] & 128) return m[1] << 8 | m[2];
    }
    return -1;
}

static unsigned a_volume(unsigned take) {
    uint8_t refusal;
    unsigned volume = ledger_smallest_group(image, LEDGER_IMAGE, take, &refusal);
    return volume ? volume : 1 + below(65535);
}

/* a step that is often not refused; opens takes first, ends work seldom */
static void random_step(uint8_t *step) {
    unsigned opened = image[0] ? image[0] : 1, kind = below(13);
    if (image[0] < 3 || below(12) == 0) kind = LEDGER_ROOT;
    if ((kind == LEDGER_FINISH || kind == LEDGER_FALL || kind == LEDGER_FAIL) && below(3)) kind = LEDGER_WRITE;
    if (kind == LEDGER_LOSE && below(2)) kind = LEDGER_RECEIVE;
    int busy = a_busy_take(opened), parcel = a_parcel();
    unsigned take = busy >= 0 && kind != LEDGER_LETTER && below(8) ? (unsigned)busy : below(opened), field = 0;
    if ((kind == LEDGER_RECEIVE || kind == LEDGER_LOSE) && parcel >= 0) field = (unsigned)parcel;
    if (kind == LEDGER_SIGN) field = a_volume(take);
    int acts = kind == LEDGER_LETTER || (kind >= LEDGER_NEW && kind <= LEDGER_FAIL);
    int texts = kind <= LEDGER_LETTER || kind == LEDGER_NEW || kind == LEDGER_SEND || kind == LEDGER_WRITE;
    ledger_step(step, kind, acts ? take : 0, kind == LEDGER_SEND ? below(opened) : 0, field, texts ? below(256) : 0);
}

/* what a plan of n steps for the take, run on the copy, has left */
static int ran_rightly(size_t take, size_t n) {
    unsigned volume = (unsigned)out[8 * n - 6] << 8 | out[8 * n - 5];
    int right = check(out[8 * n - 8] == LEDGER_SIGN << 4 && volume >> take & 1, "the last step signs the take");
    for (size_t j = 0; j < n; j++) {
        right &= check(replies[8 * j] == 0, "a step of the plan is answered with 0");
        letters += out[8 * j] >> 4 == LEDGER_LETTER;
    }
    for (size_t u = 0; u < LEDGER_TRANSACTORS; u++) {
        right &= check(!memcmp(take_at(copy, u) + 1, take_at(image, u) + 1, 4), "no text changes");
        if (!(volume >> u & 1)) right &= check(!memcmp(take_at(copy, u), take_at(image, u), TAKE), "a take outside the volume is as it was");
    }
    right &= check(!memcmp(copy + PARCELS, image + PARCELS, LEDGER_MESSAGES * PARCEL), "the waiting parcels are as they were");
    return right & check(signings(copy, take) == signings(image, take) + 1, "the take is signed");
}

/* one take is asked for, and its plan run on a copy */
static int judged(size_t take) {
    uint8_t refusal, other;
    size_t n = plan(take, &refusal);
    if (refusal) return check(n == 0 && out[0] == 0xAA && out[LEDGER_PLAN - 1] == 0xAA, "refused, and nothing written");
    for (size_t j = 8 * n; j < sizeof out; j++)
        if (out[j]) return check(0, "zeros past the steps");
    size_t kind = ledger_impediment(image, LEDGER_IMAGE, take, &other).kind;
    int lasts = kind == LEDGER_HOPELESS || kind == LEDGER_EXHAUSTED;
    if (lasts) note_doomed(take);
    lasting += lasts;
    without_room += n == 0 && !lasts;
    if (n == 0 || lasts) return check(n == 0, "no steps where hopeless or exhausted is said");
    plans++;
    steps_planned += (long)n;
    memcpy(copy, image, LEDGER_IMAGE);
    if (ledger_run(copy, LEDGER_IMAGE, out, sizeof out, 0, 8 * n, replies, 8 * n)) return check(0, "the plan is run");
    return ran_rightly(take, n);
}

/* a step is played; no doomed life is signed by it */
static int played(void) {
    uint8_t step[LEDGER_STEP], reply[LEDGER_STEP], lives[LEDGER_TRANSACTORS][MARK];
    random_step(step);
    for (size_t u = 0; u < LEDGER_TRANSACTORS; u++) life(image, u, lives[u]);
    if (ledger_run(image, LEDGER_IMAGE, step, 8, 0, 8, reply, 8)) return check(0, "a step is played");
    if (step[0] >> 4 != LEDGER_SIGN || reply[0]) return 1;
    for (size_t u = 0; u < LEDGER_TRANSACTORS; u++)
        if ((step[2] << 8 | step[3]) >> u & 1 && is_doomed(u, lives[u])) return check(0, "no doomed life is signed");
    return 1;
}

static void random_session(long number) {
    ledger_begin(image, LEDGER_IMAGE, 1 + below(16), 1 + below(below(2) ? 32 : 4), 1 + below(3));
    memset(many, 0, sizeof many);
    if (number % 10 == 0) { /* few numbers are left */
        image[1] = 255;
        image[2] = (uint8_t)(255 - below(8));
    }
    int right = 1;
    for (int i = 0; i < STEPS && right; i++) {
        right = played();
        for (size_t t = 0; t < LEDGER_TRANSACTORS && right; t++) right = judged(t);
    }
    test(right, "a random session");
}

int main(int argc, char **argv) {
    long sessions = argc > 1 ? atol(argv[1]) : 400;
    by_hand();
    in_the_way();
    refusals();
    longest_plan();
    for (long k = 0; k < sessions; k++) random_session(k);
    printf("%ld random sessions: %ld plans of %ld steps run, %ld letters among them\n", sessions, plans, steps_planned, letters);
    printf("no steps: %ld times hopeless or exhausted, %ld times for lack of room\n", lasting, without_room);
    test(sessions < 100 || (plans > 1000 && letters > 1000 && lasting > 1000 && without_room > 1000), "enough of each kind");
    printf("%ld passed, %ld failed\n", passed, failed);
    return failed != 0;
}
