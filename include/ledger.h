/* The take ledger: a session is an image of LEDGER_IMAGE bytes and nothing else. The numbers, and how steps and replies are packed, are in
 * ledger_steps.h; the rules are docs/RULES.md.
 *
 * The library is built by `tools/library ledger_c` as target/staticlib/libledger_c.a, for x86-64 Linux. Installed, all headers are in
 * take-ledger/ and all libraries are one, which `pkg-config --cflags --libs take-ledger` names.
 *
 * What a caller owes (buffers, threads, stack) is said once, in ledger_steps.h.
 * Numbers are as wide as a caller may have them, and none is cut off.
 *
 * Stack of each call in KiB, at most, beside that of memcpy, memmove and memset (tools/stack measures the compiled library):
 *
 *     ledger_version 1      ledger_all_heard_stable 1   ledger_run 3              ledger_thin 45
 *     ledger_begin 1        ledger_dependents 1         ledger_smallest_group 3   ledger_forward 43
 *     ledger_offer 1        ledger_obstacle 1           ledger_ready_count 3      ledger_back 1
 *     ledger_show 1         ledger_impediment 1         ledger_worst_window 1     ledger_plan 1
 *     ledger_actor 1        ledger_fault 1
 */
#ifndef LEDGER_H
#define LEDGER_H

#include "ledger_steps.h"

#ifdef __cplusplus
extern "C" {
#endif

/* Major, minor and patch number, a byte each, made from the file VERSION; ledger_version() is the
 * library's own. */
#define LEDGER_VERSION 0x040000
#define LEDGER_VERSION_STRING "4.0.0"

enum {
    LEDGER_IMAGE = 42616,      /* bytes of an image */
    LEDGER_OLD_IMAGE = 22132,  /* bytes of an image of the old form, with incarnation numbers of one byte */
    LEDGER_MAP = 528,          /* bytes of a map */
    LEDGER_HISTORY = 33,       /* bytes of a history */
    LEDGER_PLAN = 392,         /* bytes lent for a plan: three steps for each transactor, and the signing */
    LEDGER_NONE = 65535        /* stands for no message: numbers run 0 to 65,534 */
};

/* A part of the image: the length bytes from image + offset on. */
struct ledger_part {
    size_t offset;
    size_t length;
};

/* A window of a list of replies: how many of them have outcome 3 or 4, and its place, that of its first reply, from 0. */
struct ledger_window {
    size_t count;
    size_t place;
};

/* What rests on the present incarnation of a transactor; groups as their bits. */
struct ledger_resting {
    uint16_t resting;    /* the live transactors whose state or creation map has it, itself among them */
    uint16_t through;    /* those, whoever rests on the present incarnation of one of those, and so on; itself among them */
    uint16_t unfinished; /* the busy transactors whose behaviour map has it */
    uint16_t carried;    /* how many waiting messages have it in their maps */
};

/* Why a group can't be checkpointed. */
enum ledger_obstacle_kind {
    LEDGER_NOTHING = 0,
    LEDGER_UNSTABLE = 1,                 /* the transactor is named and not stable */
    LEDGER_OUTSIDE = 2,                  /* it is named and rests on the present incarnation of ground, which is not named */
    LEDGER_SUPERSEDED_OR_ANNIHILATED = 3 /* it is named and rests on such an incarnation of ground (document 01: withdrawn) */
};

struct ledger_reason {
    uint8_t kind;
    uint8_t transactor;
    uint8_t ground;
};

/* Why no group with a transactor could be checkpointed. */
enum ledger_impediment_kind {
    LEDGER_NO_IMPEDIMENT = 0,
    LEDGER_HOPELESS = 1,  /* the transactor rests on an incarnation of ground that is superseded or annihilated (document 01: withdrawn) */
    LEDGER_EXHAUSTED = 2, /* it has as many checkpoints as the session allows */
    LEDGER_NOT_STABLE = 3 /* it is not stable */
};

struct ledger_cause {
    uint8_t kind;
    uint8_t transactor; /* the one that is in the way: the asked one, or one that it rests on, directly or through others */
    uint8_t ground;
    uint8_t next;       /* the next from the asked one to it: the asked one rests on its present incarnation; itself where it is in the way */
};

/* For whom a step acts. */
enum ledger_actor_kind {
    LEDGER_NOBODY = 0,          /* the step would be refused with 20, or it receives a message that does not wait */
    LEDGER_HOUSE = 1,           /* root, letter, lose: no transactor's */
    LEDGER_ONE_TRANSACTOR = 2,  /* kinds 3 to 10: the acting one; receive: the addressee of the message */
    LEDGER_GROUP = 3            /* sign: the named ones */
};

struct ledger_acting {
    size_t kind;
    size_t takes; /* the transactors, as their bits: one for LEDGER_ONE_TRANSACTOR, the group for LEDGER_GROUP, else 0 */
};

/* The clauses of an image's form by their numbers in docs/RULES.md, section 8: what is wrong. */
enum ledger_clause {
    LEDGER_WELL_FORMED = 0,
    LEDGER_FRONT_ZEROS = 1,      /* byte 3 or 7 not zero */
    LEDGER_WRONG_LIMITS = 2,     /* limits out of range */
    LEDGER_TRANSACTOR_ZEROS = 3, /* in a transactor's place a zero bit that is set, or a place past those opened that is not zero */
    LEDGER_PLACE_ZEROS = 4,      /* in a message's place a zero bit that is set, or a free place that is not zero */
    LEDGER_WRONG_MAP = 5,        /* in a map: a zero bit or an unused byte that is not zero; a history of one not opened; a list over the limit */
    LEDGER_OVER_LIMIT = 6,       /* more transactors opened, or more messages waiting, than the limits */
    LEDGER_NO_STATUS = 7,        /* an opened transactor with status 0 */
    LEDGER_NO_OWN_HISTORY = 8,   /* a live transactor without its own history */
    LEDGER_SAVED_VALUE = 9,      /* a transactor never checkpointed with a saved value */
    LEDGER_IDLE_BEHAVIOUR = 10,  /* an idle transactor with a behaviour map */
    LEDGER_OVER_STATUS = 11,     /* an annihilated transactor with more than its status */
    LEDGER_GAP = 12,             /* messages with gaps */
    LEDGER_OUT_OF_ORDER = 13,    /* a message with no higher number than the one before it */
    LEDGER_OVER_NEXT = 14,       /* a message at or above the next number */
    LEDGER_TO_UNOPENED = 15      /* a message to a transactor that is not opened */
};

/* LEDGER_VERSION of the library that is linked. */
uint32_t ledger_version(void);

/* Begins a fresh session, which opens at most so many transactors (1 to 16), has at most so many messages waiting (1 to 32) and
 * checkpoints a transactor at most so often (1 to 15): the image is all zero bytes but for these limits, whatever it held, and the answer
 * is 0. 16, 33: no byte is changed. */
uint8_t ledger_begin(uint8_t *image, size_t image_length, size_t transactors, size_t messages, size_t checkpoints);

/* Runs the steps of list from byte start up to byte end, writes a reply of 8 bytes for each, leaves the image as the rules give
 * it, and answers 0, whatever the steps reply: 20 to 31 are replies, and the list goes on. 16 to 19: no byte is changed. */
uint8_t ledger_run(uint8_t *image, size_t image_length,
                   const uint8_t *list, size_t list_length, size_t start, size_t end,
                   uint8_t *replies, size_t replies_length);

/* The lowest number of a waiting message addressed to the transactor, or LEDGER_NONE exactly if there is none; *refusal is 0.
 * Refused: *refusal is 16, 19, 21 or 22, and the answer is LEDGER_NONE. */
uint16_t ledger_offer(const uint8_t *image, size_t image_length, size_t transactor, uint8_t *refusal);

/* The smallest group with the transactor that could be checkpointed now, as its bits, or 0 exactly if there is none; *refusal is 0.
 * Refused: *refusal is 16, 19, 21 or 22, and the answer is 0. */
uint16_t ledger_smallest_group(const uint8_t *image, size_t image_length, size_t transactor, uint8_t *refusal);

/* How many groups of exactly that many transactors (size, 1 to 16) could be checkpointed now: the signing of each would be done; *refusal
 * is 0. Refused: *refusal is 16, 19 or 34, and the answer is 0. Every group of 16 bits is looked at, so a call takes up to a
 * millisecond. */
size_t ledger_ready_count(const uint8_t *image, size_t image_length, size_t size, uint8_t *refusal);

/* 1 exactly if every history in the transactor's state and creation maps but its own is stable, also where there is no other, else 0;
 * *refusal is 0. Refused: *refusal is 16, 19, 21 or 22, and the answer is 0. */
uint8_t ledger_all_heard_stable(const uint8_t *image, size_t image_length, size_t transactor, uint8_t *refusal);

/* What rests on the present incarnation of the transactor. In a session grown from a fresh one: if it rolls back now, those of resting and through can't be checkpointed any more, but
 * for itself, as long as they keep their own; *refusal is 0. Refused: *refusal is 16, 19, 21 or 22, and all four numbers are 0. */
struct ledger_resting ledger_dependents(const uint8_t *image, size_t image_length, size_t transactor, uint8_t *refusal);
void ledger_dependents_into(const uint8_t *image, size_t image_length, size_t transactor, uint8_t *refusal, struct ledger_resting *answer);

/* Why the group (its bits, transactor t counting 2^t) can't be checkpointed now: the first reason, LEDGER_NOTHING exactly if it can; *refusal
 * is 0. An unstable transactor comes first; then the maps are looked at, transactor by transactor and entry by entry. With
 * LEDGER_SUPERSEDED_OR_ANNIHILATED, in a session grown from a fresh one, no group with that transactor can be checkpointed as long as it keeps its
 * present incarnation. Refused:
 * *refusal is 16, 19, or what the signing would get, 29, 21, 22 or 30, and all three numbers are 0. A number past 16 bits names a transactor that
 * no session opens: 21. */
struct ledger_reason ledger_obstacle(const uint8_t *image, size_t image_length, size_t members, uint8_t *refusal);
void ledger_obstacle_into(const uint8_t *image, size_t image_length, size_t members, uint8_t *refusal, struct ledger_reason *answer);

/* Why no group with the transactor could be checkpointed now: LEDGER_NO_IMPEDIMENT exactly if one could, that is, if ledger_smallest_group
 * gives one; *refusal is 0. The hopeless come first, then the exhausted, then the unstable; of each the lowest. Asked about next, the answer is
 * the same but for next, so a caller walks the chain to the one in the way by asking again. With LEDGER_HOPELESS or LEDGER_EXHAUSTED, in a
 * session grown from a fresh one, no group with the asked transactor can be checkpointed as long as it keeps its present incarnation. Refused: *refusal is 16, 19, 21 or 22, and all
 * four numbers are 0. */
struct ledger_cause ledger_impediment(const uint8_t *image, size_t image_length, size_t transactor, uint8_t *refusal);
void ledger_impediment_into(const uint8_t *image, size_t image_length, size_t transactor, uint8_t *refusal, struct ledger_cause *answer);

/* For whom the step, LEDGER_STEP bytes, acts on this image: whoever gives people rights asks it
 * before the step is run. Refusals other than those of LEDGER_NOBODY are not asked about. A step
 * changes no transactor that is opened before it and that it does not act for, refused or not.
 * *refusal is 0. Refused: *refusal is 16, 17 (step not LEDGER_STEP bytes) or 19, and both numbers
 * are 0. */
struct ledger_acting ledger_actor(const uint8_t *image, size_t image_length, const uint8_t *step, size_t step_length, uint8_t *refusal);
void ledger_actor_into(const uint8_t *image, size_t image_length, const uint8_t *step, size_t step_length, uint8_t *refusal,
    struct ledger_acting *answer);

/* Where an image fails the form first: answers 0 if it is well-formed, with *at and *clause 0; 19
 * if it is not, with the byte in *at (where the field, map or place begins) and the clause in
 * *clause; 16, with both 0, if it has another length. So it refuses exactly the images that
 * ledger_offer refuses with 16 and 19. The head and the limits come first, then the transactors,
 * then the places of messages; docs/RULES.md, section 9.13, has the tests of each in their order. */
uint8_t ledger_fault(const uint8_t *image, size_t image_length, size_t *at, uint8_t *clause);

/* What is left to do so that the transactor is checkpointed: the steps, eight bytes each, written to out
 * (LEDGER_PLAN bytes) with zero bytes after them; the answer is how many, and *refusal is 0. Run from the same
 * image, each is answered with outcome 0, and the last, a signing, checkpoints the transactor with all that it
 * rests on; no value changes, nobody rolls back, and no waiting message is touched. A transactor that is idle and
 * not stable is woken by an empty letter first. Where there are 0 steps, ledger_impediment on the same image tells why. It says
 * hopeless or exhausted: then, in a session grown from a fresh one, the transactor can't be checkpointed any more
 * as long as it keeps its present incarnation. It says not stable: then a letter is needed for which there is no
 * place or no number. Refused: *refusal is 16, 19, 21, 22, or 18 if out has another length, no byte of out is
 * changed, and the answer is 0. */
size_t ledger_plan(const uint8_t *image, size_t image_length, size_t transactor, uint8_t *out, size_t out_length, uint8_t *refusal);

/* The short list of the steps of list from byte start up to byte end: without those that a run from the image refuses, and without
 * the reads whose map is emptied unused. Run from the same image it leaves the same image, and each of its steps has its earlier
 * reply. It is written to out, with zero bytes after it, and the answer is how many steps it has; *refusal is 0. The image is only
 * read. Refused: *refusal is 16, 17, 18 or 19, no byte of out is changed, and the answer is 0. */
size_t ledger_thin(const uint8_t *image, size_t image_length,
                   const uint8_t *list, size_t list_length, size_t start, size_t end,
                   uint8_t *out, size_t out_length, uint8_t *refusal);

/* Where the LEDGER_MAP bytes of the image are that hold the map of the waiting message with this number; *refusal is 0.
 * Refused: *refusal is 16, 19 or 24, and offset and length are 0. */
struct ledger_part ledger_show(const uint8_t *image, size_t image_length, size_t number, uint8_t *refusal);
void ledger_show_into(const uint8_t *image, size_t image_length, size_t number, uint8_t *refusal, struct ledger_part *answer);

/* Writes source, an image of the old form, in target as one that the other calls take, with the limits 16, 32 and 15, and answers 0.
 * Refused with 16 (source not LEDGER_OLD_IMAGE bytes, or target not LEDGER_IMAGE) or 19 (source ill-formed): no byte is changed. */
uint8_t ledger_forward(const uint8_t *source, size_t source_length, uint8_t *target, size_t target_length);

/* Writes source, an image, in target in the old form, and answers 0: ledger_forward gives source again. Refused with 16 (source not
 * LEDGER_IMAGE bytes, or target not LEDGER_OLD_IMAGE), 19 (source ill-formed) or 32: no byte is changed. */
uint8_t ledger_back(const uint8_t *source, size_t source_length, uint8_t *target, size_t target_length);

/* Of the windows of width successive replies of 8 bytes, the first of those with most outcomes 3 and 4; a list shorter than the width
 * is one window, and an empty list gives 0 at 0; *refusal is 0. Refused: *refusal is 17 or 35, and both numbers are 0.
 * It reads a list of replies alone, wherever they come from, and no image. */
struct ledger_window ledger_worst_window(const uint8_t *replies, size_t replies_length, size_t width, uint8_t *refusal);
void ledger_worst_window_into(const uint8_t *replies, size_t replies_length, size_t width, uint8_t *refusal, struct ledger_window *answer);

#ifdef __cplusplus
}
#endif

#endif
