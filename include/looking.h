/* For a program that looks on and must not know a rule: what a receipt would do, two histories compared, whether
 * two steps may come in either order, what a byte of an image belongs to.
 *
 * The library is built by `tools/library looking_c` as target/staticlib/liblooking_c.a, for x86-64 Linux, and can be linked alone or beside
 * the ledger's.
 *
 * What a caller owes (buffers, threads, stack) is said once, in ledger_steps.h.
 *
 * Stack of each call in KiB, at most, beside that of memcpy, memmove and memset (tools/stack measures the compiled library):
 *
 *     looking_decision 2    looking_compare 1    looking_independent 45    looking_field 1
 */
#ifndef LOOKING_H
#define LOOKING_H

#include "ledger_steps.h"

#ifdef __cplusplus
extern "C" {
#endif

/* What a receipt would reply. */
struct looking_verdict {
    size_t outcome;    /* LEDGER_OUTCOME_DONE, _DROPPED, _FALLEN_BACK or _VANISHED: 0, 2, 3 or 4 */
    size_t transactor; /* dropped: the first whose history in the message is superseded by the receiver's; fallen back or
                          vanished: the first whose history in the receiver's maps is superseded by the message's; done: 0 */
};

/* Two histories of a transactor compared; of the middle four the named one is the earlier. */
enum looking_relation {
    LOOKING_SAME_INCARNATION = 0,
    LOOKING_LEFT_CHECKPOINTED = 1,
    LOOKING_RIGHT_CHECKPOINTED = 2,
    LOOKING_LEFT_SUPERSEDED = 3,
    LOOKING_RIGHT_SUPERSEDED = 4,
    LOOKING_UNRELATED_HISTORIES = 5 /* from two different sessions */
};

struct looking_comparison {
    uint8_t relation;
    uint8_t newer; /* which one a join keeps: 0 the left one, 1 the right one */
};

/* What a byte of an image belongs to. */
enum looking_field_kind {
    LOOKING_PAST_IMAGE = 0,
    LOOKING_FIELD_OPENED = 1,
    LOOKING_FIELD_NEXT = 2,         /* 2 bytes */
    LOOKING_FIELD_BLANK = 3,        /* zero */
    LOOKING_FIELD_MOST_TRANSACTORS = 4,
    LOOKING_FIELD_MOST_MESSAGES = 5,
    LOOKING_FIELD_MOST_CHECKPOINTS = 6,
    LOOKING_FIELD_LIMITS_BLANK = 7, /* zero */
    LOOKING_FIELD_STATUS = 8,       /* of transactor holder, as far as 10 */
    LOOKING_FIELD_VALUE = 9,        /* 4 bytes */
    LOOKING_FIELD_SAVED = 10,       /* 4 bytes */
    LOOKING_FIELD_ADDRESSEE = 11,   /* of the message in place holder, as far as 13: waiting bit and addressee */
    LOOKING_FIELD_NUMBER = 12,      /* 2 bytes */
    LOOKING_FIELD_CONTENT = 13,     /* 4 bytes */
    LOOKING_FIELD_FLAGS = 14,       /* of the history of transactor ground in a map of holder, as far as 16: present, stable, count */
    LOOKING_FIELD_INCARNATION = 15, /* 2 bytes */
    LOOKING_FIELD_CHECKPOINT = 16   /* 2 bytes: that entry of its list, from 0 */
};

struct looking_place {
    uint8_t kind;
    uint8_t holder; /* the transactor, or the place of the message */
    uint8_t map;    /* of kinds 14 to 16: 0 state, 1 creation, 2 behaviour, 3 the message's; numbers that a kind does not use are 0 */
    uint8_t ground;
    uint8_t entry;
    uint8_t byte;   /* which byte of the field, from 0, the most significant one */
};

/* What the receipt of the waiting message with this number would reply now, and whose histories decide it; *refusal is 0. The image is only read.
 * Refused: *refusal is 16, 19, or what the receipt would get, 24, 22, 23, 31 or 28, and both numbers are 0. */
struct looking_verdict looking_decision(const uint8_t *image, size_t image_length, size_t number, uint8_t *refusal);
void looking_decision_into(const uint8_t *image, size_t image_length, size_t number, uint8_t *refusal, struct looking_verdict *answer);

/* Two packed histories of one transactor, 33 bytes each, compared; *refusal is 0. Refused: *refusal is 16 where one has another
 * length, 19 where one is absent or ill-formed, and both numbers are 0. */
struct looking_comparison looking_compare(const uint8_t *left, size_t left_length, const uint8_t *right, size_t right_length, uint8_t *refusal);
void looking_compare_into(const uint8_t *left, size_t left_length, const uint8_t *right, size_t right_length, uint8_t *refusal,
    struct looking_comparison *answer);

/* Whether two packed steps, 8 bytes each, may come in either order on this image. The answer is 1 exactly if they are
 * independent: neither of them sees what the other changes. Then both orders leave the same image and give each step the
 * same reply, also where one of them is refused. If the answer is 0, the order may show. *refusal is 0, and the image is
 * only read. Refused: the answer is 0, and *refusal is 16 for the image's length, 17 if a step has not 8 bytes, or 19. */
uint8_t looking_independent(const uint8_t *image, size_t image_length, const uint8_t *first, size_t first_length, const uint8_t *second,
    size_t second_length, uint8_t *refusal);

/* What byte at of an image belongs to; past the image all numbers are 0. Each byte of an image has an answer of its own. */
struct looking_place looking_field(size_t at);
void looking_field_into(size_t at, struct looking_place *answer);

#ifdef __cplusplus
}
#endif

#endif
