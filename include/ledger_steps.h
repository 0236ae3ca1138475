/* What the ledger (ledger.h) and the engine without maps (engine.h) have in common: packed steps and replies, limits, and the numbers of
 * kinds, outcomes and refusals. The rules are docs/RULES.md; the words are the field's: a transactor is the documents' take, a message a
 * parcel, a value a text, a history a mark, an incarnation a life, a group a volume, stable is frozen, checkpointed is signed
 * (docs/RULES.md, section 1). Kinds of step and outcomes have the documents' names.
 *
 * A step is 8 bytes, most significant bit first:
 *
 *     byte 0             byte 1          bytes 2, 3   bytes 4 to 7
 *     kind, transactor   other, zero     message      value
 *     4 bits each        4 bits each     16 bits      32 bits
 *
 * A sign has its group in the message field: transactor t counts 2^t. A field that the kind does not use is 0.
 *
 * A reply is 8 bytes:
 *
 *     byte 0               byte 1       bytes 2, 3   bytes 4 to 7
 *     outcome or refusal   transactor   message      value
 *
 * ---- How every call of these libraries is used
 *
 * Buffers. A buffer is a pointer and its length in bytes. The caller owes, for each call: pointers
 * that are not null, also for a length of 0 (any address will do there); as many bytes behind each
 * as its length says, readable, and writable where the pointer is not to const; and that what is
 * written (an image that is run, replies, out, target, a lent number) overlaps no other buffer of
 * the call. Buffers that are only read may overlap each other. No alignment is asked of bytes.
 * Every other input is allowed, and refused where the documents refuse it.
 *
 * Refused calls change no byte but the lent number for the refusal.
 *
 * Answers. A call that answers with a struct has a sibling whose name ends in _into: it writes the
 * same answer into the struct that its last argument lends; where that is null, it does nothing.
 *
 * Threads. The libraries keep nothing between calls, have no variable of their own and allocate
 * nothing. Any number of threads may call at the same time; two calls of which one writes to a
 * buffer must not have that buffer in common at the same time, as for any memory.
 *
 * Stack. Each header says how much stack each of its calls takes at most, and a sibling takes at
 * most 64 bytes more. No call calls back,
 * waits, or asks the operating system for anything; each ends. They need memcpy, memmove and memset
 * and nothing else.
 *
 * The code. The libraries are for x86-64 Linux. The code is position-independent and has neither
 * unwind tables nor marks for control-flow enforcement (CET), which the compiler of the proved
 * language does not make: an exception must not be thrown through a call (none calls back), and a
 * debugger can't walk up from inside one.
 */
#ifndef LEDGER_STEPS_H
#define LEDGER_STEPS_H

#include <stddef.h>
#include <stdint.h>

enum {
    LEDGER_STEP = 8,         /* bytes of a step, and of a reply */
    LEDGER_LONGEST = 8192,   /* bytes of the longest list that is run at once */
    LEDGER_TRANSACTORS = 16, /* the greatest limits of a session */
    LEDGER_MESSAGES = 32,
    LEDGER_CHECKPOINTS = 15
};

/* The kind of a step, and the fields that it uses. */
enum ledger_kind {
    LEDGER_ROOT = 0,    /* value */
    LEDGER_LETTER = 1,  /* transactor (the addressee), value */
    LEDGER_RECEIVE = 2, /* message */
    LEDGER_NEW = 3,     /* transactor, value */
    LEDGER_SEND = 4,    /* transactor, other (the addressee), value */
    LEDGER_READ = 5,    /* transactor */
    LEDGER_WRITE = 6,   /* transactor, value */
    LEDGER_FREEZE = 7,  /* transactor */
    LEDGER_FINISH = 8,  /* transactor; the documents' done */
    LEDGER_FALL = 9,    /* transactor */
    LEDGER_FAIL = 10,   /* transactor */
    LEDGER_LOSE = 11,   /* message */
    LEDGER_SIGN = 12    /* message: the group */
};

/* The outcome of a step that is not refused, a reply's first byte. */
enum ledger_outcome {
    LEDGER_OUTCOME_DONE = 0,
    LEDGER_OUTCOME_HELD = 1,
    LEDGER_OUTCOME_DROPPED = 2,
    LEDGER_OUTCOME_FALLEN_BACK = 3,
    LEDGER_OUTCOME_VANISHED = 4,
    LEDGER_OUTCOME_NOT_READY = 5
};

/* The answer of a call, or what a lent number takes: 0 if it is accepted; or why a call or a step
 * is refused, of a step a reply's first byte too. notation_refusal_text (notation.h) has the words
 * of each. */
enum ledger_refusal {
    LEDGER_ACCEPTED = 0,
    /* calls */
    LEDGER_WRONG_LENGTH = 16, /* image, an image to be converted or its target, or a history, not of its length */
    LEDGER_WRONG_PART = 17,   /* part not inside the list, its length not a multiple of 8, or over 8,192 */
    LEDGER_WRONG_ROOM = 18,   /* replies, or out, not as long as the part */
    LEDGER_ILL_FORMED = 19,   /* image, or a history, ill-formed */
    /* steps; 21 and 22 also of queries about a transactor, 24 of show, 29, 21, 22 and 30 of obstacle, 24, 22, 23, 31 and 28 of decision */
    LEDGER_MALFORMED = 20,    /* kind 13 to 15, or an unused field or the zero bits not zero */
    LEDGER_UNOPENED = 21,     /* acting transactor, addressee or named one not opened */
    LEDGER_GONE = 22,         /* acting, receiving or named transactor annihilated */
    LEDGER_WRONG_STATUS = 23, /* receive when not idle; kinds 3 to 9 when not busy */
    LEDGER_NOT_WAITING = 24,  /* message not waiting */
    LEDGER_ALL_OPENED = 25,   /* as many transactors opened as the session's limit */
    LEDGER_ALL_WAITING = 26,  /* as many messages waiting as the session's limit */
    LEDGER_ALL_NUMBERED = 27, /* next message number is 65,535 */
    LEDGER_LAST_INCARNATION = 28, /* a checkpointed transactor would roll back from incarnation 65,535 */
    LEDGER_EMPTY_GROUP = 29,  /* group empty */
    LEDGER_ALL_CHECKPOINTED = 30, /* a named transactor has as many checkpoints as the session's limit */
    LEDGER_UNRELATED = 31,    /* receive: histories of one transactor from two different sessions */
    /* conversion back, checked last */
    LEDGER_TOO_WIDE = 32,     /* an incarnation number or an entry of a list is over 255, or the limits are not 16, 32 and 15 */
    /* begin after 16, play after 17 and 18 */
    LEDGER_OUT_OF_RANGE = 33, /* a limit out of range */
    /* how many groups are ready, after 16 and 19 */
    LEDGER_WRONG_SIZE = 34,   /* size outside 1 to 16 */
    /* worst window, after 17 */
    LEDGER_WRONG_WIDTH = 35   /* width outside 1 to 256 */
};

/* Writes a step: ledger_step(list + LEDGER_STEP * i, LEDGER_SEND, 0, 1, 0, 9). Each number must fit
 * its field; no bit beyond it is written. The functions below, one for each kind, take the fields
 * of that kind alone, and write nothing where a number does not fit. */
static inline void ledger_step(uint8_t *at, enum ledger_kind kind, unsigned transactor, unsigned other, unsigned message, uint32_t value) {
    at[0] = (uint8_t)(((unsigned)kind & 15u) << 4 | (transactor & 15u));
    at[1] = (uint8_t)((other & 15u) << 4);
    at[2] = (uint8_t)(message >> 8 & 255u);
    at[3] = (uint8_t)(message & 255u);
    at[4] = (uint8_t)(value >> 24);
    at[5] = (uint8_t)(value >> 16 & 255u);
    at[6] = (uint8_t)(value >> 8 & 255u);
    at[7] = (uint8_t)(value & 255u);
}

/* Each writes a step of its kind and answers 1; or 0, with no byte written, where a transactor is
 * past 15, or a message or group past 65,535. */
static inline int ledger_fitting_step(uint8_t *at, enum ledger_kind kind, size_t transactor, size_t other, size_t message, uint32_t value) {
    if (transactor >= LEDGER_TRANSACTORS || other >= LEDGER_TRANSACTORS || message > 65535u) return 0;
    ledger_step(at, kind, (unsigned)transactor, (unsigned)other, (unsigned)message, value);
    return 1;
}

static inline int ledger_root(uint8_t *at, uint32_t value) { return ledger_fitting_step(at, LEDGER_ROOT, 0, 0, 0, value); }

static inline int ledger_letter(uint8_t *at, size_t addressee, uint32_t value) { return ledger_fitting_step(at, LEDGER_LETTER, addressee, 0, 0, value); }

static inline int ledger_receive(uint8_t *at, size_t message) { return ledger_fitting_step(at, LEDGER_RECEIVE, 0, 0, message, 0); }

static inline int ledger_new(uint8_t *at, size_t transactor, uint32_t value) { return ledger_fitting_step(at, LEDGER_NEW, transactor, 0, 0, value); }

static inline int ledger_send(uint8_t *at, size_t transactor, size_t addressee, uint32_t value) {
    return ledger_fitting_step(at, LEDGER_SEND, transactor, addressee, 0, value);
}

static inline int ledger_read(uint8_t *at, size_t transactor) { return ledger_fitting_step(at, LEDGER_READ, transactor, 0, 0, 0); }

static inline int ledger_write(uint8_t *at, size_t transactor, uint32_t value) { return ledger_fitting_step(at, LEDGER_WRITE, transactor, 0, 0, value); }

static inline int ledger_freeze(uint8_t *at, size_t transactor) { return ledger_fitting_step(at, LEDGER_FREEZE, transactor, 0, 0, 0); }

static inline int ledger_finish(uint8_t *at, size_t transactor) { return ledger_fitting_step(at, LEDGER_FINISH, transactor, 0, 0, 0); }

static inline int ledger_fall(uint8_t *at, size_t transactor) { return ledger_fitting_step(at, LEDGER_FALL, transactor, 0, 0, 0); }

static inline int ledger_fail(uint8_t *at, size_t transactor) { return ledger_fitting_step(at, LEDGER_FAIL, transactor, 0, 0, 0); }

static inline int ledger_lose(uint8_t *at, size_t message) { return ledger_fitting_step(at, LEDGER_LOSE, 0, 0, message, 0); }

static inline int ledger_sign(uint8_t *at, size_t group) { return ledger_fitting_step(at, LEDGER_SIGN, 0, 0, group, 0); }

/* Transactor t as a member of a group, 2^t; a group is its members put together by |. Past 15: 2^16, which is in no group:
 * ledger_obstacle refuses it with 21, a step has no room for it, and names the other members alone. */
static inline unsigned ledger_member(size_t t) { return t < LEDGER_TRANSACTORS ? 1u << t : 1u << LEDGER_TRANSACTORS; }

/* The fields of a reply. */
static inline unsigned ledger_reply_outcome(const uint8_t *reply) { return reply[0]; }

static inline unsigned ledger_reply_transactor(const uint8_t *reply) { return reply[1]; }

static inline unsigned ledger_reply_message(const uint8_t *reply) { return (unsigned)reply[2] << 8 | reply[3]; }

static inline uint32_t ledger_reply_value(const uint8_t *reply) {
    return (uint32_t)reply[4] << 24 | (uint32_t)reply[5] << 16 | (uint32_t)reply[6] << 8 | reply[7];
}

#endif
