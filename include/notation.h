/* Step lists, replies and images as text (docs/NOTATION.md). Numbers and packed forms are those of documents 01 and 02, and the text speaks
 * the documents' words.
 *
 * The library is built by `tools/library notation_c` as target/staticlib/libnotation_c.a, for x86-64 Linux, and can be linked alone or beside
 * the ledger's.
 *
 * What a caller owes (buffers, threads, stack) is said once, in ledger_steps.h.
 * No text is ended by a zero byte.
 *
 * Stack of each call in KiB, at most, beside that of memcpy, memmove and memset (tools/stack measures the compiled library):
 *
 *     notation_parse 1   notation_expected_text 2   notation_refusal_text 4   notation_reply 5   notation_length 4   notation_step 4   notation_print 4   notation_image 6
 */
#ifndef NOTATION_H
#define NOTATION_H

#include "ledger_steps.h"

#ifdef __cplusplus
extern "C" {
#endif

enum {
    NOTATION_STEP = 45,    /* the longest line of a step, with its LF: 45 bytes a step are room for every text */
    NOTATION_LINE = 256,   /* room for every line, reply, line of an image, and what was expected */
    NOTATION_LINES = 1330  /* how many lines an image has, most of them empty */
};

/* Refusals. */
enum {
    NOTATION_WRONG_LENGTH = 16, /* image not 42,616 bytes */
    NOTATION_WRONG_PART = 17,   /* list not a multiple of 8 bytes, or over 8,192 */
    NOTATION_WRONG_ROOM = 18,   /* out has no room for the text */
    NOTATION_ILL_FORMED = 19    /* image ill-formed */
};

/* What a text lacks where it has a fault; notation_expected_text says it in words. */
enum notation_expected {
    NOTATION_NOTHING = 0,
    NOTATION_TAKE = 1,
    NOTATION_ADDRESSEE = 2,
    NOTATION_PARCEL = 3,
    NOTATION_TEXT = 4,
    NOTATION_VOLUME = 5,
    NOTATION_WORD_TO = 6,
    NOTATION_WORD_TEXT = 7,
    NOTATION_DIGITS = 8,
    NOTATION_KIND = 9, /* of step, or raw */
    NOTATION_COMMA = 10,
    NOTATION_END = 11,
    NOTATION_ROOM = 12 /* in out */
};

/* How many bytes were written (notation_length: would be), and the refusal or 0; refused, the length is 0. */
struct notation_given {
    size_t length;
    uint8_t refusal;
};

/* Writes the packed steps that the text says to the start of out and answers how many; *line, *column and *expected are 0. At a fault
 * the answer is 0 and no byte of out is changed; *line and *column, from 1 and the column in bytes, are the first fault's place, *expected
 * is what was expected there. */
size_t notation_parse(const uint8_t *text, size_t text_length, uint8_t *out, size_t out_length,
                      size_t *line, size_t *column, uint8_t *expected);

/* Writes the words of what was expected, as `a take, 0 to 15`, without LF; nothing for a number that is not 1 to 12. 18. */
struct notation_given notation_expected_text(uint8_t expected, uint8_t *out, size_t out_length);
void notation_expected_text_into(uint8_t expected, uint8_t *out, size_t out_length, struct notation_given *answer);

/* Writes the words of a refusal, as `image ill-formed`, without LF; nothing for a number that is
 * not 16 to 35. 18. */
struct notation_given notation_refusal_text(uint8_t number, uint8_t *out, size_t out_length);
void notation_refusal_text_into(uint8_t number, uint8_t *out, size_t out_length, struct notation_given *answer);

/* How long the text of a list is. 17. */
struct notation_given notation_length(const uint8_t *list, size_t list_length);
void notation_length_into(const uint8_t *list, size_t list_length, struct notation_given *answer);

/* Writes the canonical text of a list to the front of out: one step a line, each ended by LF. 17, 18. */
struct notation_given notation_print(const uint8_t *list, size_t list_length, uint8_t *out, size_t out_length);
void notation_print_into(const uint8_t *list, size_t list_length, uint8_t *out, size_t out_length, struct notation_given *answer);

/* Writes the line of step i, from 0 on, of a list of any length, with its LF; nothing past the last whole step. 18. */
struct notation_given notation_step(const uint8_t *list, size_t list_length, size_t i, uint8_t *out, size_t out_length);
void notation_step_into(const uint8_t *list, size_t list_length, size_t i, uint8_t *out, size_t out_length, struct notation_given *answer);

/* Writes the reply to step i in words, without LF; nothing past the last step or reply. 18. */
struct notation_given notation_reply(const uint8_t *list, size_t list_length, const uint8_t *replies, size_t replies_length, size_t i,
                                     uint8_t *out, size_t out_length);
void notation_reply_into(const uint8_t *list, size_t list_length, const uint8_t *replies, size_t replies_length, size_t i, uint8_t *out,
    size_t out_length, struct notation_given *answer);

/* Writes line n, from 0 on, of an image's text, with its LF. Every take and parcel has its lines at fixed numbers, so many are empty; past the
 * last all are. 16, 19, 18. */
struct notation_given notation_image(const uint8_t *image, size_t image_length, size_t n, uint8_t *out, size_t out_length);
void notation_image_into(const uint8_t *image, size_t image_length, size_t n, uint8_t *out, size_t out_length, struct notation_given *answer);

#ifdef __cplusplus
}
#endif

#endif
