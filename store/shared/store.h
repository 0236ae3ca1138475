/* What SQLite, PostgreSQL and the tool need beside the library's own calls: lists of any length, sentences, and the
 * fields of an image. No rule stands here: every answer is the library's, and where a field stands in an image is asked
 * of looking_field, byte by byte, once. */
#ifndef STORE_H
#define STORE_H

#include <stddef.h>
#include <stdint.h>

#include "ledger.h"
#include "looking.h"
#include "notation.h"

enum {
    STORE_SENTENCE = 300, /* room for a sentence of store_sentence */
    STORE_MAPS = 80,      /* three maps for each take, then one for each place of a parcel */
    STORE_NONE = 255      /* no take */
};

#pragma GCC visibility push(hidden) /* a database loads many libraries */

struct store_bytes {
    const uint8_t *at;
    size_t length;
};

/* ---- lists of any length (lists.c) */

/* Whose a step is, and what it opened. */
struct store_played {
    uint8_t kind;    /* enum ledger_actor_kind: nobody's, the house's, a take's, a volume's */
    uint8_t opened;  /* the take that the step opened, or STORE_NONE */
    uint16_t takes;  /* as their bits */
};

/* Runs any number of steps, 1,024 at a time. The answer is 0 or the refusal; refused, the image may have been changed, so
 * it is a copy that is lent. Replies may be null. */
unsigned store_run(uint8_t *image, size_t image_length, struct store_bytes list, uint8_t *replies);

/* The same, a step at a time; whose each step is goes to played. */
unsigned store_play(uint8_t *image, size_t image_length, struct store_bytes list, uint8_t *replies,
                    struct store_played *played);

/* The short list, to out, which is as long as the list: each 1,024 steps are made shorter by themselves. The image is a
 * copy that is lent, and played along. How many bytes of out are the list. */
size_t store_thin(uint8_t *image, size_t image_length, struct store_bytes list, uint8_t *out, unsigned *refusal);

/* 0 for a well-formed image, else 16 or 19. */
unsigned store_form(struct store_bytes image);

/* ---- sentences (words.c) */

/* The number of a refusal and the library's words for it, as `refused 19: image ill-formed`. */
void store_sentence(unsigned refusal, char out[STORE_SENTENCE]);

/* The same of a call that got this image (or none: at is null); an ill-formed one is told with the byte and the clause of its first fault, as
 * `refused 19: image ill-formed, at byte 3 by clause 1: byte 3 or 7 is not zero`. */
void store_sentence_of(unsigned refusal, struct store_bytes image, char out[STORE_SENTENCE]);

/* Where a text is no list of steps: line, column, and the library's words for what was expected there. */
void store_fault(size_t line, size_t column, uint8_t expected, char out[STORE_SENTENCE]);

/* The documents' words for the numbers of answers. */
const char *store_status_word(unsigned status);
const char *store_obstacle_word(unsigned kind);
const char *store_impediment_word(unsigned kind);
const char *store_actor_word(unsigned kind);
const char *store_map_word(unsigned map);
const char *store_field_word(unsigned kind);
const char *store_clause_word(unsigned clause); /* of docs/RULES.md, section 8: what is wrong */

/* ---- fields of a well-formed image (fields.c) */

struct store_take {
    unsigned status; /* 1 idle, 2 at work, 3 vanished */
    uint32_t text;
    uint32_t saved;
};

struct store_parcel {
    unsigned waiting;
    unsigned addressee;
    unsigned number;
    uint32_t text;
};

struct store_mark {
    unsigned present;
    unsigned frozen;
    unsigned life;
    unsigned signings;
    unsigned list[LEDGER_CHECKPOINTS];
};

/* Asks where every field stands; once, before the first of the calls below. */
void store_learn(void);

unsigned store_opened(const uint8_t *image);
struct store_take store_take(const uint8_t *image, size_t take);
struct store_parcel store_parcel(const uint8_t *image, size_t place);

/* The mark of take `of` in a map: 3 t, 3 t + 1 and 3 t + 2 are state, creation and behaviour of take t; 48 + k is that of
 * the parcel in place k. */
struct store_mark store_mark(const uint8_t *image, size_t map, size_t of);

/* A list of lives as `0,3`; empty for none. At most 6 bytes each. */
void store_lives(const struct store_mark *mark, char out[6 * LEDGER_CHECKPOINTS + 1]);

/* How many bytes the field that begins at this byte has; 0 where none begins. */
size_t store_width(size_t at);

/* The number that a field holds. */
uint32_t store_value(const uint8_t *image, size_t at, size_t width);

#pragma GCC visibility pop

#endif
