/* Steps, replies and images as text, and back. The grammar and the words are the library's (docs/NOTATION.md). */
#include "extension.h"

#include "lib/stringinfo.h"

enum { SHORTEST = 6 }; /* characters of the shortest step, as `read 0` */

FUNCTION(tl_pack) {
    struct store_bytes given = BYTES(0);
    size_t most = LEDGER_STEP * (given.length / SHORTEST + 1), line, column;
    uint8_t expected;
    char sentence[STORE_SENTENCE];
    if (most > MaxAllocSize - VARHDRSZ)
        ereport(ERROR, (errcode(ERRCODE_PROGRAM_LIMIT_EXCEEDED), errmsg("the text is too long")));
    bytea *list = room(most);
    size_t steps = notation_parse(given.at, given.length, within(list), most, &line, &column, &expected);
    if (expected != NOTATION_NOTHING) {
        store_fault(line, column, expected, sentence);
        ereport(ERROR, (errcode(ERRCODE_DATA_EXCEPTION), errmsg("%s", sentence)));
    }
    SET_VARSIZE(list, VARHDRSZ + LEDGER_STEP * steps);
    PG_RETURN_BYTEA_P(list);
}

static text *gathered(StringInfo all) { return cstring_to_text_with_len(all->data, all->len); }

FUNCTION(tl_text) {
    struct store_bytes list = BYTES(0);
    StringInfoData all;
    uint8_t line[NOTATION_LINE];
    refuse(notation_length(list.at, list.length % LEDGER_STEP).refusal);
    initStringInfo(&all);
    for (size_t i = 0; i < list.length / LEDGER_STEP; i++)
        appendBinaryStringInfo(&all, (char *)line, (int)notation_step(list.at, list.length, i, line, sizeof line).length);
    PG_RETURN_TEXT_P(gathered(&all));
}

FUNCTION(tl_reply_text) {
    struct store_bytes list = BYTES(0), replies = BYTES(1);
    StringInfoData all;
    uint8_t line[NOTATION_LINE];
    refuse(notation_length(list.at, list.length % LEDGER_STEP).refusal);
    if (list.length != replies.length) refuse(LEDGER_WRONG_ROOM);
    initStringInfo(&all);
    for (size_t i = 0; i < list.length / LEDGER_STEP; i++) {
        struct notation_given given =
            notation_reply(list.at, list.length, replies.at, replies.length, i, line, sizeof line);
        appendBinaryStringInfo(&all, (char *)line, (int)given.length);
        appendStringInfoChar(&all, '\n');
    }
    PG_RETURN_TEXT_P(gathered(&all));
}

FUNCTION(tl_image_text) {
    struct store_bytes image = BYTES(0);
    StringInfoData all;
    uint8_t line[NOTATION_LINE];
    refuse_image(store_form(image), image);
    initStringInfo(&all);
    for (size_t i = 0; i < NOTATION_LINES; i++) {
        struct notation_given given = notation_image(image.at, image.length, i, line, sizeof line);
        appendBinaryStringInfo(&all, (char *)line, (int)given.length);
        CHECK_FOR_INTERRUPTS();
    }
    PG_RETURN_TEXT_P(gathered(&all));
}

FUNCTION(tl_refusal_text) {
    uint8_t words[NOTATION_LINE];
    size_t number = NUMBER(0), length = 0;
    if (number < 256) length = notation_refusal_text((uint8_t)number, words, sizeof words).length;
    if (length == 0) PG_RETURN_NULL();
    PG_RETURN_TEXT_P(line_text(words, length));
}
