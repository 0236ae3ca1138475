/* The extension's beginning, and what its files share. */
#include "extension.h"

PG_MODULE_MAGIC;

void _PG_init(void);

void _PG_init(void) {
    if (ledger_version() >> 16 != LEDGER_VERSION >> 16)
        ereport(ERROR, (errcode(ERRCODE_EXTERNAL_ROUTINE_EXCEPTION),
                        errmsg("the library is of another version than its header")));
    store_learn();
}

struct store_bytes bytes_of(Datum datum) {
    bytea *bytes = DatumGetByteaPP(datum);
    struct store_bytes given = {(const uint8_t *)VARDATA_ANY(bytes), VARSIZE_ANY_EXHDR(bytes)};
    return given;
}

void refuse(unsigned refusal) {
    struct store_bytes none = {NULL, 0};
    refuse_image(refusal, none);
}

void refuse_image(unsigned refusal, struct store_bytes image) {
    char sentence[STORE_SENTENCE];
    if (refusal == 0) return;
    store_sentence_of(refusal, image, sentence);
    ereport(ERROR, (errcode(ERRCODE_DATA_EXCEPTION), errmsg("%s", sentence), errdetail_internal("%u", refusal)));
}

bool not_live(unsigned refusal, struct store_bytes image) {
    if (refusal == LEDGER_UNOPENED || refusal == LEDGER_GONE) return true;
    refuse_image(refusal, image);
    return false;
}

bytea *room(size_t length) {
    bytea *bytes = palloc(VARHDRSZ + length);
    SET_VARSIZE(bytes, VARHDRSZ + length);
    return bytes;
}

uint8_t *within(bytea *bytes) { return (uint8_t *)VARDATA(bytes); }

bytea *piece(const uint8_t *at, size_t length) {
    bytea *bytes = room(length);
    memcpy(within(bytes), at, length);
    return bytes;
}

text *line_text(const uint8_t *at, size_t length) {
    if (length > 0 && at[length - 1] == '\n') length--;
    return cstring_to_text_with_len((const char *)at, (int)length);
}

Datum one_row(FunctionCallInfo info, Datum *values, bool *nulls) {
    TupleDesc shape;
    if (get_call_result_type(info, NULL, &shape) != TYPEFUNC_COMPOSITE) elog(ERROR, "the function gives no row");
    return HeapTupleGetDatum(heap_form_tuple(BlessTupleDesc(shape), values, nulls));
}
