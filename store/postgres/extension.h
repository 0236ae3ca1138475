/* The take ledger inside PostgreSQL: what the files of this folder share. What the functions give stands in
 * take_ledger--1.0.sql and in docs/STORE.md. */
#ifndef EXTENSION_H
#define EXTENSION_H

#include "postgres.h"

#include "fmgr.h"
#include "funcapi.h"
#include "miscadmin.h"
#include "utils/builtins.h"

#include "store.h"

#define FUNCTION(name)         \
    PG_FUNCTION_INFO_V1(name); \
    Datum name(PG_FUNCTION_ARGS)

#pragma GCC visibility push(hidden) /* the server puts all libraries' symbols into one heap */

/* An argument that is a bytea or a text: its bytes, uncompressed, and not copied where they are in one piece already. */
#define BYTES(i) bytes_of(PG_GETARG_DATUM(i))
struct store_bytes bytes_of(Datum datum);

/* An argument that is a number; a negative one is past every limit, and refused so. */
#define NUMBER(i) ((size_t)PG_GETARG_INT64(i))

/* An ERROR, 22000, with the number and the library's sentence; nothing for 0. */
void refuse(unsigned refusal);

/* The same of a call that got this image: an ill-formed one is told with its byte and its clause. */
void refuse_image(unsigned refusal, struct store_bytes image);

/* The same, but for 21 and 22: whether the take is not opened or has vanished. Queries over takes give NULL then. */
bool not_live(unsigned refusal, struct store_bytes image);

/* A bytea of that many bytes, and where they begin. */
bytea *room(size_t length);
uint8_t *within(bytea *bytes);
bytea *piece(const uint8_t *at, size_t length);
text *line_text(const uint8_t *at, size_t length);

/* The row of a function that gives one. */
Datum one_row(FunctionCallInfo info, Datum *values, bool *nulls);

#pragma GCC visibility pop

#endif
