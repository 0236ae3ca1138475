\echo Use "CREATE EXTENSION take_ledger" to load this file. \quit
-- Images (42,616 bytes), lists of steps and lists of replies (8 bytes each) are bytea, a volume is its bits. A refused call is
-- an ERROR, 22000, `refused N: ..` with the library's words and the number alone as DETAIL. A refused step (20 to 31) is no
-- refused call: its number is in its reply. NULL gives NULL. Queries over takes give NULL for a take that is not opened or has
-- vanished. Every function but the last two is a function of its arguments alone.

CREATE FUNCTION ledger_version() RETURNS text
  AS 'MODULE_PATHNAME', 'tl_version' LANGUAGE C IMMUTABLE STRICT PARALLEL SAFE;
CREATE FUNCTION ledger_begin(takes bigint DEFAULT 16, parcels bigint DEFAULT 32, signings bigint DEFAULT 15) RETURNS bytea
  AS 'MODULE_PATHNAME', 'tl_begin' LANGUAGE C IMMUTABLE STRICT PARALLEL SAFE;
CREATE FUNCTION ledger_run(image bytea, steps bytea) RETURNS bytea
  AS 'MODULE_PATHNAME', 'tl_run' LANGUAGE C IMMUTABLE STRICT PARALLEL SAFE;
CREATE FUNCTION ledger_replies(image bytea, steps bytea) RETURNS bytea
  AS 'MODULE_PATHNAME', 'tl_replies' LANGUAGE C IMMUTABLE STRICT PARALLEL SAFE;
CREATE FUNCTION ledger_thin(image bytea, steps bytea) RETURNS bytea
  AS 'MODULE_PATHNAME', 'tl_thin' LANGUAGE C IMMUTABLE STRICT PARALLEL SAFE;
CREATE FUNCTION ledger_forward(image bytea) RETURNS bytea
  AS 'MODULE_PATHNAME', 'tl_forward' LANGUAGE C IMMUTABLE STRICT PARALLEL SAFE;
CREATE FUNCTION ledger_back(image bytea) RETURNS bytea
  AS 'MODULE_PATHNAME', 'tl_back' LANGUAGE C IMMUTABLE STRICT PARALLEL SAFE;

CREATE FUNCTION ledger_pack(steps text) RETURNS bytea
  AS 'MODULE_PATHNAME', 'tl_pack' LANGUAGE C IMMUTABLE STRICT PARALLEL SAFE;
CREATE FUNCTION ledger_text(steps bytea) RETURNS text
  AS 'MODULE_PATHNAME', 'tl_text' LANGUAGE C IMMUTABLE STRICT PARALLEL SAFE;
CREATE FUNCTION ledger_reply_text(steps bytea, replies bytea) RETURNS text
  AS 'MODULE_PATHNAME', 'tl_reply_text' LANGUAGE C IMMUTABLE STRICT PARALLEL SAFE;
CREATE FUNCTION ledger_image_text(image bytea) RETURNS text
  AS 'MODULE_PATHNAME', 'tl_image_text' LANGUAGE C IMMUTABLE STRICT PARALLEL SAFE;
CREATE FUNCTION ledger_refusal_text(refusal bigint) RETURNS text
  AS 'MODULE_PATHNAME', 'tl_refusal_text' LANGUAGE C IMMUTABLE STRICT PARALLEL SAFE;

-- The take that a step acts for; NULL where it is not one take's. ledger_acting says whose it is: nobody, house, take, volume.
CREATE FUNCTION ledger_actor(image bytea, step bytea) RETURNS integer
  AS 'MODULE_PATHNAME', 'tl_actor' LANGUAGE C IMMUTABLE STRICT PARALLEL SAFE;
CREATE FUNCTION ledger_acting(image bytea, step bytea, OUT acts text, OUT takes integer)
  AS 'MODULE_PATHNAME', 'tl_acting' LANGUAGE C IMMUTABLE STRICT PARALLEL SAFE;
CREATE FUNCTION ledger_independent(image bytea, first bytea, second bytea) RETURNS boolean
  AS 'MODULE_PATHNAME', 'tl_independent' LANGUAGE C IMMUTABLE STRICT PARALLEL SAFE;

CREATE FUNCTION ledger_offer(image bytea, take bigint) RETURNS integer
  AS 'MODULE_PATHNAME', 'tl_offer' LANGUAGE C IMMUTABLE STRICT PARALLEL SAFE;
CREATE FUNCTION ledger_smallest(image bytea, take bigint) RETURNS integer
  AS 'MODULE_PATHNAME', 'tl_smallest' LANGUAGE C IMMUTABLE STRICT PARALLEL SAFE;
CREATE FUNCTION ledger_all_heard_frozen(image bytea, take bigint) RETURNS boolean
  AS 'MODULE_PATHNAME', 'tl_all_heard_frozen' LANGUAGE C IMMUTABLE STRICT PARALLEL SAFE;
CREATE FUNCTION ledger_ready_count(image bytea, size bigint) RETURNS integer
  AS 'MODULE_PATHNAME', 'tl_ready_count' LANGUAGE C IMMUTABLE STRICT PARALLEL SAFE;
CREATE FUNCTION ledger_show(image bytea, parcel bigint) RETURNS bytea
  AS 'MODULE_PATHNAME', 'tl_show' LANGUAGE C IMMUTABLE STRICT PARALLEL SAFE;
-- Where an image fails the form first: 0, 16 or 19, and with 19 the byte, the clause of docs/RULES.md, section 8, and its words.
CREATE FUNCTION ledger_fault(image bytea, OUT refusal integer, OUT at integer, OUT clause integer, OUT reason text)
  AS 'MODULE_PATHNAME', 'tl_fault' LANGUAGE C IMMUTABLE STRICT PARALLEL SAFE;
CREATE FUNCTION ledger_dependents(image bytea, take bigint, OUT resting integer, OUT through integer, OUT unfinished integer,
                                  OUT carried integer)
  AS 'MODULE_PATHNAME', 'tl_dependents' LANGUAGE C IMMUTABLE STRICT PARALLEL SAFE;
CREATE FUNCTION ledger_obstacle(image bytea, volume bigint, OUT kind integer, OUT take integer, OUT ground integer,
                                OUT reason text)
  AS 'MODULE_PATHNAME', 'tl_obstacle' LANGUAGE C IMMUTABLE STRICT PARALLEL SAFE;
CREATE FUNCTION ledger_impediment(image bytea, take bigint, OUT kind integer, OUT in_the_way integer, OUT ground integer,
                                  OUT next integer, OUT reason text)
  AS 'MODULE_PATHNAME', 'tl_impediment' LANGUAGE C IMMUTABLE STRICT PARALLEL SAFE;
CREATE FUNCTION ledger_worst_window(replies bytea, width bigint, OUT count integer, OUT place integer)
  AS 'MODULE_PATHNAME', 'tl_worst_window' LANGUAGE C IMMUTABLE STRICT PARALLEL SAFE;

-- A row for each step, take, waiting parcel, mark, step of a plan, field that differs. Call them in FROM.
CREATE FUNCTION ledger_play(image bytea, steps bytea, OUT place integer, OUT step text, OUT outcome integer, OUT take integer,
                            OUT parcel integer, OUT text bigint, OUT reply text, OUT acts text, OUT takes integer,
                            OUT opened integer, OUT packed bytea, OUT packed_reply bytea) RETURNS SETOF record
  AS 'MODULE_PATHNAME', 'tl_play' LANGUAGE C IMMUTABLE STRICT PARALLEL SAFE ROWS 100;
CREATE FUNCTION ledger_takes(image bytea, OUT take integer, OUT status text, OUT text bigint, OUT saved bigint,
                             OUT frozen boolean, OUT life integer, OUT signings integer, OUT signed text, OUT offer integer)
  RETURNS SETOF record AS 'MODULE_PATHNAME', 'tl_takes' LANGUAGE C IMMUTABLE STRICT PARALLEL SAFE ROWS 16;
CREATE FUNCTION ledger_parcels(image bytea, OUT parcel integer, OUT take integer, OUT text bigint) RETURNS SETOF record
  AS 'MODULE_PATHNAME', 'tl_parcels' LANGUAGE C IMMUTABLE STRICT PARALLEL SAFE ROWS 16;
CREATE FUNCTION ledger_marks(image bytea, OUT map text, OUT holder integer, OUT take integer, OUT frozen boolean,
                             OUT life integer, OUT signed text) RETURNS SETOF record
  AS 'MODULE_PATHNAME', 'tl_marks' LANGUAGE C IMMUTABLE STRICT PARALLEL SAFE ROWS 100;
CREATE FUNCTION ledger_plan(image bytea, take bigint, OUT place integer, OUT step text, OUT packed bytea) RETURNS SETOF record
  AS 'MODULE_PATHNAME', 'tl_plan' LANGUAGE C IMMUTABLE STRICT PARALLEL SAFE ROWS 8;
CREATE FUNCTION ledger_diff(first bytea, second bytea, OUT field text, OUT take integer, OUT parcel_place integer, OUT map text,
                            OUT of_take integer, OUT entry integer, OUT before bigint, OUT after bigint, OUT at integer)
  RETURNS SETOF record AS 'MODULE_PATHNAME', 'tl_diff' LANGUAGE C IMMUTABLE STRICT PARALLEL SAFE ROWS 100;

-- An ERROR inside BEGIN .. COMMIT.
CREATE FUNCTION ledger_alone() RETURNS void AS 'MODULE_PATHNAME', 'tl_alone' LANGUAGE C VOLATILE PARALLEL UNSAFE;
-- Waits until what this session committed is on disk and on the synchronous standbys; 08007 where that is not known.
CREATE FUNCTION ledger_sure() RETURNS void
  AS 'MODULE_PATHNAME', 'tl_sure' LANGUAGE C VOLATILE PARALLEL UNSAFE SET synchronous_commit = on;
