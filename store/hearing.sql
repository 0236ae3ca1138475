-- A hearing in one file of SQLite. Load the extension first, then read this file into an empty database:
--
--     sqlite3 hearing.db -cmd '.load target/store/take_ledger' '.read store/hearing.sql'
--     INSERT INTO hearing(title, house) VALUES ('Inquiry, day 1', 'clerk');
--     INSERT INTO step(step, who) VALUES (ledger_pack('root text 7'), 'clerk');
--
-- The log is the truth: the rows of step, take and words are appended and never changed, each with the SHA-256 of the row
-- before it and of its own content. The image is a snapshot beside it. No rule stands here: what a step does and for which
-- take it acts is asked of the ledger. What stands here is who may act: the house opens takes, writes letters, loses
-- parcels; the owner of a take acts for it; a volume is signed by the house or by whoever owns all that it names.
PRAGMA encoding = 'UTF-8';
PRAGMA journal_mode = WAL;
PRAGMA synchronous = FULL;
BEGIN;

-- One row: the hearing. The limits are those of the session; a snapshot is kept every so many steps.
CREATE TABLE hearing(
  id INTEGER PRIMARY KEY CHECK (id = 1) DEFAULT 1,
  title TEXT NOT NULL,
  house TEXT NOT NULL,
  takes INTEGER NOT NULL DEFAULT 16,
  parcels INTEGER NOT NULL DEFAULT 32,
  signings INTEGER NOT NULL DEFAULT 15,
  every INTEGER NOT NULL DEFAULT 64 CHECK (every BETWEEN 1 AND 1024),
  at TEXT,
  sum BLOB
) STRICT;

-- The steps. Give step and who; and, to be able to ask again after a lost answer, a number of your own in call.
CREATE TABLE step(
  number INTEGER PRIMARY KEY,
  step BLOB NOT NULL CHECK (length(step) = 8),
  who TEXT NOT NULL,
  call INTEGER,
  reply BLOB,
  opened INTEGER, -- the take that this step opened
  at TEXT,
  entry INTEGER,
  sum BLOB
) STRICT;
CREATE INDEX step_call ON step(who, call) WHERE call IS NOT NULL;
CREATE INDEX step_opened ON step(opened) WHERE opened IS NOT NULL;

-- Names and owners of takes: the last row of a take holds. Give take, who, and name or owner or both.
CREATE TABLE take(
  id INTEGER PRIMARY KEY,
  take INTEGER NOT NULL,
  name TEXT,
  owner TEXT,
  who TEXT NOT NULL,
  at TEXT,
  entry INTEGER,
  sum BLOB
) STRICT;
CREATE INDEX take_entry ON take(take, entry);

-- The words that a text's number stands for, said once, and who spoke them. Give text, words, who; and the speaker.
CREATE TABLE words(
  id INTEGER PRIMARY KEY,
  text INTEGER NOT NULL CHECK (text BETWEEN 0 AND 4294967295),
  speaker TEXT,
  words TEXT NOT NULL,
  who TEXT NOT NULL,
  at TEXT,
  entry INTEGER,
  sum BLOB
) STRICT;
CREATE INDEX words_text ON words(text);

-- The image after the first `at` steps.
CREATE TABLE snapshot(
  id INTEGER PRIMARY KEY CHECK (id = 1),
  at INTEGER NOT NULL,
  image BLOB NOT NULL
) STRICT;

-- ---- the chain of sums

-- Every row of the log as a line. Its sum is the SHA-256 of the sum before it in hexadecimal, a blank, and the line.
CREATE VIEW entry(entry, kind, id, at, who, line, sum) AS
  SELECT 0, 'hearing', id, at, house, 'hearing ' || takes || ' ' || parcels || ' ' || signings || ' ' || at || ' ' ||
    ledger_hex(house) || ' ' || ledger_hex(title), sum FROM hearing
  UNION ALL
  SELECT entry, 'step', number, at, who, 'step ' || number || ' ' || ledger_hex(step) || ' ' || ledger_hex(reply) || ' ' ||
    at || ' ' || ledger_hex(who) || ' ' || coalesce(call, '-'), sum FROM step
  UNION ALL
  SELECT entry, 'take', id, at, who, 'take ' || take || ' ' || coalesce(ledger_hex(name), '-') || ' ' ||
    ledger_hex(owner) || ' ' || at || ' ' || ledger_hex(who), sum FROM take
  UNION ALL
  SELECT entry, 'words', id, at, who, 'words ' || text || ' ' || coalesce(ledger_hex(speaker), '-') || ' ' ||
    ledger_hex(words) || ' ' || at || ' ' || ledger_hex(who), sum FROM words;

-- The last row of the log; a row that is being written has no sum yet.
CREATE VIEW last(entry, sum) AS
  SELECT entry, sum FROM (
    SELECT * FROM (SELECT entry, sum FROM step WHERE sum IS NOT NULL ORDER BY number DESC LIMIT 1)
    UNION ALL SELECT * FROM (SELECT entry, sum FROM take WHERE sum IS NOT NULL ORDER BY id DESC LIMIT 1)
    UNION ALL SELECT * FROM (SELECT entry, sum FROM words WHERE sum IS NOT NULL ORDER BY id DESC LIMIT 1)
    UNION ALL SELECT 0, sum FROM hearing
  ) ORDER BY entry DESC LIMIT 1;

-- ---- where the hearing stands

CREATE VIEW played(steps) AS
  SELECT coalesce((SELECT number FROM step WHERE sum IS NOT NULL ORDER BY number DESC LIMIT 1), 0);

-- The image after the last step: the snapshot, and the steps since.
CREATE VIEW now(steps, image) AS
  SELECT played.steps, ledger_run(snapshot.image,
    (SELECT ledger_list(number, step) FROM step WHERE number > snapshot.at AND number <= played.steps))
  FROM snapshot, played;

CREATE VIEW holder(take, name, owner) AS
  SELECT take, name, owner FROM take t
  WHERE sum IS NOT NULL AND entry = (SELECT max(entry) FROM take u WHERE u.take = t.take);

-- ---- what is written

CREATE TRIGGER hearing_one BEFORE INSERT ON hearing BEGIN
  SELECT RAISE(ABORT, 'this file has a hearing already') WHERE EXISTS (SELECT 1 FROM hearing);
  SELECT RAISE(ABORT, 'time and sum are made here') WHERE coalesce(new.at, new.sum) IS NOT NULL;
END;
CREATE TRIGGER hearing_begun AFTER INSERT ON hearing BEGIN
  INSERT INTO snapshot VALUES (1, 0, ledger_begin(new.takes, new.parcels, new.signings));
  UPDATE hearing SET at = strftime('%Y-%m-%dT%H:%M:%fZ', 'now');
  UPDATE hearing SET sum = ledger_sha256((SELECT line FROM entry WHERE kind = 'hearing'));
END;

-- May this person? A call that was played already is not played again; if it was another step, that is a fault.
CREATE TRIGGER step_may BEFORE INSERT ON step BEGIN
  SELECT RAISE(ABORT, 'reply, time and sum are made here')
    WHERE coalesce(new.reply, new.opened, new.at, new.entry, new.sum) IS NOT NULL;
  SELECT RAISE(ABORT, 'the log is kept') WHERE EXISTS (SELECT 1 FROM step WHERE number = new.number); -- OR REPLACE
  SELECT CASE WHEN step = new.step THEN RAISE(IGNORE) ELSE RAISE(ABORT, 'this call was another step') END
    FROM step WHERE who = new.who AND call = new.call;
  SELECT RAISE(ABORT, 'there is no hearing in this file') WHERE NOT EXISTS (SELECT 1 FROM hearing);
  SELECT RAISE(ABORT, 'takes no part in this hearing')
    WHERE new.who NOT IN (SELECT house FROM hearing UNION ALL SELECT owner FROM holder);
  SELECT CASE
      WHEN acts = 'house' AND new.who <> house THEN RAISE(ABORT, 'this step is the house''s')
      WHEN (acts = 'take' OR acts = 'volume' AND new.who <> house)
        AND acting.takes & ~(SELECT coalesce(sum(1 << take), 0) FROM holder WHERE owner = new.who) <> 0
        THEN RAISE(ABORT, 'this step is not yours')
    END FROM hearing, now, ledger_acting(now.image, new.step) acting;
END;
-- Plays it, and keeps the reply. Whoever opens a take owns it, until the house gives it to somebody.
CREATE TRIGGER step_played AFTER INSERT ON step BEGIN
  SELECT RAISE(ABORT, 'steps are numbered one after the other') FROM played WHERE new.number <> steps + 1;
  UPDATE step SET (reply, opened) = (SELECT p.packed_reply, p.opened FROM now, ledger_play(now.image, new.step) p),
    at = strftime('%Y-%m-%dT%H:%M:%fZ', 'now'), entry = (SELECT entry + 1 FROM last) WHERE number = new.number;
  UPDATE step SET sum = ledger_sha256((SELECT ledger_hex(sum) FROM last) || ' ' ||
    (SELECT line FROM entry WHERE kind = 'step' AND id = new.number)) WHERE number = new.number;
  SELECT RAISE(ABORT, 'no reply to this step: ask hearing_check') FROM step WHERE number = new.number AND sum IS NULL;
  INSERT INTO take(take, owner, who) SELECT opened, who, who FROM step WHERE number = new.number AND opened IS NOT NULL;
  UPDATE snapshot SET (at, image) = (SELECT steps, image FROM now)
    WHERE new.number - at >= (SELECT every FROM hearing);
END;

-- The house names takes and gives them to people; an owner names her own.
CREATE TRIGGER take_may BEFORE INSERT ON take BEGIN
  SELECT RAISE(ABORT, 'time and sum are made here') WHERE coalesce(new.at, new.entry, new.sum) IS NOT NULL;
  SELECT RAISE(ABORT, 'the log is kept') WHERE EXISTS (SELECT 1 FROM take WHERE id = new.id); -- OR REPLACE
  SELECT RAISE(ABORT, 'no such take was opened') WHERE new.take NOT IN (SELECT opened FROM step WHERE opened IS NOT NULL);
  SELECT RAISE(ABORT, 'the house gives takes to people, and an owner names her own') FROM hearing, holder
    WHERE holder.take = new.take AND new.who <> house
      AND (new.who <> holder.owner OR coalesce(new.owner, new.who) <> new.who);
END;
CREATE TRIGGER take_kept AFTER INSERT ON take BEGIN
  SELECT RAISE(ABORT, 'the log is kept') WHERE new.id <= (SELECT max(id) FROM take WHERE sum IS NOT NULL);
  UPDATE take SET name = coalesce(new.name, (SELECT name FROM holder WHERE take = new.take)),
    owner = coalesce(new.owner, (SELECT owner FROM holder WHERE take = new.take)),
    at = strftime('%Y-%m-%dT%H:%M:%fZ', 'now'), entry = (SELECT entry + 1 FROM last) WHERE id = new.id;
  UPDATE take SET sum = ledger_sha256((SELECT ledger_hex(sum) FROM last) || ' ' ||
    (SELECT line FROM entry WHERE kind = 'take' AND id = new.id)) WHERE id = new.id;
END;

CREATE TRIGGER words_may BEFORE INSERT ON words BEGIN
  SELECT RAISE(ABORT, 'time and sum are made here') WHERE coalesce(new.at, new.entry, new.sum) IS NOT NULL;
  SELECT RAISE(ABORT, 'the log is kept') WHERE EXISTS (SELECT 1 FROM words WHERE id = new.id); -- OR REPLACE
  SELECT RAISE(ABORT, 'takes no part in this hearing')
    WHERE new.who NOT IN (SELECT house FROM hearing UNION ALL SELECT owner FROM holder);
  SELECT RAISE(ABORT, 'this text has its words') WHERE EXISTS (SELECT 1 FROM words WHERE text = new.text);
END;
CREATE TRIGGER words_kept AFTER INSERT ON words BEGIN
  SELECT RAISE(ABORT, 'the log is kept') WHERE new.id <= (SELECT max(id) FROM words WHERE sum IS NOT NULL);
  UPDATE words SET at = strftime('%Y-%m-%dT%H:%M:%fZ', 'now'), entry = (SELECT entry + 1 FROM last) WHERE id = new.id;
  UPDATE words SET sum = ledger_sha256((SELECT ledger_hex(sum) FROM last) || ' ' ||
    (SELECT line FROM entry WHERE kind = 'words' AND id = new.id)) WHERE id = new.id;
END;

-- ---- what is kept: a row with its sum never changes, and a snapshot is what the log gives

CREATE TRIGGER hearing_update BEFORE UPDATE ON hearing WHEN old.sum IS NOT NULL
  BEGIN SELECT RAISE(ABORT, 'the log is kept'); END;
CREATE TRIGGER step_update BEFORE UPDATE ON step WHEN old.sum IS NOT NULL
  BEGIN SELECT RAISE(ABORT, 'the log is kept'); END;
CREATE TRIGGER take_update BEFORE UPDATE ON take WHEN old.sum IS NOT NULL
  BEGIN SELECT RAISE(ABORT, 'the log is kept'); END;
CREATE TRIGGER words_update BEFORE UPDATE ON words WHEN old.sum IS NOT NULL
  BEGIN SELECT RAISE(ABORT, 'the log is kept'); END;
CREATE TRIGGER snapshot_update BEFORE UPDATE ON snapshot BEGIN
  SELECT RAISE(ABORT, 'the image is what the log gives') FROM now
    WHERE new.id <> 1 OR new.at <> now.steps OR new.image <> now.image;
END;
CREATE TRIGGER hearing_delete BEFORE DELETE ON hearing BEGIN SELECT RAISE(ABORT, 'the log is kept'); END;
CREATE TRIGGER step_delete BEFORE DELETE ON step BEGIN SELECT RAISE(ABORT, 'the log is kept'); END;
CREATE TRIGGER take_delete BEFORE DELETE ON take BEGIN SELECT RAISE(ABORT, 'the log is kept'); END;
CREATE TRIGGER words_delete BEFORE DELETE ON words BEGIN SELECT RAISE(ABORT, 'the log is kept'); END;
CREATE TRIGGER snapshot_delete BEFORE DELETE ON snapshot BEGIN SELECT RAISE(ABORT, 'the log is kept'); END;
CREATE TRIGGER snapshot_insert BEFORE INSERT ON snapshot WHEN EXISTS (SELECT 1 FROM snapshot)
  BEGIN SELECT RAISE(ABORT, 'there is a snapshot already'); END;

-- ---- what people ask

-- The log in words.
CREATE VIEW log(number, step, reply, who, at, call) AS
  SELECT number, rtrim(ledger_text(step), char(10)), rtrim(ledger_reply_text(step, reply), char(10)), who, at, call FROM step;

-- The takes with their names, owners and words.
CREATE VIEW takes(take, name, owner, status, text, words, saved, saved_words, frozen, life, signings, offer) AS
  SELECT t.take, h.name, h.owner, t.status, t.text, w.words, t.saved, s.words, t.frozen, t.life, t.signings, t.offer
  FROM now, ledger_takes(now.image) t LEFT JOIN holder h ON h.take = t.take
    LEFT JOIN words w ON w.text = t.text LEFT JOIN words s ON s.text = t.saved;

-- What rests on what: take rests on ground, directly or through others.
CREATE VIEW rests(take, name, ground, ground_name, direct) AS
  SELECT t.take, h.name, g.take, hg.name, d.resting >> t.take & 1
  FROM now, ledger_takes(now.image) g, ledger_takes(now.image) t, ledger_dependents(now.image, g.take) d
    LEFT JOIN holder h ON h.take = t.take LEFT JOIN holder hg ON hg.take = g.take
  WHERE t.take <> g.take AND d.through >> t.take & 1;

-- What can be signed: the smallest volume with each take, as its bits and as names.
CREATE VIEW can_sign(take, name, volume, names) AS
  SELECT t.take, h.name, v.volume,
    (SELECT group_concat(named, ', ') FROM (
      SELECT coalesce(m.name, m.take) AS named FROM holder m WHERE v.volume >> m.take & 1 ORDER BY m.take))
  FROM (SELECT take, ledger_smallest(now.image, take) AS volume FROM now, ledger_takes(now.image)) v
    JOIN ledger_takes((SELECT image FROM now)) t ON t.take = v.take LEFT JOIN holder h ON h.take = t.take
  WHERE v.volume IS NOT NULL;

-- What is in the way of signing a take.
CREATE VIEW in_the_way(take, name, reason, in_the_way, in_the_way_name, ground, next) AS
  SELECT t.take, h.name, i.reason, i.in_the_way, w.name, CASE WHEN i.reason = 'hopeless' THEN i.ground END, i.next
  FROM now, ledger_takes(now.image) t, ledger_impediment(now.image, t.take) i
    LEFT JOIN holder h ON h.take = t.take LEFT JOIN holder w ON w.take = i.in_the_way
  WHERE i.kind <> 0;

-- What is left to do so that a take can be signed, in order.
CREATE VIEW left_to_do(take, name, place, step) AS
  SELECT t.take, h.name, p.place, p.step
  FROM now, ledger_takes(now.image) t, ledger_plan(now.image, t.take) p LEFT JOIN holder h ON h.take = t.take;

-- Parcels under way.
CREATE VIEW under_way(parcel, take, name, text, words) AS
  SELECT p.parcel, p.take, h.name, p.text, w.words
  FROM now, ledger_parcels(now.image) p LEFT JOIN holder h ON h.take = p.take LEFT JOIN words w ON w.text = p.text;

-- Pages by speaker: each take whose text has words, and whether these are the signed ones.
CREATE VIEW pages(speaker, take, name, text, words, signed) AS
  SELECT w.speaker, t.take, h.name, t.text, w.words, t.signings > 0 AND t.saved = t.text
  FROM now, ledger_takes(now.image) t JOIN words w ON w.text = t.text LEFT JOIN holder h ON h.take = t.take
  ORDER BY w.speaker, t.take;

-- ---- the check: the whole log played again

-- Nothing, where the numbers have a gap.
CREATE VIEW replayed(number, reply, opened, acts, takes) AS
  SELECT p.place + 1, p.packed_reply, p.opened, p.acts, p.takes
  FROM hearing h, ledger_play(ledger_begin(h.takes, h.parcels, h.signings),
    CASE WHEN (SELECT count(*) = max(number) FROM step) THEN (SELECT ledger_list(number, step) FROM step) END) p;

-- A row for each fault. A hearing that is not there, an image, reply, sum or number that differs, and a step, a name, an owner or
-- words by somebody who might not, is one. The number is a step's, or else that of the row in the view entry.
CREATE VIEW hearing_fault(what, number) AS
  SELECT 'hearing', 0 WHERE (SELECT count(*) FROM hearing) <> 1
  UNION ALL
  SELECT 'number', number FROM (SELECT number, row_number() OVER (ORDER BY number) AS place,
    row_number() OVER (ORDER BY entry) AS place_in_log FROM step) WHERE number <> place OR number <> place_in_log
  UNION ALL
  SELECT 'number', entry FROM (SELECT entry, row_number() OVER (ORDER BY id) AS place,
    row_number() OVER (ORDER BY entry) AS place_in_log FROM take) WHERE place <> place_in_log
  UNION ALL
  SELECT 'number', entry FROM (SELECT entry, row_number() OVER (ORDER BY id) AS place,
    row_number() OVER (ORDER BY entry) AS place_in_log FROM words) WHERE place <> place_in_log
  UNION ALL
  SELECT 'call', number FROM step s WHERE call IS NOT NULL
    AND EXISTS (SELECT 1 FROM step p WHERE p.who = s.who AND p.call = s.call AND p.number < s.number)
  UNION ALL
  SELECT 'reply', s.number FROM step s JOIN replayed r USING (number) WHERE s.reply IS NOT r.reply OR s.opened IS NOT r.opened
  UNION ALL
  SELECT 'rights', number FROM (
    SELECT s.number, s.who = h.house AS by_house, r.acts, r.takes, (
      SELECT coalesce(sum(1 << t.take), 0) FROM take t WHERE t.owner = s.who AND t.entry =
        (SELECT max(u.entry) FROM take u WHERE u.take = t.take AND u.entry < s.entry)) AS owned
    FROM step s JOIN replayed r USING (number), hearing h)
  WHERE NOT CASE
      WHEN by_house AND acts <> 'take' THEN 1
      WHEN acts = 'house' THEN 0
      ELSE owned <> 0 AND takes & ~owned = 0
    END
  UNION ALL
  SELECT 'words', w.entry FROM words w, hearing h
  WHERE EXISTS (SELECT 1 FROM words v WHERE v.text = w.text AND v.entry < w.entry) OR w.who <> h.house AND NOT EXISTS (
    SELECT 1 FROM take t WHERE t.owner = w.who AND t.entry =
      (SELECT max(u.entry) FROM take u WHERE u.take = t.take AND u.entry < w.entry))
  UNION ALL
  SELECT 'owner', t.entry FROM take t, hearing h
  WHERE NOT EXISTS (SELECT 1 FROM step s WHERE s.opened = t.take AND s.entry < t.entry)
    OR t.who <> h.house AND NOT (t.owner = t.who AND (
      t.who IS (SELECT u.owner FROM take u WHERE u.take = t.take AND u.entry < t.entry ORDER BY u.entry DESC LIMIT 1)
      OR EXISTS (SELECT 1 FROM step s WHERE s.opened = t.take AND s.entry = t.entry - 1 AND s.who = t.who)))
  UNION ALL
  SELECT 'owner', s.entry FROM step s WHERE s.opened IS NOT NULL AND NOT EXISTS (
    SELECT 1 FROM take t WHERE t.entry = s.entry + 1 AND t.take = s.opened AND t.owner = s.who AND t.who = s.who)
  UNION ALL
  SELECT 'sum', entry FROM (
    SELECT entry, sum, row_number() OVER (ORDER BY entry) - 1 AS place,
      ledger_sha256(coalesce(ledger_hex(lag(sum) OVER (ORDER BY entry)) || ' ', '') || line) AS right FROM entry)
  WHERE entry IS NOT place OR sum IS NOT right
  UNION ALL
  SELECT 'image', 0 FROM hearing WHERE NOT EXISTS (SELECT 1 FROM snapshot)
  UNION ALL
  SELECT 'image', s.at FROM snapshot s, hearing h
  WHERE s.at > (SELECT steps FROM played) OR (SELECT count(*) = s.at FROM step WHERE number <= s.at)
    AND s.image <> ledger_run(ledger_begin(h.takes, h.parcels, h.signings),
      (SELECT ledger_list(number, step) FROM step WHERE number <= s.at));

-- One row: whether all holds, the first fault, and the last sum, which stands on the printed record. It is that of the highest
-- entry, whatever number the row has in its own table. This view stands in the file that it checks, and whoever changes the log can
-- change it too: for a file from elsewhere ask take-ledger check, which brings its own.
CREATE VIEW hearing_check(holds, steps, entries, fault, fault_at, sum) AS
  SELECT first.what IS NULL, played.steps, last.entry, first.what, first.number, ledger_hex(last.sum)
  FROM played, (SELECT entry, sum FROM entry ORDER BY entry DESC LIMIT 1) last LEFT JOIN
    (SELECT what, number FROM hearing_fault LIMIT 1) first ON true;

COMMIT;
