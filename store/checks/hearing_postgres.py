"""Hearings in PostgreSQL: rights, roles, what is kept, calls that are asked again, names that try to be SQL, views, faults put
in, a dump restored, another encoding, a file of SQLite moved in."""
import hashlib
import os
import subprocess
import sys
import tempfile
import threading
import time

import sql
from cluster import Cluster, Laptop, quoted, room

STRANGE = ["l1'; DROP TABLE hearings.step; --", 'l2"; DROP SCHEMA hearings CASCADE; --', "l3 $$ SELECT 1 $$", "l4%s%(x)s", "l5\\'\\\"",
           "l6;commit", "L7", "l7", "é8 ü", "clerk'--", "postgres ", "ledger_keeper--", "l13\n\t", "public ", "l15" + "x" * 58]
TABLES = ("hearing", "step", "take", "words")


def everything(root):
    return [root.rows(f"SELECT * FROM hearings.{table} ORDER BY 1, 2") for table in TABLES]


def check(db, hearing):
    return db.one("SELECT holds, fault FROM hearings.hearing_check(?)", hearing)


def small(done, people, root):
    """Two takes, two owners; every right, and what has none leaves no trace."""
    clerk, anna, ben = people["clerk"], people["anna"], people["ben"]
    h = clerk.one("SELECT hearings.open_hearing('a hearing')")[0]
    done.equal("roots", clerk.do(h, "root text 7\nroot text 8"), "done take 0\ndone take 1")
    clerk.rows("SELECT hearings.give(?, 0, 'anna', 'names'), hearings.give(?, 1, 'ben', 'page 1')", h, h)
    clerk.do(h, "letter to 0 text 5")
    before = everything(root)
    for who, text in [("ben", "receive 0"), ("clerk", "receive 0"), ("ben", "write 0 text 1"), ("clerk", "write 0 text 1"),
                      ("clerk", "write 9 text 1"), ("anna", "root text 1"), ("anna", "letter to 0 text 1"), ("anna", "lose 0"),
                      ("anna", "sign {0,1}"), ("anna", "sign {1}"), ("anna", "receive 0\nwrite 1 text 1"), ("anna", "receive 0\nroot text 1")]:
        done.wrong(f"{text} by {who}", "is not yours", lambda: people[who].do(h, text))
        done.equal(f"{text} by {who} leaves no trace", everything(root), before)
    for who in ("eve", "outsider"):
        done.wrong(f"{who} takes no part", "not your hearing", lambda: people[who].do(h, "raw f000000000000000"))
    for who, text, reply in [("anna", "receive 0", "done take 0 parcel 0 text 5"), ("ben", "receive 99", "refused 24"),
                             ("anna", "raw f000000000000000", "refused 20"), ("ben", "sign {}", "refused 29"),
                             ("anna", "write 0 text 9\nsend 0 to 1 text 9", "done take 0\ndone take 0 parcel 1"),
                             ("ben", "receive 1\nwrite 1 text 10", "done take 1 parcel 1 text 9\ndone take 1"),
                             ("ben", "new 1 text 4\nfail 2", "done take 2\nvanished take 2"), ("ben", "freeze 1", "done take 1"),
                             ("ben", "sign {1}", "not ready"), ("anna", "freeze 0", "done take 0"), ("clerk", "sign {0,1}", "done"),
                             ("anna", "fail 0", "fallen back take 0")]:
        got = people[who].do(h, text)
        done.holds(f"{text} by {who}: {got}", got.startswith(reply))
    done.equal("whoever opens a take owns it", root.one("SELECT owner FROM hearings.holder WHERE hearing = ? AND take = 2", h), ("ben",))
    done.equal("the check", check(clerk, h), (True, None))
    return h


def owners(done, people, root, h):
    clerk, anna, eve = people["clerk"], people["anna"], people["eve"]
    for who, take, owner in (("ben", 0, "ben"), ("anna", 0, "ben")):
        done.wrong(f"{who} gives take {take}", "the house gives takes", lambda: people[who].rows("SELECT hearings.give(?, ?, ?)", h, take, owner))
    done.wrong("eve gives a take", "not your hearing", lambda: eve.rows("SELECT hearings.give(?, 1, 'eve')", h))
    done.wrong("a take that is not there", "no such take", lambda: clerk.rows("SELECT hearings.give(?, 7, 'anna')", h))
    done.wrong("to nobody", "no such role", lambda: clerk.rows("SELECT hearings.give(?, 0, 'nobody of that name')", h))
    anna.rows("SELECT hearings.give(?, 0, NULL, 'list of names')", h)
    clerk.rows("SELECT hearings.give(?, 0, 'eve')", h)
    done.equal("given away", clerk.one("SELECT name, owner FROM hearings.holder WHERE hearing = ? AND take = 0", h), ("list of names", "eve"))
    done.wrong("no longer hers", "not your hearing", lambda: anna.do(h, "fail 0"))
    done.equal("nothing to read for her", anna.one("SELECT count(*) FROM hearings.step WHERE hearing = ?", h), (0,))
    done.equal("hers now", eve.do(h, "fail 0"), "fallen back take 0")
    rows = root.rows("SELECT owner, who FROM hearings.take WHERE hearing = ? AND take = 0 ORDER BY entry", h)
    done.equal("changes of owner stand in the log", rows, [("clerk", "clerk"), ("anna", "clerk"), ("anna", "anna"), ("eve", "clerk")])
    done.equal("owners as they were, checked", check(clerk, h), (True, None))


def calls(done, people, root, h):
    ben, eve = people["ben"], people["eve"]
    first = ben.play(h, "read 1\nread 1", call=100000)
    before = everything(root)
    done.equal("asked again: the same answer", ben.play(h, "read 1\nread 1", call=100000), first)
    rows = ben.rows("SELECT reply FROM hearings.log WHERE hearing = ? AND who = 'ben' AND call = 100000 ORDER BY number", h)
    done.equal("the answer again, from the log", "\n".join(r[0] for r in rows), first[1])
    done.equal("without waiting", ben.play(h, "read 1\nread 1", call=100000, sure=False), first)
    done.equal("and nothing is played", everything(root), before)
    done.wrong("other steps under that number", "other steps", lambda: ben.play(h, "read 1", call=100000))
    done.equal("numbers are each role's own", eve.play(h, "fail 0", call=100000)[0], first[0] + 2)
    for values in ((None, b"\0" * 8, 1), (h, None, 1), (h, b"\0" * 8, None)):
        done.wrong("NULL", "are needed", lambda: ben.rows("SELECT hearings.play(?, ?, ?)", *values))
    for steps in (b"", bytes(7), bytes(8200)):
        done.wrong(f"{len(steps)} bytes", "1 to 1,024 steps", lambda: ben.rows("SELECT hearings.play(?, ?, 700000)", h, steps))
    done.refused("a part of a step", 17, lambda: ben.rows("SELECT hearings.play(?, ?, 700000)", h, bytes(12)))


def settings(done, people, h):
    """What a client sets is not believed."""
    ben = people["ben"]
    ben.rows("SET synchronous_commit = off")
    text = "SELECT hearings.play(?, ?, ?), current_setting('synchronous_commit')"
    done.equal("synchronous_commit", ben.one(text, h, bytes([0x51]) + bytes(7), 200000)[1], "on")
    ben.rows("SET default_transaction_isolation = 'repeatable read'")
    done.wrong("another isolation", "only in read committed", lambda: ben.do(h, "read 1"))
    ben.rows("RESET default_transaction_isolation")
    for text in ("SELECT hearings.play(?, '\\x5100000000000000', 300000)", "SELECT hearings.give(?, 1, NULL, 'x')", "SELECT hearings.say(?, 1, 'x')"):
        ben.rows("BEGIN")
        done.wrong(f"{text} in a block", "statement of its own", lambda: ben.rows(text, h))
        ben.rows("ROLLBACK")
    ben.rows("BEGIN")
    done.wrong("ledger_sure in a block", "not committed yet", lambda: ben.rows("SELECT ledger.ledger_sure()"))
    ben.rows("ROLLBACK")


def attacks(done, cluster, people, root, h):
    """A role that tries everything; all of it is refused."""
    eve = people["ben"]
    before = everything(root)
    for table in TABLES:
        for text in ("UPDATE hearings.{} SET sum = NULL", "DELETE FROM hearings.{}", "TRUNCATE hearings.{}", "INSERT INTO hearings.{} DEFAULT VALUES",
                     "ALTER TABLE hearings.{} DISABLE TRIGGER ALL", "DROP TABLE hearings.{}", "ALTER TABLE hearings.{} DISABLE ROW LEVEL SECURITY",
                     "SELECT * FROM hearings.{} FOR UPDATE", "CREATE RULE r AS ON INSERT TO hearings.{} DO INSTEAD NOTHING"):
            done.wrong(text.format(table), "", lambda: eve.rows(text.format(table)))
    for text in ("SET ROLE ledger_keeper", "SET SESSION AUTHORIZATION clerk", "SET ROLE clerk", "SET session_replication_role = replica",
                 "CREATE OR REPLACE FUNCTION hearings.takes_part(integer) RETURNS boolean LANGUAGE sql AS 'SELECT true'",
                 "ALTER FUNCTION hearings.play(integer, bytea, bigint, boolean) RESET search_path", "CREATE SCHEMA mine",
                 "SELECT hearings.open_hearing('x')", "COPY hearings.step TO PROGRAM 'id'", "CALL hearings.watch(0, 1)",
                 f"SELECT hearings.own({h}, 0, 'x', 'ben')", f"SELECT hearings.locked({h})",
                 f"SELECT hearings.append({h}, 1, NULL, 1)", f"SELECT hearings.image_of({h})", "DROP EXTENSION take_ledger CASCADE",
                 "CREATE TRIGGER t BEFORE INSERT ON hearings.step EXECUTE FUNCTION hearings.kept()"):
        done.wrong(text, "", lambda: eve.rows(text))
    cluster.psql("-c", "CREATE SCHEMA evil; GRANT ALL ON SCHEMA evil TO PUBLIC; GRANT TEMP ON DATABASE t TO PUBLIC")
    for text in ("CREATE FUNCTION evil.yes(text, text) RETURNS boolean LANGUAGE sql AS 'SELECT true'",
                 "CREATE OPERATOR evil.= (LEFTARG = text, RIGHTARG = text, FUNCTION = evil.yes)",
                 "CREATE FUNCTION evil.session_user() RETURNS name LANGUAGE sql AS $$SELECT 'clerk'::name$$",
                 "CREATE FUNCTION evil.length(bytea) RETURNS integer LANGUAGE plpgsql AS"
                 " $$BEGIN PERFORM set_config('evil.ran_as', current_user, false); RETURN 8; END$$",
                 "CREATE FUNCTION evil.ledger_play(bytea, bytea) RETURNS record LANGUAGE sql AS 'SELECT 1'",
                 "CREATE TEMP TABLE hearing AS SELECT 1 AS id, session_user AS house", "CREATE TEMP TABLE take AS SELECT 1 AS hearing",
                 "SET search_path = evil, pg_temp, hearings, ledger, pg_catalog"):
        eve.rows(text)
    for steps in ("\\x6000000000000001", "\\x0000000000000001", "\\xc000000100000000"):
        done.wrong(f"{steps} with a search_path of one's own", "not yours", lambda: eve.rows(f"SELECT hearings.play({h}, '{steps}', 400000)"))
    done.equal("nothing of hers ran as the keeper", eve.one("SELECT current_setting('evil.ran_as', true)"), (None,))
    eve.rows("RESET search_path")
    done.equal("no trace of all that", everything(root), before)
    for who in ("outsider", "stranger"):
        someone = people[who]
        if who == "outsider":
            for table in (*TABLES, "takes", "log", "entry"):
                done.equal(f"the outsider reads {table}", someone.one(f"SELECT count(*) FROM hearings.{table}"), (0,))
        for text in (f"SELECT * FROM hearings.image_now({h})", f"SELECT * FROM hearings.hearing_check({h})",
                     f"SELECT hearings.play({h}, '\\xd000000000000000', 1)", "SELECT hearings.play(99, '\\xd000000000000000', 1)"):
            done.wrong(f"{who}: {text}", "", lambda: someone.rows(text))
        if who == "outsider":
            done.equal("nor faults", someone.rows(f"SELECT * FROM hearings.hearing_fault({h})"), [])
    done.wrong("the superuser slips", "the log is kept", lambda: root.rows("UPDATE hearings.step SET number = 1"))
    cluster.psql("-c", "DROP SCHEMA evil CASCADE")


def names(done, cluster, people, root):
    """Roles whose names try to be SQL."""
    clerk = people["clerk"]
    h = clerk.one("SELECT hearings.open_hearing(?)", STRANGE[0])[0]
    cluster.roles([], STRANGE)
    for i, name in enumerate(STRANGE):
        clerk.do(h, f"root text {i}")
        clerk.rows("SELECT hearings.give(?, ?, ?, ?)", h, i, name, name + "'s")
    for i, name in enumerate(STRANGE):
        clerk.do(h, f"letter to {i} text {i}")
        someone, other = Laptop(cluster, name), Laptop(cluster, STRANGE[i - 1])
        done.equal(f"{name!r:.40} receives", someone.do(h, f"receive {i}"), f"done take {i} parcel {i} text {i}")
        done.wrong(f"another acts for {name!r:.40}", "not yours", lambda: other.do(h, f"read {i}"))
        someone.rows("SELECT hearings.say(?, ?, ?, ?)", h, i, name * 2, name)
    rows = clerk.rows("SELECT name, owner, words FROM hearings.takes WHERE hearing = ? ORDER BY take", h)
    done.equal("names as they were", rows, [(n + "'s", n, n * 2) for n in STRANGE])
    done.equal("the check", check(clerk, h), (True, None))
    before = ""
    for line, total in root.rows("SELECT line, sum FROM hearings.entry WHERE hearing = ? ORDER BY entry", h):
        done.equal("a sum by hand", hashlib.sha256((before + line).encode()).digest(), total)
        before = total.hex() + " "


def snapshots(done, people, root):
    clerk = people["clerk"]
    h = clerk.one("SELECT hearings.open_hearing('long', every => 64)")[0]
    clerk.do(h, "root text 1\nletter to 0 text 1\nreceive 0")
    for i in range(140):
        clerk.do(h, f"write 0 text {i}")
    at, image = root.one("SELECT image_at, image FROM hearings.hearing WHERE id = ?", h)
    done.equal("snapshots", at, 128)
    clerk.do(h, "\n".join(f"write 0 text {i}" for i in range(1024)))
    rows = clerk.one("SELECT steps, image FROM hearings.image_now(?)", h)
    steps = b"".join(r[0] for r in root.rows("SELECT step FROM hearings.step WHERE hearing = ? ORDER BY number", h))
    done.equal("the image now", rows, (1167, root.one("SELECT ledger.ledger_run(ledger.ledger_begin(), ?)", steps)[0]))
    text = "SELECT pg_column_compression(image), pg_column_size(image) < 2000 FROM hearings.hearing WHERE id = ?"
    done.equal("packed by lz4", root.one(text, h), ("lz4", True))
    done.equal("the check", check(clerk, h), (True, None))
    done.wrong("a snapshot every 10 steps", "check", lambda: clerk.one("SELECT hearings.open_hearing('x', every => 10)"))
    done.refused("limits out of range", 33, lambda: clerk.one("SELECT hearings.open_hearing('x', 17)"))


def views(done, people, h):
    clerk, ben, eve = people["clerk"], people["ben"], people["eve"]
    ben.rows("SELECT hearings.say(?, 10, 'I was there.', 'Mr Smith')", h)
    done.wrong("said once", "this text has its words", lambda: ben.rows("SELECT hearings.say(?, 10, 'x')", h))
    of = lambda view, columns="*": clerk.rows(f"SELECT {columns} FROM hearings.{view} WHERE hearing = ? ORDER BY 1, 2, 3", h)
    done.equal("pages", of("pages", "speaker, take, name, text, words, signed"), [("Mr Smith", 1, "page 1", 10, "I was there.", True)])
    clerk.do(h, "letter to 1 text 10")
    done.equal("under way", of("under_way", "parcel, take, name, text, words"), [(2, 1, "page 1", 10, "I was there.")])
    ben.do(h, "receive 2\nsend 1 to 0 text 10"), eve.do(h, "receive 3\nwrite 0 text 2")
    done.equal("rests", of("rests", "take, name, ground, ground_name, direct"), [(0, "list of names", 1, "page 1", True)])
    rows = clerk.rows("SELECT step FROM hearings.left_to_do WHERE hearing = ? AND take = 0 ORDER BY place", h)
    done.equal("left to do", [r[0] for r in rows], ["freeze 0", "freeze 1", "sign {0,1}"])
    done.equal("in the way", of("in_the_way", "take, reason, in_the_way_name"), [(0, "not frozen", "list of names"), (1, "not frozen", "page 1")])
    eve.do(h, "freeze 0"), ben.do(h, "freeze 1")
    done.equal("can be signed", of("can_sign", "take, volume, names"), [(0, 3, "list of names, page 1"), (1, 2, "page 1")])
    done.equal("a vanished take", clerk.rows("SELECT status, text FROM hearings.takes WHERE hearing = ? AND take = 2", h), [("vanished", None)])
    rows = clerk.rows("SELECT step, reply, who FROM hearings.log WHERE hearing = ? ORDER BY number", h)
    done.equal("the log", rows[0], ("root text 7", "done take 0", "clerk"))


def faults(done, people, root):
    """A superuser without scruples: the check finds what was changed."""
    clerk, anna = people["clerk"], people["anna"]
    slips = {"a reply": ("UPDATE hearings.step SET reply = '\\x0000000000000001' WHERE hearing = {} AND number = 4", {"reply", "sum"}),
             "a step": ("UPDATE hearings.step SET step = ledger.ledger_pack('read 0') WHERE hearing = {} AND number = 5", {"reply", "sum"}),
             "who": ("UPDATE hearings.step SET who = 'ben' WHERE hearing = {} AND number = 5", {"rights", "sum"}),
             "when": ("UPDATE hearings.step SET at = at + '1 ms' WHERE hearing = {} AND number = 5", {"sum"}),
             "a step taken out": ("DELETE FROM hearings.step WHERE hearing = {} AND number = 5", None),
             "an owner": ("UPDATE hearings.take SET owner = 'ben' WHERE hearing = {}", {"owner", "rights", "sum"}),
             "who gave a take away": ("UPDATE hearings.take SET who = 'ben' WHERE hearing = {} AND owner = 'anna'", {"owner", "sum"}),
             "words": ("UPDATE hearings.words SET words = 'x' WHERE hearing = {}", {"sum"}),
             "the title": ("UPDATE hearings.hearing SET title = 'x' WHERE id = {}", {"sum"}),
             "the limits": ("UPDATE hearings.hearing SET takes = 15 WHERE id = {}", {"sum", "image"}),
             "the image": ("UPDATE hearings.hearing SET image = ledger.ledger_run(image, ledger.ledger_pack('root text 1')) WHERE id = {}", {"image"}),
             "its moment": ("UPDATE hearings.hearing SET image_at = 3 WHERE id = {}", {"image"})}
    for what, (text, expected) in slips.items():
        h = clerk.one("SELECT hearings.open_hearing('a hearing')")[0]
        clerk.do(h, "root text 7\nroot text 8")
        clerk.rows("SELECT hearings.give(?, 0, 'anna')", h)
        clerk.do(h, "letter to 0 text 5"), anna.do(h, "receive 0\nwrite 0 text 9\nfreeze 0"), clerk.do(h, "sign {0}"), anna.do(h, "fail 0")
        clerk.rows("SELECT hearings.say(?, 9, 'Smith')", h)
        done.equal("before", check(clerk, h), (True, None))
        root.rows("SET session_replication_role = replica")  # no triggers
        root.rows(text.format(h))
        root.rows("RESET session_replication_role")
        found = {r[0] for r in clerk.rows("SELECT what FROM hearings.hearing_fault(?)", h)}
        done.holds(f"{what}: found {found}", found == expected if expected else {"number", "sum"} <= found)
        done.equal(f"{what}: the check", check(clerk, h)[0], False)


FORGED = {  # what no function would have let in, with sums that hold: the check finds it all the same
    "a stranger's step in which nobody acts": ("UPDATE hearings.step SET who = 'outsider' WHERE hearing = {} AND number = 7", {"rights"}),
    "a stranger signs nothing": ("UPDATE hearings.step SET who = 'outsider' WHERE hearing = {} AND number = 8", {"rights"}),
    "a stranger's words": ("UPDATE hearings.words SET who = 'outsider' WHERE hearing = {}", {"words"}),
    "a take that nobody opened": ("INSERT INTO hearings.take(hearing, take, owner, who, at, entry, sum) SELECT {0}, 7, 'anna', 'clerk', now(),"
                                  " max(entry) + 1, sha256('') FROM hearings.entry WHERE hearing = {0}", {"owner"}),
    "a take opened for another": ("UPDATE hearings.take SET owner = 'ben' WHERE hearing = {} AND entry = 2", {"owner"}),
    "two steps in another order than the log": ("UPDATE hearings.step SET entry = CASE number WHEN 8 THEN entry - 1 ELSE entry + 1 END"
                                                " WHERE hearing = {} AND number IN (7, 8)", {"number"}),
}


def forged(done, people, root):
    clerk, anna = people["clerk"], people["anna"]
    for what, (text, expected) in FORGED.items():
        h = clerk.one("SELECT hearings.open_hearing('a hearing')")[0]
        clerk.do(h, "root text 7\nroot text 8")
        clerk.rows("SELECT hearings.give(?, 0, 'anna')", h)
        clerk.do(h, "letter to 0 text 5"), anna.do(h, "receive 0\nwrite 0 text 9\nfreeze 0\nreceive 99\nsign {}")
        anna.rows("SELECT hearings.say(?, 9, 'Smith')", h)
        done.equal("before", check(clerk, h), (True, None))
        root.rows("SET session_replication_role = replica")  # no triggers
        root.rows(text.format(h))
        before = ""
        for entry, kind, line in root.rows("SELECT entry, kind, line FROM hearings.entry WHERE hearing = ? ORDER BY entry", h):
            total = hashlib.sha256((before + line).encode()).digest()
            where = "id = ? AND 0 = ?" if kind == "hearing" else "hearing = ? AND entry = ?"
            root.rows(f"UPDATE hearings.{kind} SET sum = ? WHERE {where}", total, h, entry)
            before = total.hex() + " "
        root.rows("RESET session_replication_role")
        found = {r[0] for r in clerk.rows("SELECT what FROM hearings.hearing_fault(?)", h)}
        done.equal(f"{what}: found", found, expected)
        done.equal(f"{what}: the check", check(clerk, h)[0], False)


def hostile_file(done, cluster, root):
    """A file whose view hearing_check is not the schema's own: what it says is no part of a statement."""
    said = "'; END IF; CREATE TABLE public.pwned(); IF l.sum <> '"
    environment = dict(os.environ, PGHOST=cluster.folder, PGPORT=str(cluster.port), PGUSER="postgres", PGDATABASE="t")
    with tempfile.TemporaryDirectory() as folder:
        path = os.path.join(folder, "hostile.db")
        move = lambda: subprocess.run([os.path.join(sql.ROOT, "store/postgres/move"), path], env=environment, capture_output=True, text=True)
        lite = sql.connect(path)
        sql.hearing(lite)
        lite.execute("INSERT INTO hearing(title, house) VALUES ('x', 'clerk')")
        lite.execute("INSERT INTO step(step, who) VALUES (ledger_pack('root text 1'), 'clerk')")
        lite.execute("INSERT INTO take(take, owner, who) VALUES (0, 'Nobody here', 'clerk')")
        run = move()
        done.holds(f"an owner who is no role: {run.stderr}", run.returncode != 0 and 'no such role: "Nobody here"' in run.stderr)
        lite.execute("DROP VIEW hearing_check")
        lite.execute(f"CREATE VIEW hearing_check AS SELECT 1 AS holds, '{said.replace(chr(39), 2 * chr(39))}' AS sum")
        run = move()
        done.holds(f"a hostile file is turned back: {run.stderr}", run.returncode == 1 and "gives no sum" in run.stderr)
        done.equal("and leaves nothing", root.one("SELECT to_regclass('public.pwned')"), (None,))


def watched(done, cluster, people):
    """One process tells the channels; play itself does not."""
    clerk = people["clerk"]
    h = clerk.one("SELECT hearings.open_hearing('watched')")[0]
    listener = cluster.connect("clerk")
    with listener.cursor() as cursor:
        cursor.execute(f"LISTEN hearing_{h}")
    clerk.do(h, "root text 1")
    time.sleep(0.2)
    listener.poll()
    done.equal("play does not notify", listener.notifies, [])
    thread = threading.Thread(target=lambda: cluster.psql("-c", "CALL hearings.watch(0.05, 20)"))
    thread.start()
    until = time.time() + 60
    while not listener.notifies and time.time() < until:
        time.sleep(0.05)
        listener.poll()
    done.equal("the watcher does", [n.payload for n in listener.notifies], ["1"])
    thread.join()


def moved(done, cluster, people, root):
    """A dump restored elsewhere, a database in another encoding, and a hearing of SQLite moved in: the same sums."""
    clerk = people["clerk"]
    sums = [clerk.one("SELECT sum FROM hearings.hearing_check(?)", h) for (h,) in clerk.rows("SELECT id FROM hearings.hearing ORDER BY id")]
    dump = subprocess.run(["pg_dump", "-h", cluster.folder, "-p", str(cluster.port), "-U", "postgres", "t"], check=True, capture_output=True).stdout
    for name, options in (("other", ""), ("latin", "ENCODING 'LATIN1' LOCALE 'C' TEMPLATE template0")):
        cluster.database(name, schema=False, options=options)
        cluster.psql("-o", "/dev/null", database=name, input=dump.decode())
        there = Laptop(cluster, "clerk", name)
        got = [there.one("SELECT sum FROM hearings.hearing_check(?)", h) for (h,) in there.rows("SELECT id FROM hearings.hearing ORDER BY id")]
        done.equal(f"the sums in {name}", got, sums)
        h = there.rows("SELECT id FROM hearings.hearing ORDER BY id")[0][0]
        done.holds("it plays on", there.do(h, "letter to 1 text 1").startswith("done"))
    with tempfile.TemporaryDirectory() as folder:
        path = os.path.join(folder, "hearing.db")
        lite = sql.connect(path)
        sql.hearing(lite)
        lite.execute("INSERT INTO hearing(title, house, every) VALUES ('Anhörung', 'clerk', 8)")
        do = lambda text, who, call=None: lite.execute(
            "INSERT INTO step(step, who, call) VALUES (ledger_pack(?), ?, ?)", (text, who, call))
        do("root text 7", "clerk")
        lite.execute("INSERT INTO take(take, name, owner, who) VALUES (0, 'Namen; \"x\", ''y''\n', 'anna', 'clerk')")
        lite.execute("INSERT INTO words(text, speaker, words, who) VALUES (7, NULL, 'Müller\n\\x', 'anna')")
        for i in range(20):
            do(f"letter to 0 text {i}", "clerk")
        do("receive 0", "anna", 5)
        lite_sum = lite.execute("SELECT holds, sum FROM hearing_check").fetchone()
        lite.close()
        environment = dict(os.environ, PGHOST=cluster.folder, PGPORT=str(cluster.port), PGUSER="postgres", PGDATABASE="t")
        move = [os.path.join(sql.ROOT, "store/postgres/move"), path]
        h = int(subprocess.run(move, env=environment, check=True, capture_output=True, text=True).stdout)
    done.equal("the same sum as in the file", (1, clerk.one("SELECT sum FROM hearings.hearing_check(?)", h)[0]), lite_sum)
    done.equal("the check", check(clerk, h), (True, None))
    done.equal("its owner plays on", people["anna"].do(h, "write 0 text 9"), "done take 0")
    done.equal("words", root.one("SELECT words FROM hearings.words WHERE hearing = ?", h), ("Müller\n\\x",))


def main():
    done = sql.Counted()
    with room() as folder, Cluster(folder, fsync="off") as cluster:  # what a disk does is for crowd_postgres.py
        cluster.database()
        cluster.roles(["clerk"], ["anna", "ben", "eve", "outsider"])
        cluster.psql("-c", "CREATE ROLE stranger LOGIN")
        people = {name: Laptop(cluster, name) for name in ("clerk", "anna", "ben", "eve", "outsider", "stranger")}
        root = Laptop(cluster, "postgres")
        h = small(done, people, root)
        owners(done, people, root, h)
        calls(done, people, root, h)
        views(done, people, h)
        settings(done, people, h)
        attacks(done, cluster, people, root, h)
        names(done, cluster, people, root)
        snapshots(done, people, root)
        watched(done, cluster, people)
        moved(done, cluster, people, root)
        hostile_file(done, cluster, root)
        faults(done, people, root)
        forged(done, people, root)
    done.end()


if __name__ == "__main__":
    sys.exit(main())
