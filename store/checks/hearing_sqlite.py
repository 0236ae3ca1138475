"""A hearing in a file of SQLite: rights, what is kept, calls that are asked again, names that try to be SQL, views, and faults
put in, which hearing_check must find."""
import hashlib
import os
import sqlite3
import sys
import tempfile

import sql

NAMES = ["anna", "'; DROP TABLE step; --", '"; DROP TABLE take; --', "ben\n", "%s%(x)s", "\\'", "Zeugin Müller", "x" * 70000, "",
         "clerk'--", "NULL", "😀", "a,b", "-", "`", "]"]
LOG = ("hearing", "step", "take", "words", "snapshot")


class Hearing:
    def __init__(self, path, encoding=None):
        if os.path.exists(path):
            os.remove(path)
        self.db = sql.Sqlite(path)
        if encoding:
            self.db.rows(f"PRAGMA encoding = '{encoding}'")
            self.db.rows("CREATE TABLE first(x)")
        sql.hearing(self.db.connection)
        self.db.rows("PRAGMA synchronous = OFF")  # what a disk does is for crowd_sqlite.py

    def begin(self, title="a hearing", house="clerk", **more):
        names = ", ".join(["title", "house", *more])
        self.db.rows(f"INSERT INTO hearing({names}) VALUES (?, ?{', ?' * len(more)})", title, house, *more.values())

    def do(self, text, who="clerk", call=None):
        self.db.rows("INSERT INTO step(step, who, call) VALUES (ledger_pack(?), ?, ?)", text, who, call)
        return self.db.one("SELECT reply FROM log ORDER BY number DESC LIMIT 1")[0]

    def give(self, take, owner, who="clerk", name=None):
        self.db.rows("INSERT INTO take(take, name, owner, who) VALUES (?, ?, ?, ?)", take, name, owner, who)

    def check(self):
        return self.db.one("SELECT holds, fault FROM hearing_check")

    def everything(self):
        """All rows, to see that nothing has changed."""
        return [self.db.rows(f"SELECT * FROM {table} ORDER BY 1") for table in LOG]


def small(done, path):
    """Two takes, two owners; every right, and what has none leaves no trace."""
    h = Hearing(path)
    h.begin()
    h.do("root text 7"), h.do("root text 8")
    h.give(0, "anna", name="names"), h.give(1, "ben", name="page 1")
    done.equal("letter", h.do("letter to 0 text 5"), "done take 0 parcel 0")
    before = h.everything()
    refused = [("receive 0", "ben", "not yours"), ("receive 0", "clerk", "not yours"), ("write 0 text 1", "ben", "not yours"),
               ("write 0 text 1", "clerk", "not yours"), ("write 9 text 1", "clerk", "not yours"), ("root text 1", "anna", "the house"),
               ("letter to 0 text 1", "anna", "the house"), ("lose 0", "anna", "the house"), ("sign {0,1}", "anna", "not yours"),
               ("sign {1}", "anna", "not yours"), ("read 0", "eve", "takes no part"), ("raw f000000000000000", "eve", "takes no part")]
    for text, who, words in refused:
        done.wrong(f"{text} by {who}", words, lambda: h.do(text, who))
        done.equal(f"{text} by {who} leaves no trace", h.everything(), before)
    for text, who, reply in [("receive 0", "anna", "done take 0 parcel 0 text 5"), ("receive 99", "ben", "refused 24"),
                             ("raw f000000000000000", "anna", "refused 20"), ("sign {}", "ben", "refused 29"),
                             ("write 0 text 9", "anna", "done take 0"), ("send 0 to 1 text 9", "anna", "done take 0 parcel 1"),
                             ("receive 1", "ben", "done take 1 parcel 1 text 9"), ("write 1 text 10", "ben", "done take 1"),
                             ("new 1 text 4", "ben", "done take 2"), ("freeze 1", "ben", "done take 1"),
                             ("sign {1}", "ben", "not ready"), ("freeze 0", "anna", "done take 0"),
                             ("sign {0,1}", "clerk", "done"), ("fail 0", "anna", "fallen back take 0")]:
        done.holds(f"{text} by {who}: {h.do(text, who)}", h.db.one("SELECT reply FROM log ORDER BY number DESC LIMIT 1")[0].startswith(reply))
    done.equal("whoever opens a take owns it", h.db.one("SELECT owner FROM holder WHERE take = 2"), ("ben",))
    done.equal("the check", h.check(), (1, None))
    owners(done, h)
    kept(done, h)
    calls(done, h)
    return h


def owners(done, h):
    for take, owner, who in ((0, "ben", "ben"), (0, "ben", "anna"), (1, "anna", "eve")):
        done.wrong(f"{who} gives take {take}", "the house gives takes", lambda: h.give(take, owner, who))
    done.wrong("a take that is not there", "no such take", lambda: h.give(7, "anna"))
    h.give(0, None, "anna", name="list of names")
    done.equal("an owner names her own", h.db.one("SELECT name, owner FROM holder WHERE take = 0"), ("list of names", "anna"))
    h.give(0, "eve")
    done.equal("given away", h.db.one("SELECT name, owner FROM holder WHERE take = 0"), ("list of names", "eve"))
    done.wrong("no longer hers", "takes no part", lambda: h.do("read 0", "anna"))
    done.equal("hers now", h.do("fail 0", "eve"), "fallen back take 0")
    done.equal("owners as they were, checked", h.check(), (1, None))
    rows = h.db.rows("SELECT owner, who FROM take WHERE take = 0 ORDER BY id")
    done.equal("changes of owner stand in the log", rows, [("clerk", "clerk"), ("anna", "clerk"), ("anna", "anna"), ("eve", "clerk")])


def kept(done, h):
    h.db.rows("INSERT INTO words(text, words, who) VALUES (9, 'Smith', 'clerk')")
    before = h.everything()
    one = "(number, step, who) VALUES (1, ledger_pack('letter to 1 text 1'), 'clerk')"  # hers, but for the number
    last = h.db.one("SELECT max(number) FROM step")[0]
    for text in [f"DELETE FROM {table}" for table in LOG] + [
            "UPDATE step SET who = 'x'", "UPDATE step SET reply = x'00'", "UPDATE step SET sum = NULL", "UPDATE step SET call = 1",
            "UPDATE hearing SET title = 'x'", "UPDATE take SET owner = 'clerk'", "UPDATE words SET words = 'x'",
            "UPDATE snapshot SET at = 3", "UPDATE snapshot SET image = ledger_begin()", f"INSERT INTO step{one}",
            f"INSERT OR REPLACE INTO step{one}", f"INSERT OR REPLACE INTO step{one.replace('(1,', f'({last},')}",
            f"INSERT INTO step{one.replace('(1,', f'({last + 2},')}", f"INSERT INTO step{one.replace('(1,', '(-1,')}",
            "INSERT OR REPLACE INTO take(id, take, owner, who) VALUES (1, 0, 'clerk', 'clerk')",
            "INSERT OR REPLACE INTO take(id, take, owner, who) SELECT max(id), 0, 'clerk', 'clerk' FROM take",
            "INSERT OR REPLACE INTO words(id, text, words, who) VALUES (1, 2, 'x', 'clerk')",
            "INSERT INTO words(text, words, who) VALUES (9, 'Jones', 'clerk')", "INSERT INTO words(text, words, who) VALUES (1, 'x', 'mallory')",
            "INSERT INTO words(text, words, who, sum) VALUES (1, 'x', 'clerk', x'00')",
            "INSERT INTO step(step, who, reply) VALUES (ledger_pack('read 0'), 'clerk', x'0000000000000000')",
            "INSERT INTO take(take, who, entry) VALUES (0, 'clerk', 1)", "INSERT INTO hearing(title, house) VALUES ('x', 'x')",
            "INSERT OR REPLACE INTO hearing(id, title, house) VALUES (1, 'x', 'x')", "INSERT INTO snapshot VALUES (1, 0, x'')",
            "INSERT OR REPLACE INTO snapshot VALUES (1, 0, x'')"]:
        try:
            h.db.rows(text)
        except (sql.Wrong, sql.Refused):
            done.equal(text, h.everything(), before)
        else:
            done.holds(text, False)
    done.equal("after all that", h.check(), (1, None))


def calls(done, h):
    h.do("read 1", "ben", 1), h.do("read 1", "ben", 1)
    played = h.db.one("SELECT count(*) FROM step WHERE who = 'ben' AND call = 1")[0]
    done.equal("asked again: played once", played, 1)
    first = h.db.rows("SELECT step, reply FROM log WHERE who = 'ben' AND call = 1")
    done.equal("the answer again, from the log", first, [("read 1", "refused 23: acting take not at work")])
    done.wrong("another step under that number", "another step", lambda: h.do("done 1", "ben", 1))
    h.do("read 1", "ben", 2), h.do("read 0", "eve", 1)
    done.equal("numbers are each person's own", h.db.one("SELECT count(*) FROM step WHERE call IS NOT NULL")[0], 3)
    h.db.rows("INSERT INTO step(step, who, call) VALUES (ledger_pack('read 1'), 'ben', 2), (ledger_pack('read 1'), 'ben', 3)")
    done.equal("two calls, one of them again", h.db.one("SELECT count(*) FROM step WHERE who = 'ben' AND call > 1")[0], 2)


def names(done, path):
    """Names that try to be SQL, or strange: kept as they are."""
    h = Hearing(path)
    h.begin(title=NAMES[1], house=NAMES[2])
    for i, name in enumerate(NAMES):
        h.do(f"root text {i}", NAMES[2])
        h.give(i, name, NAMES[2], name=name + "'s")
        h.db.rows("INSERT INTO words(text, speaker, words, who) VALUES (?, ?, ?, ?)", i, name, name * 2, name)
    for i, name in enumerate(NAMES):
        h.do(f"letter to {i} text 1", NAMES[2])
        done.equal(f"{name!r:.30} receives", h.do(f"receive {i}", name), f"done take {i} parcel {i} text 1")
        other = NAMES[(i + 1) % 16]
        done.wrong(f"{other!r:.30} acts for {name!r:.30}", "not yours", lambda: h.do(f"read {i}", other))
    rows = h.db.rows("SELECT name, owner, words FROM takes ORDER BY take")
    done.equal("names as they were", rows, [(n + "'s", n, n * 2) for n in NAMES])
    done.equal("tables as they were", h.db.one("SELECT count(*) FROM sqlite_schema WHERE type = 'table'")[0], len(LOG))
    done.equal("speakers", {r[0] for r in h.db.rows("SELECT speaker FROM pages")}, set(NAMES))
    done.equal("the check", h.check(), (1, None))
    chain(done, h)


def chain(done, h):
    """The sums by hand: the line of each row behind the sum before it."""
    rows = h.db.rows("SELECT line, sum FROM entry ORDER BY entry")
    before = ""
    for line, total in rows:
        done.equal("a sum", hashlib.sha256((before + line).encode()).digest(), total)
        before = total.hex() + " "
    done.equal("the last sum", h.db.one("SELECT sum FROM hearing_check")[0], before.strip())
    line = h.db.one("SELECT line FROM entry WHERE kind = 'step' AND id = 1")[0].split(" ")
    done.equal("a line", line[:4] + line[5:], ["step", "1", "00" * 8, "00" * 8, NAMES[2].encode().hex(), "-"])


def faults(done, path):
    """Somebody with the file and without scruples drops the triggers: the check finds what was changed."""
    rows = {"a reply": ("UPDATE step SET reply = x'0000000000000001' WHERE number = 4", {"reply", "sum"}),
            "a step": ("UPDATE step SET step = ledger_pack('read 0') WHERE number = 5", {"reply", "sum", "image"}),
            "who": ("UPDATE step SET who = 'ben' WHERE number = 5", {"rights", "sum"}),
            "when": ("UPDATE step SET at = '2020-01-01T00:00:00.000Z' WHERE number = 5", {"sum"}),
            "a call's number": ("UPDATE step SET call = 4 WHERE number = 5", {"sum"}),
            "a step taken out": ("DELETE FROM step WHERE number = 5", {"number", "sum"}),
            "two steps exchanged": ("UPDATE step SET number = 11 - number WHERE number IN (5, 6)", None),
            "an owner": ("UPDATE take SET owner = 'ben' WHERE take = 0", {"owner", "rights", "sum", "words"}),
            "who gave a take away": ("UPDATE take SET who = 'ben' WHERE take = 0 AND owner = 'anna'", {"owner", "sum"}),
            "a name": ("UPDATE take SET name = 'x' WHERE take = 0", {"sum"}),
            "words": ("UPDATE words SET words = 'x'", {"sum"}),
            "words taken out": ("DELETE FROM words WHERE text = 9", {"sum"}),
            "the title": ("UPDATE hearing SET title = 'x'", {"sum"}),
            "the house": ("UPDATE hearing SET house = 'anna'", {"owner", "rights", "sum"}),
            "the limits": ("UPDATE hearing SET takes = 15", {"sum", "image"}),
            "the image": ("UPDATE snapshot SET image = ledger_run(image, ledger_pack('fail 0'))", {"image"}),
            "the image of another moment": ("UPDATE snapshot SET at = at + 1", {"image"}),
            "an image that is none": ("UPDATE snapshot SET image = x'00'", {"image"})}
    for what, (text, expected) in rows.items():
        h = Hearing(path)
        h.begin(every=8)
        h.do("root text 7"), h.do("root text 8")
        h.give(0, "anna"), h.give(1, "ben")
        h.db.rows("INSERT INTO words(text, words, who) VALUES (9, 'Smith', 'anna'), (10, 'Jones', 'ben')")
        for step, who in [("letter to 0 text 5", "clerk"), ("receive 0", "anna"), ("write 0 text 9", "anna"), ("freeze 0", "anna"),
                          ("sign {0}", "clerk"), ("fail 0", "anna"), ("fail 0", "anna"), ("letter to 1 text 1", "clerk")]:
            h.do(step, who)
        done.equal("before", h.check(), (1, None))
        without_triggers(h)
        if what == "two steps exchanged":
            h.db.rows("UPDATE step SET number = 100 WHERE number = 5")
            h.db.rows("UPDATE step SET number = 5 WHERE number = 6")
            h.db.rows("UPDATE step SET number = 6 WHERE number = 100")
        else:
            h.db.rows(text)
        found = {r[0] for r in h.db.rows("SELECT what FROM hearing_fault")}
        done.holds(f"{what}: found {found}", found == expected if expected else "sum" in found)
        done.equal(f"{what}: the check", h.check()[0], 0)
        h.db.connection.close()


def without_triggers(h):
    for (trigger,) in h.db.rows("SELECT name FROM sqlite_schema WHERE type = 'trigger'"):
        h.db.rows(f"DROP TRIGGER {trigger}")


def sums_anew(h):
    """All sums made anew, as somebody does who wants the chain to hold."""
    before = ""
    for kind, key, line in h.db.rows("SELECT kind, id, line FROM entry ORDER BY entry"):
        total = hashlib.sha256((before + line).encode()).digest()
        h.db.rows(f"UPDATE {kind} SET sum = ? WHERE {'number' if kind == 'step' else 'id'} = ?", total, key)
        before = total.hex() + " "


FORGED = {  # what no trigger would have let in, with sums that hold: the check finds it all the same
    "a stranger's step in which nobody acts": (["UPDATE step SET who = 'mallory' WHERE number = 8"], {"rights"}),
    "a stranger signs nothing": (["UPDATE step SET who = 'mallory' WHERE number = 9"], {"rights"}),
    "somebody who owns nothing yet": (["UPDATE step SET who = 'zoe' WHERE number = 9"], {"rights"}),
    "a stranger's words": (["UPDATE words SET who = 'mallory' WHERE text = 9"], {"words"}),
    "words of somebody who owns nothing yet": (["UPDATE words SET who = 'zoe' WHERE text = 9"], {"words"}),
    "words said twice": (["INSERT INTO words(text, words, who, at, entry) SELECT 9, 'Jones', 'anna', 'x', max(entry) + 1 FROM entry"], {"words"}),
    "a take that nobody opened": (["INSERT INTO take(take, owner, who, at, entry) SELECT 7, 'anna', 'clerk', 'x', max(entry) + 1 FROM entry"], {"owner"}),
    "a take opened for another": (["UPDATE take SET owner = 'ben' WHERE id = 1"], {"owner"}),
    "a call played twice": (["UPDATE step SET call = 4 WHERE number IN (5, 6)"], {"call"}),
    "no snapshot": (["DELETE FROM snapshot"], {"image"}),
    "no hearing": (["DELETE FROM hearing", "UPDATE step SET entry = -entry", "UPDATE take SET entry = -entry", "UPDATE words SET entry = -entry",
                    "UPDATE step SET entry = -entry - 1", "UPDATE take SET entry = -entry - 1", "UPDATE words SET entry = -entry - 1"], {"hearing"}),
    "two steps in another order than the log": (["UPDATE step SET entry = CASE number WHEN 10 THEN entry - 1 ELSE entry + 1 END WHERE number IN (9, 10)"], {"number"}),
}


def forged(done, path):
    for what, (texts, expected) in FORGED.items():
        h = busy(done, path)
        without_triggers(h)
        for text in texts:
            h.db.rows(text)
        sums_anew(h)
        found = {r[0] for r in h.db.rows("SELECT what FROM hearing_fault")}
        done.holds(f"{what}: found {found}", found == expected if expected else "number" in found)
        done.equal(f"{what}: the check", h.check()[0], 0)
        h.db.connection.close()


def busy(done, path):
    """A hearing with steps of every right, for the faults that are put in."""
    h = Hearing(path)
    h.begin(every=8)
    h.do("root text 7"), h.do("root text 8")
    h.give(0, "anna"), h.give(1, "ben")
    h.db.rows("INSERT INTO words(text, words, who) VALUES (9, 'Smith', 'anna'), (10, 'Jones', 'ben')")
    for step, who in [("letter to 0 text 5", "clerk"), ("receive 0", "anna"), ("write 0 text 9", "anna"), ("freeze 0", "anna"),
                      ("sign {0}", "clerk"), ("receive 99", "anna"), ("sign {}", "ben"), ("letter to 1 text 1", "clerk")]:
        h.do(step, who)
    h.give(1, "zoe")
    done.equal("before", h.check(), (1, None))
    return h


def behind_the_end(done, path):
    """A row put behind the last one, with a number of its table that lies before: the last sum is not the printed one."""
    h = busy(done, path)
    printed, (entries,) = h.db.one("SELECT sum FROM hearing_check")[0], h.db.one("SELECT max(entry) FROM entry")
    without_triggers(h)
    for table, text in (("take", "take(id, take, name, owner, who, at, entry) SELECT -5, 0, 'forged', 'anna', 'clerk', at"),
                        ("words", "words(id, text, words, who, at, entry) SELECT -5, 77, 'forged', 'clerk', at")):
        h.db.rows(f"INSERT INTO {text}, {entries + 1} FROM hearing")
        sums_anew(h)
        found = {r[0] for r in h.db.rows("SELECT what FROM hearing_fault")}
        done.equal(f"a row of {table} behind the end", found, {"number"})
        done.holds("another last sum", h.db.one("SELECT sum FROM hearing_check")[0] != printed)
        h.db.rows(f"DELETE FROM {table} WHERE id = -5")
        done.equal("without it", h.db.one("SELECT holds, sum FROM hearing_check"), (1, printed))


def no_reply(done, path):
    """A file whose snapshot was taken out plays nothing."""
    h = busy(done, path)
    h.db.rows("DROP TRIGGER snapshot_delete")
    h.db.rows("DELETE FROM snapshot")
    before = h.everything()
    done.wrong("a step without an image", "no reply to this step", lambda: h.do("letter to 0 text 1"))
    done.equal("which leaves no trace", h.everything(), before)


def views(done, path):
    h = small(done, path)
    h.db.rows("INSERT INTO words(text, speaker, words, who) VALUES (10, 'Mr Smith', 'I was there.', 'ben')")
    done.equal("pages", h.db.rows("SELECT * FROM pages WHERE take = 1"), [("Mr Smith", 1, "page 1", 10, "I was there.", 1)])
    h.do("letter to 1 text 9"), h.do("letter to 0 text 3")
    done.equal("under way", h.db.rows("SELECT * FROM under_way"), [(2, 1, "page 1", 9, "Smith"), (3, 0, "list of names", 3, None)])
    h.do("receive 2", "ben"), h.do("send 1 to 0 text 10", "ben"), h.do("lose 3"), h.do("receive 4", "eve"), h.do("write 0 text 2", "eve")
    done.equal("rests", h.db.rows("SELECT * FROM rests"), [(0, "list of names", 1, "page 1", 1)])
    rows = h.db.rows("SELECT name, reason, in_the_way_name FROM in_the_way WHERE take = 0")
    done.equal("in the way", rows, [("list of names", "not frozen", "list of names")])
    rows = h.db.rows("SELECT * FROM left_to_do WHERE take = 0 ORDER BY place")
    done.equal("left to do", [r[3] for r in rows], ["freeze 0", "freeze 1", "sign {0,1}"])
    h.do("freeze 0", "eve"), h.do("freeze 1", "ben")
    rows = h.db.rows("SELECT take, volume, names FROM can_sign ORDER BY take")
    done.equal("can be signed", rows, [(0, 3, "list of names, page 1"), (1, 2, "page 1")])
    done.equal("a take vanishes", h.do("fail 2", "ben"), "vanished take 2")
    done.equal("which is no trouble", h.db.rows("SELECT name, status FROM takes WHERE take = 2"), [(None, "vanished")])
    for view in ("takes", "rests", "can_sign", "in_the_way", "left_to_do", "under_way", "pages", "log"):
        h.db.rows(f"SELECT * FROM {view}")
    done.equal("the check", h.check(), (1, None))


def without(done, path):
    """Without the extension nothing can be written, and the log can still be read."""
    plain = sqlite3.connect(path)
    try:
        plain.execute("INSERT INTO step(step, who) VALUES (x'5100000000000000', 'ben')")
    except sqlite3.Error as error:
        done.holds(f"without the extension: {error}", "no such" in str(error))
    else:
        done.holds("without the extension a step is written", False)
    done.holds("read without the extension", plain.execute("SELECT count(*) FROM step").fetchone()[0] > 0)


def main():
    done = sql.Counted()
    with tempfile.TemporaryDirectory() as room:
        views(done, os.path.join(room, "small.db"))
        without(done, os.path.join(room, "small.db"))
        names(done, os.path.join(room, "names.db"))
        faults(done, os.path.join(room, "faults.db"))
        forged(done, os.path.join(room, "forged.db"))
        behind_the_end(done, os.path.join(room, "behind.db"))
        no_reply(done, os.path.join(room, "empty.db"))
        h = Hearing(os.path.join(room, "wide.db"), "UTF-16le")
        h.begin(title="Anhörung", house="Müller")
        h.do("root text 1", "Müller")
        done.equal("a database in UTF-16", (h.db.one("PRAGMA encoding")[0], h.check()), ("UTF-16le", (1, None)))
        rows = h.db.rows("SELECT line, sum FROM entry ORDER BY entry")
        done.equal("with the same sums", hashlib.sha256((rows[0][1].hex() + " " + rows[1][0]).encode()).digest(), rows[1][1])
        h = Hearing(os.path.join(room, "limits.db"))
        done.refused("limits out of range", 33, lambda: h.begin(takes=17))
        done.equal("which leaves no trace", h.everything(), [[]] * len(LOG))
    done.end()


if __name__ == "__main__":
    sys.exit(main())
