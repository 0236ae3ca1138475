"""The functions of SQL by themselves: functions.py sqlite|postgres. Document 01's session by hand, NULLs, wrong types, every
refusal, huge blobs, long lists, other encodings."""
import os
import random
import sys

import sql

SESSION = """root text 7
root text 8
letter to 0 text 5
receive 0
write 0 text 9
send 0 to 1 text 9
receive 1
write 1 text 10
freeze 1
sign {1}
freeze 0
sign {0,1}
fail 0
"""
REPLIES = """done take 0
done take 1
done take 0 parcel 0
done take 0 parcel 0 text 5
done take 0
done take 0 parcel 1
done take 1 parcel 1 text 9
done take 1
done take 1
not ready
done take 0
done
fallen back take 0
"""
WHOSE = [("house", 0), ("house", 0), ("house", 0), ("take", 1), ("take", 1), ("take", 1), ("take", 2), ("take", 2),
         ("take", 2), ("volume", 2), ("take", 1), ("volume", 3), ("take", 1)]
TAKES = "take, status, text, saved, frozen, life, signings, signed, offer"


def session(db, done, steps, image):
    """Document 01's session, by hand."""
    done.equal("text", db.one("SELECT ledger_text(?)", steps)[0], SESSION)
    done.equal("replies in words", db.one("SELECT ledger_reply_text(?, ledger_replies(?, ?))", steps, image, steps)[0], REPLIES)
    rows = db.rows("SELECT place, outcome, take, parcel, text, opened FROM ledger_play(?, ?) ORDER BY place", image, steps)
    done.equal("played", [r[1:5] for r in rows][9:], [(5, 0, 0, 0), (0, 0, 0, 0), (0, 0, 0, 0), (3, 0, 0, 0)])
    done.equal("opened", [r[5] for r in rows][:4], [0, 1, None, None])
    done.equal("whose", db.rows("SELECT acts, takes FROM ledger_play(?, ?) ORDER BY place", image, steps), WHOSE)
    nine = db.one("SELECT ledger_run(?, ?)", image, steps[:72])[0]
    done.equal("acting", db.one("SELECT acts, takes FROM ledger_acting(?, ledger_pack('sign {0,1}'))", nine), ("volume", 3))
    done.equal("actor", db.one("SELECT ledger_actor(?, ledger_pack('freeze 1'))", nine), (1,))
    done.equal("no actor", db.one("SELECT ledger_actor(?, ledger_pack('root text 1'))", nine), (None,))
    takes = [(0, "at work", 9, 0, 0, 0, 0, "", None), (1, "at work", 10, 0, 1, 0, 0, "", None)]
    done.equal("takes", numbers(db.rows(f"SELECT {TAKES} FROM ledger_takes(?) ORDER BY take", nine)), takes)
    marks = [("behaviour", 1, 0, 0, 0, ""), ("state", 0, 0, 0, 0, ""), ("state", 1, 0, 0, 0, ""), ("state", 1, 1, 1, 0, "")]
    done.equal("marks", sorted(numbers(db.rows("SELECT map, holder, take, frozen, life, signed FROM ledger_marks(?)", nine))), marks)
    six = db.one("SELECT ledger_run(?, ?)", image, steps[:48])[0]
    done.equal("parcels", db.rows("SELECT parcel, take, text FROM ledger_parcels(?)", six), [(1, 1, 9)])
    done.equal("offer", db.one("SELECT ledger_offer(?, 1), ledger_offer(?, 0)", six, six), (1, None))
    done.equal("why", db.one("SELECT reason, take, ground FROM ledger_obstacle(?, 2)", nine), ("outside", 1, 0))
    done.equal("why none", db.one("SELECT reason, in_the_way FROM ledger_impediment(?, 1)", nine), ("not frozen", 0))
    done.equal("plan", db.rows("SELECT step FROM ledger_plan(?, 1) ORDER BY place", nine), [("freeze 0",), ("sign {0,1}",)])
    done.equal("who", db.one("SELECT resting, through, unfinished, carried FROM ledger_dependents(?, 0)", nine), (3, 3, 2, 0))
    ten = db.one("SELECT ledger_run(?, ledger_pack('freeze 0'))", nine)[0]
    done.equal("smallest", db.one("SELECT ledger_smallest(?, 1), ledger_smallest(?, 1)", ten, nine), (3, None))
    done.equal("ready", db.one("SELECT ledger_ready_count(?, 1), ledger_ready_count(?, 2)", ten, ten), (1, 1))
    done.equal("diff", db.rows("SELECT field, take, map, of_take, before, after FROM ledger_diff(?, ?)", nine, ten),
               [("mark", 0, "state", 0, 128, 192)])
    done.equal("no diff", db.rows("SELECT * FROM ledger_diff(?, ?)", ten, ten), [])
    end = db.one("SELECT ledger_run(?, ?)", image, steps)[0]
    done.equal("signed", numbers(db.rows(f"SELECT {TAKES} FROM ledger_takes(?) ORDER BY take", end)),
               [(0, "idle", 9, 9, 0, 1, 1, "0", None), (1, "idle", 10, 10, 0, 0, 1, "0", None)])
    done.holds("image text", "take 0: idle, text 9, saved 9\n" in db.one("SELECT ledger_image_text(?)", end)[0])
    done.equal("thin", db.one("SELECT ledger_thin(?, ?)", image, steps)[0], steps)
    done.equal("back and forward", db.one("SELECT ledger_forward(ledger_back(?))", end)[0], end)
    apart = "SELECT ledger_independent(?, ledger_pack(?), ledger_pack(?))"
    done.equal("independent", int(db.one(apart, nine, "write 0 text 1", "write 1 text 1")[0]), 1)
    done.equal("not independent", int(db.one(apart, nine, "write 0 text 1", "write 0 text 2")[0]), 0)
    done.equal("worst window", db.one("SELECT count, place FROM ledger_worst_window(ledger_replies(?, ?), 4)", image, steps), (1, 9))


def numbers(rows):
    """Truth values as numbers, lists as SQLite gives them: the two databases differ in that."""
    told = lambda v: int(v) if isinstance(v, bool) else v
    return [tuple(told(v) for v in row) for row in rows]


def vanished(db, done):
    gone = db.one("SELECT ledger_run(ledger_begin(), ledger_pack(?))", "root text 1\nroot text 2\nfail 0\n")[0]
    for call in ("ledger_offer", "ledger_smallest", "ledger_all_heard_frozen"):
        for take in (0, 2, 16, -1, 1 << 40):
            done.equal(f"{call} of take {take}", db.one(f"SELECT {call}(?, ?)", gone, take), (None,))
    for call, count in (("ledger_dependents", 4), ("ledger_impediment", 5)):
        for take in (0, 2, 16, -1, 1 << 40):
            done.equal(f"{call} of take {take}", db.one(f"SELECT * FROM {call}(?, ?)", gone, take), (None,) * count)
    done.equal("plan of a vanished take", db.rows("SELECT * FROM ledger_plan(?, 0)", gone), [])
    rows = db.rows(f"SELECT {TAKES} FROM ledger_takes(?) ORDER BY take", gone)
    done.equal("a vanished take", rows[0], (0, "vanished") + (None,) * 7)


# Each function with its arguments: i an image, o an old one, s steps, n a number, t a text, r replies.
SCALARS = {"ledger_begin": "nnn", "ledger_run": "is", "ledger_replies": "is", "ledger_thin": "is", "ledger_forward": "o",
           "ledger_back": "i", "ledger_actor": "is", "ledger_offer": "in", "ledger_smallest": "in", "ledger_ready_count": "in",
           "ledger_all_heard_frozen": "in", "ledger_show": "in", "ledger_independent": "iss", "ledger_pack": "t",
           "ledger_text": "s", "ledger_reply_text": "sr", "ledger_image_text": "i", "ledger_refusal_text": "n"}
ROWS = {"ledger_play": "is", "ledger_takes": "i", "ledger_parcels": "i", "ledger_marks": "i", "ledger_plan": "in",
        "ledger_diff": "ii"}
ONE = {"ledger_fault": "i", "ledger_acting": "is", "ledger_dependents": "in", "ledger_obstacle": "in", "ledger_impediment": "in",
       "ledger_worst_window": "rn"}
NULL = {"sqlite": dict.fromkeys("iosntr", "NULL"),
        "postgres": dict(i="NULL::bytea", o="NULL::bytea", s="NULL::bytea", r="NULL::bytea", n="NULL::bigint", t="NULL::text")}


def arguments(name, image, old):
    """Good arguments of each kind."""
    good = {"i": image, "o": old, "s": bytes(8), "r": bytes(8), "n": 1, "t": "root text 7"}
    return [good[kind] for kind in {**SCALARS, **ROWS, **ONE}[name]]


def nulls(db, done, image, old):
    for name, kinds in {**SCALARS, **ROWS, **ONE}.items():
        for at, kind in enumerate(kinds):
            values = arguments(name, image, old)
            marks = ["?"] * len(kinds)
            marks[at] = NULL[db.name][kind]
            del values[at]
            call = f"{name}({', '.join(marks)})"
            if name in SCALARS:
                done.equal(call, db.one(f"SELECT {call}", *values), (None,))
            else:
                rows = db.rows(f"SELECT * FROM {call}", *values)
                done.holds(f"{call}: {rows!r:.100}", rows == [] if name in ROWS else [set(r) for r in rows] == [{None}])


def types(db, done, image, old):
    """A value of another type is an error, and no answer about something else. (PostgreSQL has its own words for that.)"""
    if db.name != "sqlite":
        done.wrong("a text for an image", "", lambda: db.one("SELECT ledger_run('x'::text, 'x'::text)"))
        return
    for name, kinds in {**SCALARS, **ROWS, **ONE}.items():
        for at, kind in enumerate(kinds):
            for bad in {"n": ["1", b"1", 1.0], "t": [1, b"root text 7", 1.5]}.get(kind, ["x" * 8, 8, 1.5]):
                values = arguments(name, image, old)
                values[at] = bad
                call = f"{name}({', '.join('?' * len(kinds))})"
                text = f"SELECT {call}" if name in SCALARS else f"SELECT * FROM {call}"
                done.wrong(f"{call} with {bad!r}", ": not a ", lambda: db.rows(text, *values))
    for bad in (1, 2.5):
        done.wrong("sha256 of a number", "neither a text nor a blob", lambda: db.one("SELECT ledger_sha256(?)", bad))
    done.wrong("a missing argument", "no query solution", lambda: db.rows("SELECT * FROM ledger_takes"))


def refusals(db, done, image, steps):
    ill = bytes([image[0] ^ 1]) + image[1:]
    full = {**SCALARS, **ROWS, **ONE}
    for name, kinds in full.items():
        if kinds[0] != "i" or name == "ledger_fault":
            continue
        marks = ", ".join("?" * len(kinds))
        text = f"SELECT {name}({marks})" if name in SCALARS else f"SELECT * FROM {name}({marks})"
        rest = arguments(name, image, image)[1:]
        for wrong in (b"", image[:-1], image + b"\0", bytes(1 << 20)):
            done.refused(f"{name} of {len(wrong)} bytes", 16, lambda: db.rows(text, wrong, *rest))
        done.refused(f"{name} of an ill-formed image", 19, lambda: db.rows(text, ill, *rest))
    for name in ("ledger_run", "ledger_replies", "ledger_thin"):
        for length in (1, 7, 9, 8195):
            done.refused(f"{name}, {length} bytes of steps", 17, lambda: db.rows(f"SELECT {name}(?, ?)", ill, bytes(length)))
    done.refused("ledger_play of a part of a step", 17, lambda: db.rows("SELECT * FROM ledger_play(?, ?)", ill, bytes(12)))
    done.refused("ledger_text of a part", 17, lambda: db.rows("SELECT ledger_text(?)", bytes(12)))
    done.refused("ledger_reply_text", 17, lambda: db.rows("SELECT ledger_reply_text(?, ?)", bytes(12), bytes(12)))
    done.refused("ledger_reply_text", 18, lambda: db.rows("SELECT ledger_reply_text(?, ?)", bytes(16), bytes(8)))
    for length in (0, 7, 9, 16):
        for name in ("SELECT ledger_actor(?, ?)", "SELECT * FROM ledger_acting(?, ?)"):
            done.refused(f"{name} of {length} bytes", 17, lambda: db.rows(name, ill, bytes(length)))
        done.refused("ledger_independent", 17, lambda: db.rows("SELECT ledger_independent(?, ?, ?)", ill, bytes(8), bytes(length)))
    why = lambda volume: (lambda: db.rows("SELECT * FROM ledger_obstacle(?, ?)", image, volume))
    for volume, number in ((0, 29), (4, 21), (1 << 16, 21), (1 << 40, 21), (-1, 21)):
        done.refused(f"obstacle of {volume}", number, why(volume))
    gone = db.one("SELECT ledger_run(ledger_begin(), ledger_pack(?))", "root text 1\nfail 0\n")[0]
    done.refused("obstacle of a vanished take", 22, lambda: db.rows("SELECT * FROM ledger_obstacle(?, 1)", gone))
    once = "root text 1\nletter to 0 text 1\nreceive 0\nfreeze 0\nsign {0}\n"
    signed = db.one("SELECT ledger_run(ledger_begin(16, 32, 1), ledger_pack(?))", once)[0]
    done.refused("obstacle of a take with all its signings", 30, lambda: db.rows("SELECT * FROM ledger_obstacle(?, 1)", signed))
    done.refused("back with other limits", 32, lambda: db.rows("SELECT ledger_back(?)", signed))
    for limits in ((0, 1, 1), (17, 1, 1), (1, 33, 1), (1, 1, 16), (-1, 1, 1), (1 << 33, 1, 1)):
        done.refused(f"begin {limits}", 33, lambda: db.rows("SELECT ledger_begin(?, ?, ?)", *limits))
    for size in (0, 17, -1, 1 << 40):
        done.refused(f"ready count {size}", 34, lambda: db.rows("SELECT ledger_ready_count(?, ?)", image, size))
    for width in (0, 257, -1, 1 << 40):
        done.refused(f"worst window {width}", 35, lambda: db.rows("SELECT * FROM ledger_worst_window(?, ?)", bytes(8), width))
    done.refused("worst window", 17, lambda: db.rows("SELECT * FROM ledger_worst_window(?, 4)", bytes(9)))
    for number in range(16, 36):
        done.holds(f"words of {number}", db.one("SELECT ledger_refusal_text(?)", number)[0])
    for number in (-1, 0, 15, 36, 255, 256, 1 << 40):
        done.equal(f"no words of {number}", db.one("SELECT ledger_refusal_text(?)", number), (None,))
    done.wrong("a fault in a text", "2:6: expected a take, 0 to 15", lambda: db.one("SELECT ledger_pack(?)", "root text 1\nread 16\n"))


# Where the fields stand: docs/RULES.md, section 7. A take's place has 1,593 bytes, of which a map has 528; a parcel's has 535.
TAKE, MAP, PARCEL, MARK = 1593, 528, 535, 33
FIRST, PARCELS = 8, 8 + 16 * TAKE
CLAUSES = [  # bytes put in, and the byte and clause of the first fault: docs/RULES.md, section 9.13, by hand
    ({3: 9}, 3, 1), ({7: 1}, 7, 1), ({4: 0}, 4, 2), ({5: 33}, 4, 2), ({6: 16}, 4, 2), ({0: 17}, 0, 6), ({4: 1}, 0, 6),
    ({FIRST + 2 * TAKE + 77: 1}, FIRST + 2 * TAKE, 3), ({FIRST: 0x41}, FIRST, 3), ({FIRST: 0}, FIRST, 7),
    ({FIRST: 0xC0}, FIRST + 1, 11), ({FIRST + 8: 1}, FIRST + 5, 9), ({FIRST + 9: 0xA0}, FIRST + 9, 5), ({FIRST + 9: 0}, FIRST + 9, 8),
    ({FIRST + TAKE + 9 + MARK: 0}, FIRST + TAKE + 9 + MARK, 8), ({FIRST + 9 + 2 * MAP: 0x80}, FIRST + 9 + 2 * MAP, 10),
    ({PARCELS: 1}, PARCELS, 4), ({PARCELS + PARCEL: 0x80}, PARCELS + PARCEL, 12), ({PARCELS: 0x80}, PARCELS + 1, 14),
    ({2: 9, PARCELS: 0x85}, PARCELS, 15), ({2: 9, PARCELS: 0x80, PARCELS + 7: 0x20}, PARCELS + 7, 5),
    ({2: 9, PARCELS: 0x80, PARCELS + PARCEL: 0x80}, PARCELS + PARCEL + 1, 13),
    ({2: 9, 5: 1, PARCELS: 0x80, PARCELS + PARCEL: 0x80, PARCELS + PARCEL + 2: 1}, 5, 6),
]


def clauses(db, done, image):
    """Where an image fails the form first: the numbers, and the same in the words of an error."""
    ask = "SELECT refusal, at, clause, reason FROM ledger_fault(?)"
    done.equal("no fault", db.one(ask, image), (0, None, None, None))
    for wrong in (b"", image[:-1], image + b"\0", bytes(1 << 20)):
        done.equal(f"fault of {len(wrong)} bytes", db.one(ask, wrong), (16, None, None, None))
    for put, at, clause in CLAUSES:
        ill = bytes(put.get(i, byte) for i, byte in enumerate(image))
        row = db.one(ask, ill)
        done.equal(f"fault of {put}", row[:3], (19, at, clause))
        for call in ("SELECT ledger_offer(?, 0)", "SELECT ledger_run(?, ?)", "SELECT * FROM ledger_takes(?)", "SELECT * FROM ledger_obstacle(?, 1)",
                     "SELECT ledger_image_text(?)", "SELECT * FROM ledger_play(?, ?)", "SELECT * FROM ledger_diff(?, ?)", "SELECT ledger_back(?)"):
            values = (ill, ill if "diff" in call else b"")[: call.count("?")]
            try:
                db.rows(call, *values)
            except sql.Refused as refusal:
                done.equal(call, str(refusal), f"refused 19: image ill-formed, at byte {at} by clause {clause}: {row[3]}")
            else:
                done.holds(f"{call} of an ill-formed image", False)


def long_lists(db, done, image):
    """Lists of any length: the parts one after the other."""
    rnd = random.Random(47)
    text = "".join(f"root text {i}\nletter to {i} text 1\nreceive {i}\n" for i in range(16))
    some = lambda: rnd.choice([f"write {rnd.randrange(16)} text {rnd.getrandbits(32)}", f"read {rnd.randrange(16)}",
                               f"send {rnd.randrange(16)} to {rnd.randrange(16)} text 1", f"lose {rnd.randrange(600)}",
                               f"receive {rnd.randrange(600)}", f"done {rnd.randrange(16)}", f"fail {rnd.randrange(16)}"])
    steps = db.one("SELECT ledger_pack(?)", text + "".join(some() + "\n" for _ in range(5000)))[0]
    now, replies = image, b""
    for at in range(0, len(steps), 3000 // 8 * 8):
        part = steps[at : at + 3000 // 8 * 8]
        replies += db.one("SELECT ledger_replies(?, ?)", now, part)[0]
        now = db.one("SELECT ledger_run(?, ?)", now, part)[0]
    done.equal("a long list's image", db.one("SELECT ledger_run(?, ?)", image, steps)[0], now)
    done.equal("a long list's replies", db.one("SELECT ledger_replies(?, ?)", image, steps)[0], replies)
    rows = db.rows("SELECT packed_reply FROM ledger_play(?, ?) ORDER BY place", image, steps)
    done.equal("a long list played", b"".join(r[0] for r in rows), replies)
    short = db.one("SELECT ledger_thin(?, ?)", image, steps)[0]
    done.holds("a shorter list", 0 < len(short) < len(steps))
    done.equal("a shorter list's image", db.one("SELECT ledger_run(?, ?)", image, short)[0], now)
    done.holds("no refused step in it", max(db.one("SELECT ledger_replies(?, ?)", image, short)[0][::8]) < 20)
    done.equal("a long text", db.one("SELECT ledger_pack(ledger_text(?))", steps)[0], steps)


def huge(db, done, image):
    size = 64 << 20
    done.refused("a huge image", 16, lambda: db.one("SELECT ledger_run(?, ?)", bytes(size), b""))
    done.refused("a huge old image", 16, lambda: db.one("SELECT ledger_forward(?)", bytes(size)))
    done.refused("a huge list of replies", 17, lambda: db.one("SELECT * FROM ledger_worst_window(?, 4)", bytes(size)))
    roots = bytes(8 << 20)  # a million roots
    replies = db.one("SELECT ledger_replies(?, ?)", image, roots)[0]
    done.equal("a million roots", (replies[:8], replies[128], set(replies[128::8])), (bytes(8), 25, {25}))
    done.wrong("a text of a megabyte with a fault at its end", ": expected a kind of step",
               lambda: db.one("SELECT ledger_pack(?)", "read 0\n" * 150000 + "x"))
    done.equal("a comment of a megabyte", db.one("SELECT ledger_pack(?)", "#" * (1 << 20))[0], b"")
    done.equal("an empty text", db.one("SELECT ledger_pack(''), ledger_text(?), ledger_reply_text(?, ?)", b"", b"", b""), (b"", "", ""))


def encodings(done):
    """A database that keeps its texts in UTF-16: the same answers."""
    for encoding in ("UTF-16le", "UTF-16be"):
        db = sql.Sqlite()
        db.rows(f"PRAGMA encoding = '{encoding}'")
        db.rows("CREATE TABLE kept(t TEXT)")
        db.rows("INSERT INTO kept VALUES ('root text 7 # Zeugin Müller')")
        done.equal(encoding, db.one("PRAGMA encoding")[0], encoding)
        done.equal("packed", db.one("SELECT ledger_pack(t) FROM kept")[0], bytes(7) + b"\7")
        done.equal("text", db.one("SELECT ledger_text(ledger_pack(t)) FROM kept")[0], "root text 7\n")
        done.equal("hex", db.one("SELECT ledger_hex('é')")[0], "c3a9")
        import hashlib
        done.equal("sum", db.one("SELECT ledger_sha256('Müller')")[0], hashlib.sha256("Müller".encode()).digest())


def main():
    db, done = sql.database(sys.argv[1]), sql.Counted()
    image = db.one("SELECT ledger_begin()")[0]
    steps = db.one("SELECT ledger_pack(?)", SESSION)[0]
    done.equal("version", db.one("SELECT ledger_version()")[0].count("."), 2)
    done.equal("a fresh image", image, bytes([0, 0, 0, 0, 16, 32, 15, 0]) + bytes(sql.IMAGE - 8))
    done.equal("small limits", db.one("SELECT ledger_begin(4, 8, 2)")[0], bytes([0, 0, 0, 0, 4, 8, 2, 0]) + bytes(sql.IMAGE - 8))
    session(db, done, steps, image)
    opened = db.one("SELECT ledger_run(?, ?)", image, steps[:16])[0]
    old = db.one("SELECT ledger_back(?)", opened)[0]
    vanished(db, done)
    nulls(db, done, opened, old)
    types(db, done, opened, old)
    refusals(db, done, opened, steps)
    clauses(db, done, opened)
    long_lists(db, done, image)
    if not os.environ.get("SMALL"):
        huge(db, done, image)
    if db.name == "sqlite":
        encodings(done)
    done.end()


if __name__ == "__main__":
    main()
