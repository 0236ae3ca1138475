"""The conformance kit's vectors through SQL: kit.py sqlite|postgres [FOLDER OF VECTORS]. A test is left out where SQL can't say it: a list's
part that is not inside it, room for replies, an image that begin is lent, a number past 63 bits."""
import collections
import glob
import json
import os
import sys

import sql

sys.path.insert(0, os.path.join(sql.ROOT, "conformance"))
from runner import differs_image, image_of, words  # noqa: E402

OVER_TAKES = {"offer", "smallest_volume", "all_heard_frozen", "dependents", "impediment"}
SCALAR = {"offer": "ledger_offer", "smallest_volume": "ledger_smallest", "ready_count": "ledger_ready_count",
          "all_heard_frozen": "ledger_all_heard_frozen", "show": "ledger_show"}
ROW = {"dependents": "resting, through, unfinished, carried FROM ledger_dependents(?, ?)",
       "obstacle": "kind, take, ground FROM ledger_obstacle(?, ?)",
       "impediment": "kind, in_the_way, ground, next FROM ledger_impediment(?, ?)"}
LEFT_OUT = "left out"


def answered(ask):
    """The refusal, or 0, and the answer."""
    try:
        return 0, ask()
    except sql.Refused as refused:
        return refused.number, None


def part_of(test):
    """The steps that a test runs, or None where SQL can't say them."""
    steps = words(test["list"], test.get("list_length"))
    start, end = test.get("start", 0), test.get("end", len(steps))
    inside = 0 <= start <= end <= len(steps) and end - start <= 8192
    return bytes(steps[start:end]) if inside and test.get("room", end - start) == end - start else None


def begun(db, file, test):
    return bytes(image_of(file, test)) if "image" in test else db.one("SELECT ledger_begin(?, ?, ?)", *test["limits"])[0]


def check_begin(db, file, test):
    if test.get("length", sql.IMAGE) != sql.IMAGE or max(test["limits"]) >= 1 << 63:
        return LEFT_OUT
    refusal, row = answered(lambda: db.one("SELECT ledger_begin(?, ?, ?)", *test["limits"]))
    return [f"refusal {refusal}"] if refusal != test["refusal"] else [] if refusal else differs_image(test, row[0])


def check_run(db, file, test):
    part = part_of(test)
    if part is None:
        return LEFT_OUT
    image = begun(db, file, test)
    refusal, row = answered(lambda: db.one("SELECT ledger_run(?, ?), ledger_replies(?, ?)", image, part, image, part))
    if refusal or test["refusal"]:
        return [] if refusal == test["refusal"] else [f"refusal {refusal}"]
    rows = db.rows("SELECT packed_reply FROM ledger_play(?, ?) ORDER BY place", image, part)
    found = [] if row[1] == words(test["replies"]) else ["other replies"]
    found += [] if b"".join(r[0] for r in rows) == row[1] else ["ledger_play: other replies"]
    return found + differs_image(test, row[0])


def check_query(db, file, test):
    call = test["call"]
    asked = next(test[key] for key in ("take", "size", "parcel", "volume") if key in test)
    if asked >= 1 << 63:
        return LEFT_OUT
    image = bytes(image_of(file, test))
    if call in SCALAR:
        refusal, row = answered(lambda: db.one(f"SELECT {SCALAR[call]}(?, ?)", image, asked))
    else:
        refusal, row = answered(lambda: db.one(f"SELECT {ROW[call]}", image, asked))
    absent = call in OVER_TAKES and test["refusal"] in (21, 22) or call == "show" and test["refusal"] == 24
    if absent:  # no error in SQL, but NULL
        return [] if refusal == 0 and set(row) == {None} else [f"{refusal} {row}"]
    if refusal or test["refusal"]:
        return [] if refusal == test["refusal"] else [f"refusal {refusal}"]
    return compared(call, image, row, test["answer"])


def compared(call, image, row, expected):
    if call == "show":
        offset, length = expected
        got, expected = row[0], image[offset : offset + length]
    else:
        got = list(row) if isinstance(expected, list) else row[0]
        got = int(got) if isinstance(got, bool) else got
    return [] if got == expected else [f"answer {got!r:.100}, not {expected!r:.100}"]


def check_thin(db, file, test):
    part = part_of(test)
    if part is None:
        return LEFT_OUT
    refusal, row = answered(lambda: db.one("SELECT ledger_thin(?, ?)", bytes(image_of(file, test)), part))
    if refusal or test["refusal"]:
        return [] if refusal == test["refusal"] else [f"refusal {refusal}"]
    return [] if row[0] == words(test["out"], 8 * test["answer"]) else ["another list"]


def check_plan(db, file, test):
    if test.get("room", 392) != 392:
        return LEFT_OUT
    refusal, rows = answered(lambda: db.rows("SELECT packed FROM ledger_plan(?, ?) ORDER BY place", bytes(image_of(file, test)), test["take"]))
    if test["refusal"] in (21, 22):  # no error in SQL, but no rows
        return [] if refusal == 0 and rows == [] else [f"{refusal} {rows}"]
    if refusal or test["refusal"]:
        return [] if refusal == test["refusal"] else [f"refusal {refusal}"]
    return [] if b"".join(r[0] for r in rows) == words(test["out"], 8 * test["answer"]) else ["another plan"]


def check_independent(db, file, test):
    steps, lengths = bytes(words(test["list"])), test.get("lengths", [8, 8])
    first, second = ((steps[at : at + 8] + bytes(8))[:length] for at, length in zip((0, 8), lengths))
    refusal, row = answered(lambda: db.one("SELECT ledger_independent(?, ?, ?)", bytes(image_of(file, test)), first, second))
    if refusal or test["refusal"]:
        return [] if refusal == test["refusal"] else [f"refusal {refusal}"]
    return [] if bool(row[0]) == test["answer"] else [f"answer {row[0]}"]


def check_convert(db, file, test):
    call = test["call"]
    if test["target_length"] != (sql.IMAGE if call == "forward" else sql.OLD):
        return LEFT_OUT
    source = bytes(image_of(file, test, sql.OLD if call == "forward" else sql.IMAGE))
    refusal, row = answered(lambda: db.one(f"SELECT ledger_{call}(?)", source))
    return [f"refusal {refusal}"] if refusal != test["refusal"] else [] if refusal else differs_image(test, row[0])


def check_window(db, file, test):
    if test["width"] >= 1 << 63:
        return LEFT_OUT
    replies = bytes(words(test["list"], test["list_length"]))
    refusal, row = answered(lambda: db.one("SELECT count, place FROM ledger_worst_window(?, ?)", replies, test["width"]))
    return [f"refusal {refusal}"] if refusal != test["refusal"] else [] if refusal or list(row) == test["answer"] else [f"{row}"]


CHECKS = {"begin": check_begin, "run": check_run, "thin": check_thin, "plan": check_plan, "independent": check_independent,
          "forward": check_convert, "back": check_convert,
          "worst_window": check_window, **dict.fromkeys([*SCALAR, *ROW], check_query)}


def main():
    db, done = sql.database(sys.argv[1]), sql.Counted()
    left = collections.Counter()
    folder = (sys.argv[2:] or [os.path.join(sql.ROOT, "conformance/vectors")])[0]
    for name in sorted(glob.glob(os.path.join(folder, "*.json"))):
        with open(name, encoding="utf-8") as opened:
            file = json.load(opened)
        for test in file["tests"]:
            found = CHECKS[test["call"]](db, file, test) if test["call"] in CHECKS else LEFT_OUT
            if found == LEFT_OUT:
                left[test["call"]] += 1
            else:
                done.holds(f"{file['subject']} {test['number']}: {test['comment']}: {found}", not found)
    print("left out, which SQL can't say or has not:", ", ".join(f"{call} {n}" for call, n in sorted(left.items())))
    done.end()


if __name__ == "__main__":
    main()
