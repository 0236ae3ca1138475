#!/usr/bin/env python3
"""Runs the kit on a shared object that has the functions of include/ledger.h and looking_independent of include/looking.h, or with
--engine that of include/engine.h.

    runner.py [--engine] [--first] LIBRARY FILE ..

An engine has no images: it is asked for the replies to whole lists from a fresh session alone, and the other tests are skipped. With
--first the first difference is the last.
"""
import ctypes
import hashlib
import json
import sys

IMAGE, OLD, PLAN, BLANK = 42616, 22132, 392, 0xA5
KINDS = "root letter receive new send read write freeze done fall fail lose sign 13 14 15".split()


def structure(of, *names):
    return type("Answer", (ctypes.Structure,), {"_fields_": [(name, of) for name in names]})


size, byte, word, place = ctypes.c_size_t, ctypes.c_uint8, ctypes.c_uint16, ctypes.POINTER(ctypes.c_uint8)
BUFFER = [place, size]
CALLS = {  # by the documents' names: the function, what it gives, its arguments before the lent number
    "begin": ("ledger_begin", byte, BUFFER + [size] * 3),
    "run": ("ledger_run", byte, BUFFER * 2 + [size] * 2 + BUFFER),
    "offer": ("ledger_offer", word, BUFFER + [size, place]),
    "smallest_volume": ("ledger_smallest_group", word, BUFFER + [size, place]),
    "ready_count": ("ledger_ready_count", size, BUFFER + [size, place]),
    "all_heard_frozen": ("ledger_all_heard_stable", byte, BUFFER + [size, place]),
    "dependents": ("ledger_dependents", structure(word, "resting", "through", "unfinished", "carried"), BUFFER + [size, place]),
    "obstacle": ("ledger_obstacle", structure(byte, "kind", "take", "ground"), BUFFER + [size, place]),
    "impediment": ("ledger_impediment", structure(byte, "kind", "take", "ground", "next"), BUFFER + [size, place]),
    "plan": ("ledger_plan", size, BUFFER + [size] + BUFFER + [place]),
    "independent": ("looking_independent", byte, BUFFER * 3 + [place]),
    "actor": ("ledger_actor", structure(size, "kind", "takes"), BUFFER * 2 + [place]),
    "fault": ("ledger_fault", byte, BUFFER + [ctypes.POINTER(size), place]),
    "show": ("ledger_show", structure(size, "offset", "length"), BUFFER + [size, place]),
    "thin": ("ledger_thin", size, BUFFER * 2 + [size] * 2 + BUFFER + [place]),
    "forward": ("ledger_forward", byte, BUFFER * 2),
    "back": ("ledger_back", byte, BUFFER * 2),
    "worst_window": ("ledger_worst_window", structure(size, "count", "place"), BUFFER + [size, place]),
    "play": ("engine_play", byte, BUFFER * 2 + [size] * 3),
}
NONE = {"offer": 65535, "smallest_volume": 0}


class Library:
    def __init__(self, path, engine):
        shared = ctypes.CDLL(path)
        self.functions = {}
        for call, (name, gives, takes) in CALLS.items():
            function = getattr(shared, name, None)
            if function and (call == "play") == engine:
                function.restype, function.argtypes = gives, takes
                self.functions[call] = function

    def __call__(self, call, *arguments):
        """Buffers are bytearrays, which are written back; the lent number is a list of one."""
        passed, lent = [], []
        for a in arguments:
            if isinstance(a, (bytearray, list)):
                whole = (byte * max(len(a), 1))(*a) if isinstance(a, list) else (byte * max(len(a), 1)).from_buffer_copy(a or b"\0")
                lent.append((a, whole))
                passed += [whole] if isinstance(a, list) else [whole, len(a)]
            else:
                passed.append(a)
        answer = self.functions[call](*passed)
        for a, whole in lent:
            a[:] = bytes(whole)[: len(a)]
        return [getattr(answer, name) for name, _ in answer._fields_] if isinstance(answer, ctypes.Structure) else answer


def words(text, length=None):
    """Steps or replies: words of hexadecimal digits, without the zeros at their end; zeros behind the list up to the length."""
    whole = b"".join(bytes.fromhex(w.ljust(16, "0")) for w in text.split())
    length = len(whole) if length is None else length
    return bytearray(whole[:length].ljust(length, b"\0"))


def image_of(file, test, size=IMAGE):
    """The image of a test with its changed bytes, cut off at its length or with zeros behind."""
    given = test.get("image", [])
    if isinstance(given, str):
        given = file["images"][given]["bytes"]
    length = test.get("length", size)
    return (sparse(given + test.get("change", []), size) + bytes(length))[:length]


def sparse(stretches, length):
    whole = bytearray(length)
    for at, digits in stretches:
        part = bytes.fromhex(digits)
        whole[at : at + len(part)] = part
    return whole


def field(at, length):
    """Which field of an image a byte is in."""
    mark, start = (17, 4) if length == OLD else (33, 8)
    take, parcel = 9 + 48 * mark, 7 + 16 * mark
    if at < start:
        return ["takes opened", "next number", "next number", "zero byte", "limit of takes", "limit of parcels", "limit of signings", "zero byte"][at]
    t, within = divmod(at - start, take)
    if t < 16:
        if within < 9:
            return f"take {t}, " + ("status" if within == 0 else "text" if within < 5 else "saved text")
        k, within = divmod(within - 9, mark)
        return f"take {t}, {('state', 'creation', 'behaviour')[k // 16]} map, mark of take {k % 16}, {part_of_mark(within, mark)}"
    p, within = divmod(at - start - 16 * take, parcel)
    if within < 7:
        return f"parcel place {p}, " + ("head" if within == 0 else "number" if within < 3 else "text")
    u, within = divmod(within - 7, mark)
    return f"parcel place {p}, mark of take {u}, {part_of_mark(within, mark)}"


def part_of_mark(within, mark):
    number = (within - 1) // (2 if mark == 33 else 1)
    return "head" if within == 0 else "n" if number == 0 else f"entry {number} of the list"


def differs_bytes(what, got, expected):
    if got == expected:
        return []
    at = next((i for i, (a, b) in enumerate(zip(got, expected)) if a != b), min(len(got), len(expected)))
    return [f"{what}: byte {at} ({field(at, len(expected))}) is {got[at]}, not {expected[at]}"]


def differs_replies(steps, got, expected):
    for i in range(0, len(expected), 8):
        a, b = got[i : i + 8], expected[i : i + 8]
        if a != b:
            told = lambda r: f"{r[0]} take {r[1]} parcel {r[2] << 8 | r[3]} text {int.from_bytes(r[4:], 'big')}"
            return [f"step {i // 8 + 1}, {KINDS[steps[i] >> 4]}, {steps[i : i + 8].hex()}: replies {told(a)}, not {told(b)}"]
    return []


def differs_image(test, image):
    found = differs_bytes("image", image, sparse(test["after"], len(image))) if "after" in test else []
    if not found and "sha256" in test and hashlib.sha256(image).hexdigest() != test["sha256"]:
        found = ["image: another SHA-256"]
    return found


def differs_answer(name, got, expected):
    return [] if got == expected else [f"{name} is {got}, not {expected}"]


def untouched(what, got, before):
    return [] if got == before else [f"{what} changed by a refused call"]


def check_run(library, file, test):
    image = image_of(file, test)
    if "image" not in test and library("begin", image, *test["limits"]):
        return ["begin is refused"]
    before, steps = bytearray(image), words(test["list"], test.get("list_length"))
    start, end = test.get("start", 0), test.get("end", len(steps))
    replies = bytearray([BLANK] * test.get("room", end - start))
    blank = bytearray(replies)
    refusal = library("run", image, steps, start, end, replies)
    found = differs_answer("refusal", refusal, test["refusal"])
    if found or refusal:
        return found + untouched("image", image, before) + untouched("replies", replies, blank)
    found = differs_replies(steps[start:end], replies, words(test["replies"])) + differs_image(test, image)
    return found + differs_along(library, test, steps) if "along" in test else found


def differs_along(library, test, steps):
    """The same list in parts of 128 steps: the first part after which the image differs."""
    image, replies = bytearray(IMAGE), bytearray(1024)
    library("begin", image, *test["limits"])
    for k, expected in enumerate(test["along"]):
        refusal = library("run", image, steps, 1024 * k, 1024 * k + 1024, replies)
        if refusal or hashlib.sha256(image).hexdigest() != expected:
            return [f"run in parts: another image after one of the steps {128 * k + 1} to {128 * k + 128}"]
    return []


def check_begin(library, file, test):
    image = image_of(file, test)
    before = bytearray(image)
    refusal = library("begin", image, *test["limits"])
    found = differs_answer("refusal", refusal, test["refusal"])
    return found + (untouched("image", image, before) if refusal else differs_image(test, image))


def check_query(library, file, test):
    call, lent = test["call"], [BLANK]
    of = next(test[key] for key in ("take", "size", "parcel", "volume") if key in test)
    image = image_of(file, test)
    before = bytearray(image)
    answer = library(call, image, of, lent)
    expected = NONE[call] if test["answer"] is None else test["answer"]
    found = differs_answer("refusal", lent[0], test["refusal"]) + differs_answer("answer", answer, expected)
    return found + untouched("image", image, before)


def check_plan(library, file, test):
    image, lent = image_of(file, test), [BLANK]
    before, out = bytearray(image), bytearray([BLANK] * test.get("room", PLAN))
    blank = bytearray(out)
    answer = library("plan", image, test["take"], out, lent)
    found = differs_answer("refusal", lent[0], test["refusal"]) + differs_answer("answer", answer, test["answer"]) + untouched("image", image, before)
    if found or lent[0]:
        return found + untouched("out", out, blank)
    return differs_answer("the plan", out.hex(), words(test["out"], len(out)).hex())


def check_independent(library, file, test):
    image, lent, steps = image_of(file, test), [BLANK], words(test["list"])
    before = bytearray(image)
    first, second = ((steps[at : at + 8] + bytes(8))[:length] for at, length in zip((0, 8), test.get("lengths", [8, 8])))
    answer = library("independent", image, first, second, lent)
    found = differs_answer("refusal", lent[0], test["refusal"]) + differs_answer("answer", answer, int(test["answer"]))
    return found + untouched("image", image, before)


def check_actor(library, file, test):
    image, lent, step = image_of(file, test), [BLANK], words(test["list"], test.get("list_length"))
    before = bytearray(image)
    answer = library("actor", image, step, lent)
    found = differs_answer("refusal", lent[0], test["refusal"]) + differs_answer("answer", answer, test["answer"])
    return found + untouched("image", image, before)


def check_fault(library, file, test):
    image, at, clause = image_of(file, test), size(BLANK), [BLANK]
    before = bytearray(image)
    refusal = library("fault", image, ctypes.byref(at), clause)
    found = differs_answer("refusal", refusal, test["refusal"]) + differs_answer("answer", [at.value, clause[0]], test["answer"])
    return found + untouched("image", image, before)


def check_thin(library, file, test):
    image = image_of(file, test)
    before, steps, lent = bytearray(image), words(test["list"], test.get("list_length")), [BLANK]
    start, end = test.get("start", 0), test.get("end", len(steps))
    out = bytearray([BLANK] * test.get("room", end - start))
    blank = bytearray(out)
    answer = library("thin", image, steps, start, end, out, lent)
    found = differs_answer("refusal", lent[0], test["refusal"]) + differs_answer("answer", answer, test["answer"]) + untouched("image", image, before)
    if found or lent[0]:
        return found + untouched("out", out, blank)
    return differs_answer("the short list", out, words(test["out"], len(out)))


def check_convert(library, file, test):
    call = test["call"]
    source = image_of(file, test, OLD if call == "forward" else IMAGE)
    before, target = bytearray(source), bytearray([BLANK] * test["target_length"])
    blank = bytearray(target)
    refusal = library(call, source, target)
    found = differs_answer("refusal", refusal, test["refusal"]) + untouched("source", source, before)
    return found + (untouched("target", target, blank) if refusal else differs_image(test, target))


def check_window(library, file, test):
    lent = [BLANK]
    answer = library("worst_window", words(test["list"], test["list_length"]), test["width"], lent)
    return differs_answer("refusal", lent[0], test["refusal"]) + differs_answer("answer", answer, test["answer"])


def check_play(library, file, test):
    steps = words(test["list"], test.get("list_length"))
    replies = bytearray([BLANK] * test.get("room", len(steps)))
    blank = bytearray(replies)
    refusal = library("play", steps, replies, *test["limits"])
    found = differs_answer("refusal", refusal, test["refusal"])
    return found + (untouched("replies", replies, blank) if refusal else differs_replies(steps, replies, words(test["replies"])))


CHECKS = {"begin": check_begin, "run": check_run, "plan": check_plan, "independent": check_independent, "actor": check_actor, "fault": check_fault, "thin": check_thin, "forward": check_convert, "back": check_convert, "worst_window": check_window}


def check(library, engine, file, test):
    """What differs; None where there is nothing to ask this library."""
    call = test["call"]
    if engine:
        return check_play(library, file, test) if call == "play" or call == "run" and "image" not in test else None
    return CHECKS.get(call, check_query)(library, file, test) if call in library.functions else None


def results(library, engine, names):
    """Of each test its file, itself, and what differs."""
    for name in names:
        with open(name, encoding="utf-8") as opened:
            file = json.load(opened)
        if file["version"] != 1:
            sys.exit(f"{name}: version {file['version']}")
        for test in file["tests"]:
            yield file, test, check(library, engine, file, test)


def main(arguments):
    options = [a for a in arguments if a.startswith("--")]
    engine, first = "--engine" in options, "--first" in options
    path, *names = arguments[len(options) :]
    passed, failed, skipped = 0, 0, []
    for file, test, found in results(Library(path, engine), engine, names):
        passed, failed = passed + (found == []), failed + bool(found)
        skipped += [test["call"]] if found is None else []
        if found:
            print(f"{file['subject']} {test['number']}: {test['comment']}", *found, sep="\n    ")
        if found and first:
            break
    if skipped:
        print(f"{len(skipped)} skipped, which it does not have: {', '.join(sorted(set(skipped)))}")
    print(f"{passed} passed, {failed} failed")
    return 1 if failed or not passed else 0


if __name__ == "__main__":
    if len(sys.argv) < 3:
        sys.exit(__doc__)
    sys.exit(main(sys.argv[1:]))
