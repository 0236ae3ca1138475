"""The conformance kit through the classes of this package."""
import hashlib
import json
import os
from pathlib import Path

import pytest

import take_ledger
from take_ledger import Refused, Session

FOLDER = os.environ.get("TAKE_LEDGER_VECTORS") or Path(__file__).parents[3] / "conformance" / "vectors"
VECTORS = sorted(Path(FOLDER).glob("*.json"))
OLD = {"forward": take_ledger.OLD_IMAGE}


def words(text, length=None):
    whole = b"".join(bytes.fromhex(word.ljust(16, "0")) for word in text.split())
    return whole if length is None else whole[:length].ljust(length, b"\0")


def sparse(stretches, length):
    whole = bytearray(length)
    for at, digits in stretches:
        part = bytes.fromhex(digits)
        whole[at : at + len(part)] = part
    return bytes(whole)


def image_of(file, test, size=take_ledger.IMAGE):
    given = test.get("image", [])
    if isinstance(given, str):
        given = file["images"][given]["bytes"]
    length = test.get("length", size)
    return (sparse(given + test.get("change", []), size) + bytes(length))[:length]


def same_image(test, image):
    if "after" in test:
        assert image == sparse(test["after"], len(image))
    if "sha256" in test:
        assert hashlib.sha256(image).hexdigest() == test["sha256"]


def run(file, test):
    steps = words(test["list"], test.get("list_length"))
    start, end = test.get("start", 0), test.get("end", len(steps))
    if start > end or end > len(steps) or test.get("room", end - start) != end - start or end - start > 8192:
        pytest.skip("a part that no Python list has")
    session = Session.from_image(image_of(file, test)) if "image" in test else Session(*test["limits"])
    replies = session.run(steps[start:end])
    assert b"".join(map(bytes, replies)) == words(test["replies"])
    same_image(test, session.image)


def thin(file, test):
    steps = words(test["list"], test.get("list_length"))
    start, end = test.get("start", 0), test.get("end", len(steps))
    if start > end or end > len(steps) or test.get("room", end - start) != end - start:
        pytest.skip("a part that no Python list has")
    kept = take_ledger.packed(Session.from_image(image_of(file, test)).thin(steps[start:end]))
    assert len(kept) == 8 * test["answer"] and kept.ljust(end - start, b"\0") == words(test["out"], end - start)


def plan(file, test):
    if test.get("room", 392) != 392:
        pytest.skip("the method lends the bytes itself")
    steps = take_ledger.packed(Session.from_image(image_of(file, test)).plan(test["take"]))
    assert len(steps) == 8 * test["answer"] and steps == words(test["out"], len(steps))


def independent(file, test):
    if test.get("lengths", [8, 8]) != [8, 8]:
        pytest.skip("a Step has eight bytes")
    first, second = take_ledger.unpacked(words(test["list"]))
    assert Session.from_image(image_of(file, test)).independent(first, second) is test["answer"]


def begin(file, test):
    if test.get("length", take_ledger.IMAGE) != take_ledger.IMAGE:
        pytest.skip("the class makes the image itself")
    same_image(test, Session(*test["limits"]).image)


def convert(file, test):
    forward = test["call"] == "forward"
    if test["target_length"] != (take_ledger.IMAGE if forward else take_ledger.OLD_IMAGE):
        pytest.skip("the function makes the target itself")
    source = image_of(file, test, OLD.get(test["call"], take_ledger.IMAGE))
    same_image(test, (take_ledger.forward if forward else take_ledger.back)(source))


def window(file, test):
    whole = words(test["list"], test["list_length"])
    if len(whole) % 8:
        pytest.skip("replies are whole")
    assert list(take_ledger.worst_window(take_ledger.replies_of(whole), test["width"])) == test["answer"]


def play(file, test):
    steps = words(test["list"], test.get("list_length"))
    if test.get("room", len(steps)) != len(steps):
        pytest.skip("the function lends the replies itself")
    assert b"".join(map(bytes, take_ledger.play(steps, *test["limits"]))) == words(test["replies"])


def actor(file, test):
    if test.get("list_length", 8) != 8:
        pytest.skip("a Step has eight bytes")
    a = Session.from_image(image_of(file, test)).actor(*take_ledger.unpacked(words(test["list"])))
    assert [("nobody", "house", "take", "volume").index(a.kind), bits(a.takes)] == test["answer"]


def fault(file, test):
    """The function gives byte and clause beside 19, and raises 16 alone."""
    found = take_ledger.fault(image_of(file, test))
    assert list(found or (0, 0)) == test["answer"] and (found is not None) == (test["refusal"] == 19)


def bits(takes):
    return take_ledger.volume(takes or ())


QUERIES = {
    "offer": lambda s, t: s.offer(t["take"]),
    "smallest_volume": lambda s, t: bits(s.smallest_volume(t["take"])) or None,
    "ready_count": lambda s, t: s.ready_count(t["size"]),
    "all_heard_frozen": lambda s, t: int(s.all_heard_frozen(t["take"])),
}


def show(session, test):
    """The kit gives offset and length in the image, the class the bytes there."""
    offset, length = test["answer"]
    shown = session.show(test["parcel"])
    return [offset if shown == session.image[offset : offset + length] else -1, len(shown)]


def dependents(session, test):
    d = session.dependents(test["take"])
    return [bits(d.resting), bits(d.through), bits(d.unfinished), d.carried]


def obstacle(session, test):
    v = test["volume"]
    o = session.obstacle([t for t in range(64) if v >> t & 1])
    return [("nothing", "not frozen", "outside", "withdrawn").index(o.kind), o.take, o.ground]


def impediment(session, test):
    o = session.impediment(test["take"])
    return [("nothing", "hopeless", "exhausted", "not frozen").index(o.kind), o.take, o.ground, o.next]


QUERIES.update(show=show, dependents=dependents, obstacle=obstacle, impediment=impediment)
CHECKS = {"run": run, "thin": thin, "plan": plan, "independent": independent, "begin": begin, "forward": convert, "back": convert,
          "worst_window": window, "play": play, "actor": actor, "fault": fault}


def query(file, test):
    answer = QUERIES[test["call"]](Session.from_image(image_of(file, test)), test)
    assert answer == test["answer"]


def cases():
    assert VECTORS, f"no vectors in {FOLDER}"
    for path in VECTORS:
        file = json.loads(path.read_text(encoding="utf-8"))
        for test in file["tests"]:
            yield pytest.param(file, test, id=f"{file['subject']}-{test['number']}")


@pytest.mark.parametrize("file, test", cases())
def test_kit(file, test):
    check = CHECKS.get(test["call"], query)
    if test["refusal"] and (test["call"], test["refusal"]) != ("fault", 19):
        with pytest.raises(Refused) as refused:
            check(file, test)
        assert refused.value.number == test["refusal"]
    else:
        check(file, test)
