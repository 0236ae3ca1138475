"""Step lists, replies, refusals and images as text, in the library's words (docs/NOTATION.md)."""
import ctypes
from typing import Any, List

from ._native import calls
from .packed import STEP, Reply, Step, Steps, packed, unpacked

LINE = 256
LINES = 1330


class Refused(Exception):
    """A call that the ledger refused; nothing has changed. `number` is 16 to 35, `text` says it."""

    def __init__(self, number: int):
        self.number = number
        self.text = refusal_text(number)
        super().__init__(f"refused {number}: {self.text}")

    def __reduce__(self) -> Any:
        return Refused, (self.number,)


class Fault(ValueError):
    """A text that is no list of steps: the place of its first fault, and what was expected there."""

    def __init__(self, line: int, column: int, expected: str):
        self.line, self.column, self.expected = line, column, expected
        super().__init__(f"line {line}, column {column}: expected {expected}")

    def __reduce__(self) -> Any:
        return Fault, (self.line, self.column, self.expected)


def accepted(refusal: int) -> None:
    """Raises Refused unless the number is 0."""
    if refusal:
        raise Refused(refusal)


def _given(name: str, *arguments: Any, room: int = LINE) -> str:
    out = ctypes.create_string_buffer(max(room, 1))
    given = calls[name](*arguments, out, room)
    accepted(given.refusal)
    return out.raw[: given.length].decode("utf-8", "replace")


def refusal_text(number: int) -> str:
    """The words of a refusal, 16 to 35; empty for another number."""
    return _given("notation_refusal_text", number) if 0 <= number < 256 else ""


def parse(text: str) -> List[Step]:
    """The steps that a text says, as "root text 7\\nletter to 0 text 5\\n". Raises Fault."""
    given = text.encode("utf-8")
    room = STEP * (given.count(b"\n") + 1)
    out = ctypes.create_string_buffer(room)
    line, column, expected = ctypes.c_size_t(), ctypes.c_size_t(), ctypes.c_uint8()
    count = calls["notation_parse"](
        given, len(given), out, room, ctypes.byref(line), ctypes.byref(column), ctypes.byref(expected)
    )
    if expected.value:
        raise Fault(line.value, column.value, _given("notation_expected_text", expected.value))
    return unpacked(out.raw[: STEP * count])


def text_of(steps: Steps) -> str:
    """The canonical text of a list of any length: a step a line."""
    whole = packed(steps)
    if len(whole) % STEP:
        raise ValueError(f"a list is whole steps of {STEP} bytes, not {len(whole)} bytes")
    return "".join(_given("notation_step", whole, len(whole), i) for i in range(len(whole) // STEP))


def reply_text(step: Step, reply: Reply) -> str:
    """What the ledger replied to this step, in words."""
    return _given("notation_reply", bytes(step), STEP, bytes(reply), STEP, 0)


def image_text(image: bytes) -> str:
    """An image in words, line by line."""
    return "".join(_given("notation_image", image, len(image), n) for n in range(LINES))
