"""Steps, replies and volumes as bytes and back: the format alone, no rule (docs/RULES.md, 6)."""
import operator
from dataclasses import dataclass
from typing import FrozenSet, Iterable, Iterator, List, Union

STEP = 8
KINDS = (
    "root", "letter", "receive", "new", "send", "read", "write",
    "freeze", "done", "fall", "fail", "lose", "sign",
)
OUTCOMES = ("done", "held", "dropped", "fallen back", "vanished", "not ready")


def whole_number(number: int, below: int, what: str) -> int:
    """The number itself, where it is a whole number from 0 on that fits; else TypeError, ValueError."""
    if isinstance(number, bool):
        raise TypeError(f"{what} must be a number, not {number!r}")
    number = operator.index(number)
    if not 0 <= number < below:
        raise ValueError(f"{what} must be 0 to {below - 1}, not {number}")
    return number


def _take(number: int, what: str = "the take") -> int:
    return whole_number(number, 16, what)


def _parcel(number: int) -> int:
    return whole_number(number, 1 << 16, "the parcel")


def _text(number: int) -> int:
    return whole_number(number, 1 << 32, "the text")


def volume(takes: Iterable[int]) -> int:
    """The takes as one number, in which take t counts 2^t."""
    if isinstance(takes, (str, bytes)):
        raise TypeError("a volume is takes by their numbers, as {0, 3}")
    return sum(1 << t for t in {_take(t, "a take of the volume") for t in takes})


def takes_of(volume: int) -> FrozenSet[int]:
    """The takes of a volume that is given as a number."""
    return frozenset(t for t in range(16) if volume >> t & 1)


@dataclass(frozen=True)
class Step:
    """A step of the ledger. Make one by its kind, as Step.send(0, to=1, text=9).

    The constructor itself takes any fields that fit, also those that the ledger refuses with 20.
    """

    kind: int
    take: int = 0
    other: int = 0
    zero: int = 0
    parcel: int = 0
    text: int = 0

    def __post_init__(self) -> None:
        for what in ("kind", "take", "other", "zero"):
            whole_number(getattr(self, what), 16, what)
        _parcel(self.parcel)
        _text(self.text)

    @staticmethod
    def root(text: int) -> "Step":
        """Opens a take with this text."""
        return Step(0, text=_text(text))

    @staticmethod
    def letter(to: int, text: int) -> "Step":
        """A parcel from outside."""
        return Step(1, take=_take(to, "the addressee"), text=_text(text))

    @staticmethod
    def receive(parcel: int) -> "Step":
        """The addressee receives the parcel with this number."""
        return Step(2, parcel=_parcel(parcel))

    @staticmethod
    def new(take: int, text: int) -> "Step":
        """The take opens a child with this text."""
        return Step(3, take=_take(take), text=_text(text))

    @staticmethod
    def send(take: int, to: int, text: int) -> "Step":
        """The take sends a parcel."""
        return Step(4, take=_take(take), other=_take(to, "the addressee"), text=_text(text))

    @staticmethod
    def read(take: int) -> "Step":
        return Step(5, take=_take(take))

    @staticmethod
    def write(take: int, text: int) -> "Step":
        return Step(6, take=_take(take), text=_text(text))

    @staticmethod
    def freeze(take: int) -> "Step":
        return Step(7, take=_take(take))

    @staticmethod
    def done(take: int) -> "Step":
        return Step(8, take=_take(take))

    @staticmethod
    def fall(take: int) -> "Step":
        return Step(9, take=_take(take))

    @staticmethod
    def fail(take: int) -> "Step":
        return Step(10, take=_take(take))

    @staticmethod
    def lose(parcel: int) -> "Step":
        """The parcel with this number is lost."""
        return Step(11, parcel=_parcel(parcel))

    @staticmethod
    def sign(takes: Iterable[int]) -> "Step":
        """Signs the volume of these takes, as Step.sign({0, 3})."""
        return Step(12, parcel=volume(takes))

    def __str__(self) -> str:
        """The step's line of the notation, as `send 0 to 1 text 9`."""
        from .text import text_of  # the library's words, which need the library

        return text_of(self).rstrip("\n")

    def __bytes__(self) -> bytes:
        head = bytes([self.kind << 4 | self.take, self.other << 4 | self.zero])
        return head + self.parcel.to_bytes(2, "big") + self.text.to_bytes(4, "big")

    @staticmethod
    def unpack(packed: bytes) -> "Step":
        """The step that these eight bytes are."""
        if len(packed) != STEP:
            raise ValueError(f"a step is {STEP} bytes, not {len(packed)}")
        return Step(
            packed[0] >> 4, packed[0] & 15, packed[1] >> 4, packed[1] & 15,
            int.from_bytes(packed[2:4], "big"), int.from_bytes(packed[4:], "big"),
        )


@dataclass(frozen=True)
class Reply:
    """What the ledger replied to a step: an outcome 0 to 5, or a refusal 20 to 31."""

    outcome: int
    take: int = 0
    parcel: int = 0
    text: int = 0

    @property
    def refused(self) -> bool:
        """Whether the outcome is a refusal; then nothing has changed."""
        return self.outcome >= len(OUTCOMES)

    @property
    def word(self) -> str:
        """The outcome in the documents' word, or `refused N`."""
        return f"refused {self.outcome}" if self.refused else OUTCOMES[self.outcome]

    def __bytes__(self) -> bytes:
        return bytes([self.outcome, self.take]) + self.parcel.to_bytes(2, "big") + self.text.to_bytes(4, "big")

    @staticmethod
    def unpack(packed: bytes) -> "Reply":
        """The reply that these eight bytes are."""
        if len(packed) != STEP:
            raise ValueError(f"a reply is {STEP} bytes, not {len(packed)}")
        return Reply(packed[0], packed[1], int.from_bytes(packed[2:4], "big"), int.from_bytes(packed[4:], "big"))


Steps = Union[bytes, bytearray, memoryview, Step, Iterable[Step]]


def packed(steps: Steps) -> bytes:
    """Steps as bytes; bytes are passed on as they are."""
    if isinstance(steps, (bytes, bytearray, memoryview)):
        return bytes(steps)
    if isinstance(steps, Step):
        return bytes(steps)
    if isinstance(steps, str):
        raise TypeError("steps are bytes or Step; take_ledger.parse reads them from a text")
    return b"".join(_packed_one(step) for step in steps)


def _packed_one(step: Step) -> bytes:
    if not isinstance(step, Step):
        raise TypeError(f"a step must be a Step, not {type(step).__name__}")
    return bytes(step)


def _pieces(whole: bytes) -> Iterator[bytes]:
    return (whole[at : at + STEP] for at in range(0, len(whole), STEP))


def unpacked(steps: bytes) -> List[Step]:
    """The steps that these bytes are."""
    return [Step.unpack(piece) for piece in _pieces(steps)]


def replies_of(whole: bytes) -> List[Reply]:
    """The replies that these bytes are."""
    return [Reply.unpack(piece) for piece in _pieces(whole)]
