"""A session of the ledger, and the calls that need none. Every answer is the library's."""
import ctypes
import threading
from dataclasses import dataclass
from typing import Any, FrozenSet, Iterable, List, Optional, Tuple

from ._native import calls
from .packed import STEP, Reply, Step, Steps, packed, replies_of, takes_of, unpacked, whole_number
from .text import accepted, image_text

IMAGE = 42616
OLD_IMAGE = 22132
MARK = 33
PLAN = 392
LONGEST = 8192
NO_PARCEL = 65535
ILL_FORMED = 19

OBSTACLES = ("nothing", "not frozen", "outside", "withdrawn")
IMPEDIMENTS = ("nothing", "hopeless", "exhausted", "not frozen")
ACTORS = ("nobody", "house", "take", "volume")
RELATIONS = (
    "same life", "left signed", "right signed", "left withdrawn", "right withdrawn", "unrelated",
)


@dataclass(frozen=True)
class Dependents:
    """What rests on the present life of a take. Ask before you withdraw it."""

    resting: FrozenSet[int]
    """the takes that hold the life in state or creation, itself among them"""
    through: FrozenSet[int]
    """those, whoever rests on one of those, and so on"""
    unfinished: FrozenSet[int]
    """the takes at work on what has the life"""
    carried: int
    """how many waiting parcels carry it"""


@dataclass(frozen=True)
class Obstacle:
    """Why a volume can't be signed: nothing, not frozen, outside or withdrawn."""

    kind: str
    take: int
    ground: int


@dataclass(frozen=True)
class Impediment:
    """Why no volume with a take could be signed: nothing, hopeless, exhausted or not frozen."""

    kind: str
    take: int
    ground: int
    next: int
    """the next take on the chain to the one in the way: ask about it to go on"""


@dataclass(frozen=True)
class Actor:
    """For whom a step acts: nobody, the house, a take, or all takes of a volume."""

    kind: str
    takes: FrozenSet[int]


@dataclass(frozen=True)
class Decision:
    """What a receipt would do: outcome 0, 2, 3 or 4, and the take whose marks decide."""

    outcome: int
    take: int


def _number(number: int) -> int:
    return whole_number(number, 1 << 64, "a number that is handed over")


def _lent() -> Any:
    return ctypes.c_uint8()


class Session:
    """A session: an image of 42,616 bytes, and the calls on it.

    `Session()` begins a fresh one. A refused call raises Refused and changes nothing; a refused
    step is a reply, and the list goes on. A session may be used by several threads at once, and
    can be pickled and compared.
    """

    def __init__(self, takes: int = 16, parcels: int = 32, signings: int = 15):
        image = ctypes.create_string_buffer(IMAGE)
        limits = (_number(takes), _number(parcels), _number(signings))
        accepted(calls["ledger_begin"](image, IMAGE, *limits))
        self._set(image.raw)

    def _set(self, image: bytes) -> None:
        self._image = image
        self._lock = threading.Lock()

    @classmethod
    def from_image(cls, image: bytes) -> "Session":
        """The session that was stored as this image; refused with 16 or 19 where a run would be."""
        session = cls.__new__(cls)
        session._set(bytes(image))
        session.run(b"")
        return session

    @property
    def image(self) -> bytes:
        """The image's bytes: all there is to store."""
        return self._image

    def copy(self) -> "Session":
        """Another session with the same image, to try steps on."""
        return Session.from_image(self._image)

    def __getstate__(self) -> bytes:
        return self._image

    def __setstate__(self, image: bytes) -> None:
        self._set(image)
        self.run(b"")

    def __eq__(self, other: object) -> bool:
        return isinstance(other, Session) and self._image == other._image

    __hash__ = None  # type: ignore[assignment]

    def __str__(self) -> str:
        return image_text(self._image)

    # ---- steps

    def run(self, steps: Steps) -> List[Reply]:
        """Runs a list of any number of steps and gives a reply for each.

        Steps are Step, any iterable of them, or packed bytes. A list that is not whole steps is
        refused with 17 before the first is run.
        """
        whole = packed(steps)
        with self._lock:
            self._image, replies = _run(self._image, whole)
        return replies_of(replies)

    def thin(self, steps: Steps) -> List[Step]:
        """The list without refused steps and unused reads, at most 1,024 steps. The session stays."""
        whole, refusal = packed(steps), _lent()
        out = ctypes.create_string_buffer(max(len(whole), 1))
        count = calls["ledger_thin"](
            self._image, len(self._image), whole, len(whole), 0, len(whole), out, len(whole), refusal
        )
        accepted(refusal.value)
        return unpacked(out.raw[: STEP * count])

    # ---- questions

    def _ask(self, name: str, of: int) -> Any:
        refusal = _lent()
        answer = calls[name](self._image, len(self._image), _number(of), refusal)
        accepted(refusal.value)
        return answer

    def offer(self, take: int) -> Optional[int]:
        """The waiting parcel for the take with the lowest number, or None."""
        parcel = self._ask("ledger_offer", take)
        return None if parcel == NO_PARCEL else parcel

    def show(self, parcel: int) -> bytes:
        """The 528 bytes of the waiting parcel's map."""
        part = self._ask("ledger_show", parcel)
        return self._image[part.offset : part.offset + part.length]

    def smallest_volume(self, take: int) -> Optional[FrozenSet[int]]:
        """The smallest volume with the take that could be signed now, or None."""
        return takes_of(self._ask("ledger_smallest_group", take)) or None

    def ready_count(self, size: int) -> int:
        """How many volumes of just so many takes could be signed now."""
        return int(self._ask("ledger_ready_count", size))

    def all_heard_frozen(self, take: int) -> bool:
        """Whether every other mark in the take's state and creation maps is frozen."""
        return bool(self._ask("ledger_all_heard_stable", take))

    def dependents(self, take: int) -> Dependents:
        """What a withdrawal of the take would reach."""
        d = self._ask("ledger_dependents", take)
        return Dependents(takes_of(d.resting), takes_of(d.through), takes_of(d.unfinished), d.carried)

    def obstacle(self, takes: Iterable[int]) -> Obstacle:
        """Why this volume can't be signed now."""
        members = {whole_number(t, 1 << 16, "a take of the volume") for t in takes}
        named = sum(1 << min(t, 16) for t in members)
        o = self._ask("ledger_obstacle", named)
        return Obstacle(OBSTACLES[o.kind], o.take, o.ground)

    def impediment(self, take: int) -> Impediment:
        """Why no volume with the take could be signed now."""
        o = self._ask("ledger_impediment", take)
        return Impediment(IMPEDIMENTS[o.kind], o.take, o.ground, o.next)

    def plan(self, take: int) -> List[Step]:
        """The steps after which the take is signed; none if it can't be, or letters have no room."""
        out, refusal = ctypes.create_string_buffer(PLAN), _lent()
        count = calls["ledger_plan"](self._image, len(self._image), _number(take), out, PLAN, refusal)
        accepted(refusal.value)
        return unpacked(out.raw[: STEP * count])

    def actor(self, step: Step) -> Actor:
        """For whom the step would act now: ask it before you let somebody run it."""
        one, refusal = bytes(step), _lent()
        a = calls["ledger_actor"](self._image, len(self._image), one, len(one), refusal)
        accepted(refusal.value)
        return Actor(ACTORS[a.kind], takes_of(a.takes))

    def decide(self, parcel: int) -> Decision:
        """What the receipt of the waiting parcel would do now; nothing is received."""
        d = self._ask("looking_decision", parcel)
        return Decision(d.outcome, d.take)

    def independent(self, first: Step, second: Step) -> bool:
        """Whether these two steps may change places here: same image, same reply to each."""
        a, b, refusal = bytes(first), bytes(second), _lent()
        answer = calls["looking_independent"](
            self._image, len(self._image), a, len(a), b, len(b), refusal
        )
        accepted(refusal.value)
        return bool(answer)


def _run(image: bytes, steps: bytes) -> Tuple[bytes, bytes]:
    """Image and replies after the steps, in runs of at most 1,024; refused, both are dropped."""
    written = ctypes.create_string_buffer(image, max(len(image), 1))
    replies = ctypes.create_string_buffer(max(len(steps), 1))
    for start in range(0, max(len(steps), 1), LONGEST):
        end = min(start + LONGEST, len(steps))
        room = ctypes.byref(replies, start)
        accepted(
            calls["ledger_run"](
                written, len(image), steps, len(steps), start, end, room, end - start
            )
        )
    return written.raw[: len(image)], replies.raw[: len(steps)]


def _converted(name: str, source: bytes, length: int) -> bytes:
    target = ctypes.create_string_buffer(length)
    accepted(calls[name](source, len(source), target, length))
    return target.raw


def forward(image: bytes) -> bytes:
    """An image of the old form, 22,132 bytes, in the form of today."""
    return _converted("ledger_forward", bytes(image), IMAGE)


def back(image: bytes) -> bytes:
    """An image in the old form; refused with 32 where it has no room there."""
    return _converted("ledger_back", bytes(image), OLD_IMAGE)


def worst_window(replies: Iterable[Reply], width: int) -> Tuple[int, int]:
    """Of all windows of so many replies the greatest count of outcomes 3 and 4, and its place."""
    whole, refusal = b"".join(bytes(reply) for reply in replies), _lent()
    w = calls["ledger_worst_window"](whole, len(whole), _number(width), refusal)
    accepted(refusal.value)
    return w.count, w.place


def play(steps: Steps, takes: int = 16, parcels: int = 32, signings: int = 15) -> List[Reply]:
    """The replies to at most 1,024 steps from a fresh session, by the engine without maps."""
    whole = packed(steps)
    replies = ctypes.create_string_buffer(max(len(whole), 1))
    limits = (_number(takes), _number(parcels), _number(signings))
    accepted(calls["engine_play"](whole, len(whole), replies, len(whole), *limits))
    return replies_of(replies.raw[: len(whole)])


def compare(left: bytes, right: bytes) -> Tuple[str, str]:
    """Two packed marks of one take: how their lives are related, and which a join keeps."""
    a, b, refusal = bytes(left), bytes(right), _lent()
    c = calls["looking_compare"](a, len(a), b, len(b), refusal)
    accepted(refusal.value)
    return RELATIONS[c.relation], ("left", "right")[c.newer]


def fault(image: bytes) -> Optional[Tuple[int, int]]:
    """Where an image fails the form: the byte, and the clause of docs/RULES.md, section 8; or None.

    Refused with 16 where it has another length.
    """
    given, at, clause = bytes(image), ctypes.c_size_t(), _lent()
    refusal = calls["ledger_fault"](given, len(given), at, clause)
    if refusal == ILL_FORMED:
        return at.value, clause.value
    accepted(refusal)
    return None


def version() -> str:
    """The version of the library, as 4.0.0."""
    number = calls["ledger_version"]()
    return f"{number >> 16}.{number >> 8 & 255}.{number & 255}"
