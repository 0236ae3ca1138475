"""The proved library, loaded by ctypes, and what each of its functions takes and gives.

The library is looked for in this order: the file that the environment variable TAKE_LEDGER_LIBRARY
names; a file beside this package, which is what the wheel has; the system's own.
"""
import ctypes
import ctypes.util
import os
from pathlib import Path
from typing import Any, Callable, Dict, List, Tuple

NAME = "libtake-ledger.so"
SYSTEM_NAME = "libtake-ledger.so.4"

_size, _byte, _word = ctypes.c_size_t, ctypes.c_uint8, ctypes.c_uint16
_buffer = ctypes.c_void_p
_lent_byte, _lent_size = ctypes.POINTER(ctypes.c_uint8), ctypes.POINTER(ctypes.c_size_t)
_BUFFER = [_buffer, _size]


def _structure(**fields: Any) -> type:
    return type("Answer", (ctypes.Structure,), {"_fields_": list(fields.items())})


PART = _structure(offset=_size, length=_size)
WINDOW = _structure(count=_size, place=_size)
DEPENDENTS = _structure(resting=_word, through=_word, unfinished=_word, carried=_word)
OBSTACLE = _structure(kind=_byte, take=_byte, ground=_byte)
IMPEDIMENT = _structure(kind=_byte, take=_byte, ground=_byte, next=_byte)
ACTING = _structure(kind=_size, takes=_size)
DECISION = _structure(outcome=_size, take=_size)
COMPARISON = _structure(relation=_byte, newer=_byte)
FIELD = _structure(kind=_byte, holder=_byte, map=_byte, ground=_byte, entry=_byte, byte=_byte)
GIVEN = _structure(length=_size, refusal=_byte)

_ASKED = _BUFFER + [_size, _lent_byte]

# name: (what it gives, what it takes), as include/*.h declare them
FUNCTIONS: Dict[str, Tuple[Any, List[Any]]] = {
    "ledger_version": (ctypes.c_uint32, []),
    "ledger_begin": (_byte, _BUFFER + [_size] * 3),
    "ledger_run": (_byte, _BUFFER * 2 + [_size] * 2 + _BUFFER),
    "ledger_offer": (_word, _ASKED),
    "ledger_show": (PART, _ASKED),
    "ledger_smallest_group": (_word, _ASKED),
    "ledger_ready_count": (_size, _ASKED),
    "ledger_all_heard_stable": (_byte, _ASKED),
    "ledger_dependents": (DEPENDENTS, _ASKED),
    "ledger_obstacle": (OBSTACLE, _ASKED),
    "ledger_impediment": (IMPEDIMENT, _ASKED),
    "ledger_plan": (_size, _BUFFER + [_size] + _BUFFER + [_lent_byte]),
    "ledger_actor": (ACTING, _BUFFER * 2 + [_lent_byte]),
    "ledger_fault": (_byte, _BUFFER + [_lent_size, _lent_byte]),
    "ledger_thin": (_size, _BUFFER * 2 + [_size] * 2 + _BUFFER + [_lent_byte]),
    "ledger_forward": (_byte, _BUFFER * 2),
    "ledger_back": (_byte, _BUFFER * 2),
    "ledger_worst_window": (WINDOW, _ASKED),
    "engine_play": (_byte, _BUFFER * 2 + [_size] * 3),
    "looking_decision": (DECISION, _ASKED),
    "looking_compare": (COMPARISON, _BUFFER * 2 + [_lent_byte]),
    "looking_field": (FIELD, [_size]),
    "looking_independent": (_byte, _BUFFER * 3 + [_lent_byte]),
    "notation_parse": (_size, _BUFFER * 2 + [_lent_size] * 2 + [_lent_byte]),
    "notation_expected_text": (GIVEN, [_byte] + _BUFFER),
    "notation_refusal_text": (GIVEN, [_byte] + _BUFFER),
    "notation_length": (GIVEN, _BUFFER),
    "notation_print": (GIVEN, _BUFFER * 2),
    "notation_step": (GIVEN, _BUFFER + [_size] + _BUFFER),
    "notation_reply": (GIVEN, _BUFFER * 2 + [_size] + _BUFFER),
    "notation_image": (GIVEN, _BUFFER + [_size] + _BUFFER),
}


def _candidates() -> List[str]:
    named = os.environ.get("TAKE_LEDGER_LIBRARY")
    if named:
        return [named]
    beside = Path(__file__).with_name(NAME)
    return ([str(beside)] if beside.exists() else []) + [SYSTEM_NAME]


def _load() -> ctypes.CDLL:
    reasons = []
    for path in _candidates():
        try:
            return ctypes.CDLL(path)
        except OSError as error:
            reasons.append(f"{path}: {error}")
    raise ImportError(
        "the take ledger's library was not found. Install the package libtake-ledger4, or let "
        "TAKE_LEDGER_LIBRARY name the file. Tried: " + "; ".join(reasons)
    )


_library = _load()


def _function(name: str) -> Any:
    try:
        function: Any = getattr(_library, name)
    except AttributeError:
        raise ImportError(f"{_library._name} has no {name}: it is another version") from None
    function.restype, function.argtypes = FUNCTIONS[name]
    return function


calls: Dict[str, Callable[..., Any]] = {name: _function(name) for name in FUNCTIONS}
