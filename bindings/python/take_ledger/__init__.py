"""The take ledger for Python: the proved library, and no rule of its own.

    >>> from take_ledger import Session, Step
    >>> hearing = Session()
    >>> [reply.word for reply in hearing.run([Step.root(text=7), Step.letter(to=0, text=5)])]
    ['done', 'done']
    >>> hearing.offer(0)
    0

The words are those of docs/RULES.md. A refused call raises Refused and changes nothing; a refused
step is a Reply, and the list goes on.
"""
from .packed import KINDS, OUTCOMES, Reply, Step, packed, replies_of, takes_of, unpacked, volume
from .session import (
    IMAGE, OLD_IMAGE, Actor, Decision, Dependents, Impediment, Obstacle, Session,
    back, compare, fault, forward, play, version, worst_window,
)
from .text import Fault, Refused, image_text, parse, refusal_text, reply_text, text_of

__version__ = "4.0.0"

__all__ = [
    "IMAGE", "KINDS", "OLD_IMAGE", "OUTCOMES", "Actor", "Decision", "Dependents", "Fault",
    "Impediment", "Obstacle", "Refused", "Reply", "Session", "Step", "back", "compare", "fault", "forward",
    "image_text", "packed", "parse", "play", "refusal_text", "replies_of", "reply_text",
    "takes_of", "text_of", "unpacked", "version", "volume", "worst_window",
]
