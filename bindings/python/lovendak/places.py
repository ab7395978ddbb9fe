"""Where references lead."""
from enum import IntEnum
from typing import NamedTuple, Optional

from .library import Led


class Place(IntEnum):
    """To what a reference leads:

    - OWN: an object of this application.
    - OWN_PROMISE: a promise of this application that is not settled.
    - OWN_CALL: the results of a call to this application that did not end.
    - IMPORT: what the peer exports by an id.
    - ANSWER: what stands in the results of a question to the peer.
    - BROKEN: nothing; each call fails."""

    __module__ = "lovendak"
    OWN = 1
    OWN_PROMISE = 2
    OWN_CALL = 3
    IMPORT = 4
    ANSWER = 5
    BROKEN = 6


class Broken(IntEnum):
    """Why a reference leads nowhere: it stands for null, there is something else than a capability, or its promise was broken."""

    __module__ = "lovendak"
    NULL = 1
    NOT_A_CAPABILITY = 2
    PROMISE = 3


class Lead(NamedTuple):
    """Where calls through a reference go. Two references that lead to one import lead to one object of the peer.

    `number` is the object of OWN, the id of IMPORT and the question of ANSWER; `is_promise` says of IMPORT whether it is a promise that no
    Resolve has settled yet, and `reason` of BROKEN why. If `is_embargoed`, calls wait under an embargo before."""

    place: Place
    number: Optional[int] = None
    is_promise: bool = False
    is_embargoed: bool = False
    reason: Optional[Broken] = None


Lead.__module__ = "lovendak"


class TableSizes(NamedTuple):
    """How many questions, answers, exports and imports there are between a vat and its peer, each at most 4,096."""

    questions: int
    answers: int
    exports: int
    imports: int


TableSizes.__module__ = "lovendak"


def lead_of(led: Led) -> Lead:
    """What the library said."""
    place = Place(led.kind)
    number = led.number if place in (Place.OWN, Place.IMPORT, Place.ANSWER) else None
    reason = Broken(led.reason) if place is Place.BROKEN else None
    return Lead(place, number, led.is_promise == 1, led.is_embargoed == 1, reason)
