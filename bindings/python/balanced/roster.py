"""Rosters: which nodes of a store are present, as nodes leave and return."""
from __future__ import annotations

from collections.abc import Iterable
from typing import TYPE_CHECKING

from .calls import call
from .plan import Plan
from .sizes import MAX_NODES

if TYPE_CHECKING:
    from _typeshed import ReadableBuffer

ROSTER_LEN = 256


class Roster:
    """Which nodes of a plan are present: those whose last event is a return, and those that no event names.

    `Roster.start(plan)` has all n nodes present. `bytes(roster)` are 256 bytes to keep, in a file say, and
    `Roster(plan, kept)` is the roster that was kept. In the place of a plan its record will do. A refused event leaves the
    roster as it was. A roster is for one thread at a time.

    >>> roster = Roster.start([1, 7, 3, 6, 3])
    >>> roster.leave(0)
    >>> roster.leave(3)
    >>> roster
    Roster(present=[1, 2, 4, 5], job=0)
    >>> roster.lowest()
    [1, 2, 4]
    >>> roster.leave(3)
    Traceback (most recent call last):
    balanced.errors.AlreadyError: already (15): the node already is what the event says: absent, or present
    >>> Roster(roster.plan, bytes(roster)) == roster
    True
    """

    def __init__(self, plan: Plan | Iterable[int], kept: ReadableBuffer) -> None:
        self.plan = plan if isinstance(plan, Plan) else Plan(plan)
        self._bytes = bytearray(memoryview(kept))
        self.lowest()  # bytes of another length are no roster: the call is turned away

    @classmethod
    def start(cls, plan: Plan | Iterable[int]) -> Roster:
        """The roster with all n nodes present."""
        plan = plan if isinstance(plan, Plan) else Plan(plan)
        roster = bytearray(ROSTER_LEN)
        call("roster_start", plan.record, roster)
        return cls(plan, roster)

    def leave(self, node: int) -> None:
        """A node leaves."""
        call("roster_leave", self.plan.record, self._bytes, node)

    def rejoin(self, node: int) -> None:
        """A node returns."""
        call("roster_rejoin", self.plan.record, self._bytes, node)

    def lowest(self) -> list[int] | None:
        """The k lowest present nodes, rising, which `Plan.recover` and `Plan.rebuild` take. None where fewer are present."""
        nodes = bytearray(self.plan.k)
        (enough,) = call("roster_lowest", self.plan.record, self._bytes, nodes)
        return list(nodes) if enough else None

    def next_job(self) -> list[int] | None:
        """The k nodes that the next rebuild job reads, each present node in its turn. None where fewer are present.

        >>> roster = Roster.start([1, 7, 3, 6, 3])
        >>> roster.leave(4)
        >>> [roster.next_job() for _ in range(3)]
        [[0, 1, 2], [3, 5, 0], [1, 2, 3]]
        """
        nodes = bytearray(self.plan.k)
        (enough,) = call("roster_job", self.plan.record, self._bytes, nodes)
        return list(nodes) if enough else None

    @property
    def job(self) -> int:
        """The number of the next job."""
        return self._bytes[MAX_NODES]

    def present(self) -> list[int]:
        """All present nodes, rising."""
        return [node for node in range(self.plan.n) if self._bytes[node]]

    def __bytes__(self) -> bytes:
        return bytes(self._bytes)

    def __eq__(self, other: object) -> bool:
        return isinstance(other, Roster) and (self.plan.record, self._bytes) == (other.plan.record, other._bytes)

    __hash__ = None  # type: ignore[assignment]

    def __repr__(self) -> str:
        return f"Roster(present={self.present()}, job={self.job})"
