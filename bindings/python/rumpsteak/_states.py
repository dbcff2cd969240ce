"""What a role may do next, and the values of messages."""

from typing import List, NamedTuple, Optional, Sequence, Tuple, Union

from ._library import BOOL, BYTES, INT, KINDS, LIST, NAT, UNIT, Handle, state_of

# What may be sent. A str goes as its bytes in UTF-8.
Sendable = Union[None, bool, int, bytes, bytearray, memoryview, str, Sequence[int]]
# What is received: None, a bool, an int, bytes, or a list of numbers.
Value = Union[None, bool, int, bytes, List[int]]


class Arm(NamedTuple):
    """A message that a state may send or receive: its label, and the sort of its value (unit, bool, nat, int, bytes or list)."""

    label: str
    sort: str

    def __str__(self) -> str:
        return "%s(%s)" % (self.label, "" if self.sort == "unit" else self.sort)


class State(NamedTuple):
    """What a role does next: `direction` is sends, receives or ended; the peer and the arms say with whom and what.

    It prints as the machines of a text are written: Sink!{copy(bytes), stop()}, Source?{item(nat)} or end.
    """

    direction: str
    peer: Optional[str]
    arms: Tuple[Arm, ...]

    @property
    def sends(self) -> bool:
        return self.direction == "sends"

    @property
    def receives(self) -> bool:
        return self.direction == "receives"

    @property
    def ended(self) -> bool:
        return self.direction == "ended"

    def __str__(self) -> str:
        if self.ended:
            return "end"
        return "%s%s{%s}" % (self.peer, "!" if self.sends else "?", ", ".join(map(str, self.arms)))


_DIRECTIONS = {1: "sends", 2: "receives"}


def state_at(handle: Handle, prefix: str, roles: Sequence[str], labels: Sequence[str]) -> Optional[State]:
    """The state behind the handle; None if the handle is closed."""
    found = state_of(handle, prefix)
    if found is None:
        return None
    direction, peer, arms = found
    if direction not in _DIRECTIONS:
        return State("ended", None, ())
    return State(_DIRECTIONS[direction], roles[peer], tuple(Arm(labels[label], KINDS[kind]) for label, kind in arms))


def kind_of(value: Sendable) -> int:
    """The kind of a value. An int that isn't below 0 is a nat, which may go where an int is wanted."""
    if value is None:
        return UNIT
    if isinstance(value, bool):
        return BOOL
    if isinstance(value, int):
        if not -(2**63) <= value < 2**63:
            raise OverflowError("a number of a message is from -2**63 to 2**63 - 1")
        return NAT if value >= 0 else INT
    if isinstance(value, (bytes, bytearray, memoryview, str)):
        return BYTES
    return LIST


def bytes_of(value: Union[bytes, bytearray, memoryview, str]) -> bytes:
    return value.encode() if isinstance(value, str) else bytes(value)
