"""Monitors, for programs that have queues of their own."""

import threading
from ctypes import byref
from types import TracebackType
from typing import Optional, Tuple, Type

from ._answers import Closed, Refused, RumpsteakError, bytes_of_text, refusal, with_text_first
from ._library import CALLS, CLOSED, FINE, KINDS, NAT, NO_MEMORY, UNKNOWN, Handle, names_of, number_at, status_text
from ._states import Sendable, State, kind_of, state_at

_NUMBERS = range(-(2**63), 2**63)

_REASONS = {
    22: "unknown name",
    32: "another peer",
    33: "state receives",
    34: "state sends",
    35: "no such label",
    36: "another sort",
    37: "has ended",
}


def _own_kind(value: Sendable) -> int:
    """The kind of a value that the program's own queue carries: nothing converts it on its way, as a session does."""
    if isinstance(value, str):
        raise TypeError("a queue of your own carries the str itself, which is no value of a message: encode it where bytes are wanted, and give an int where a number is")
    if value is not None and not isinstance(value, (int, bytes, bytearray, memoryview)):
        if not isinstance(value, (list, tuple)) or not all(type(each) is int and each in _NUMBERS for each in value):
            raise TypeError("a message has no value, or a bool, an int, bytes, or a list of ints from -2**63 to 2**63 - 1")
    return kind_of(value)


class Departure(RumpsteakError):
    """An act that the role's machine doesn't have in its state. `reason` is the first of these that applies: unknown name, has ended, another
    peer, state receives, state sends, no such label, another sort. `state` is what the role may do."""

    def __init__(self, reason: str, state: State, text: str) -> None:
        super().__init__(text)
        self.reason = reason
        self.state = state


class Monitor:
    """Watches one role's program, which sends and receives over queues of its own: queue.Queue, asyncio.Queue, sockets, a broker.

    The program calls `sent` before each message that it puts into a queue, and `received` after each that it took from one. An act that the
    machine doesn't have raises Departure, and changes nothing. If all programs go through their monitors, and there is one queue for each
    ordered pair of roles, which neither loses nor reorders messages and holds at least `room` of them, then what `check` promises of the
    machines holds of the programs. The text is accepted as by Session. A monitor that was closed raises Closed.

    >>> camera = Monitor("roles A, B protocol A->B:hello(nat). B->A:done(). end", "A")
    >>> camera.sent("B", "hello", 7)
    >>> camera.sent("B", "hello", 7)
    Traceback (most recent call last):
    rumpsteak.Departure: A can't send hello(nat) to B now: its state is B?{done()}
    """

    def __init__(self, text: str, role: str) -> None:
        self._handle = Handle()
        with_text_first(text, role)
        data, name, left = bytes_of_text(text), role.encode(), Handle()
        status = CALLS["monitor_open"](data, len(data), name, len(name), byref(self._handle), byref(left))
        if status == UNKNOWN:
            raise Refused(3, "the text has no role %s\n" % role)
        if status != FINE:
            raise refusal(status, left)
        self._lock = threading.Lock()
        self.role = role
        self.roles: Tuple[str, ...] = names_of(self._handle, "monitor_role_name")
        self.labels: Tuple[str, ...] = names_of(self._handle, "monitor_label_name")
        self.room: int = number_at(self._handle, "monitor_room") or 0
        self._role_numbers = {name: number for number, name in enumerate(self.roles)}
        self._label_numbers = {name: number for number, name in enumerate(self.labels)}

    @property
    def state(self) -> State:
        """What the program may do next."""
        with self._lock:
            found = state_at(self._handle, "monitor_", self.roles, self.labels)
        if found is None:
            raise self._closed()
        return found

    @property
    def has_ended(self) -> bool:
        return self.state.ended

    @property
    def acts(self) -> int:
        """How many acts were let through."""
        with self._lock:
            found = number_at(self._handle, "monitor_acts")
        if found is None:
            raise self._closed()
        return found

    def may_send(self, peer: str, label: str, value: Sendable = None) -> bool:
        """Whether the program may send this message now; nothing changes."""
        return self._judge("may_send", peer, label, value) == FINE

    def sent(self, peer: str, label: str, value: Sendable = None) -> None:
        """Lets a send through: call it before the message goes into the queue. The value is what the queue will carry: bytes and no str,
        and a list of ints alone. Of another type it raises TypeError."""
        self._must("sent", peer, label, value)

    def received(self, peer: str, label: str, value: Sendable = None) -> None:
        """Reports a message that was taken from the queue from that peer."""
        self._must("received", peer, label, value)

    def close(self) -> None:
        """Frees the monitor."""
        with self._lock:
            CALLS["monitor_close"](byref(self._handle))

    def __enter__(self) -> "Monitor":
        return self

    def __exit__(self, kind: Optional[Type[BaseException]], error: Optional[BaseException], trace: Optional[TracebackType]) -> None:
        self.close()

    def __del__(self) -> None:
        CALLS["monitor_close"](byref(self._handle))

    def _closed(self) -> Closed:
        return Closed("the monitor of %s is closed" % self.role)

    def _judge(self, call: str, peer: str, label: str, value: Sendable) -> int:
        role, number, kind = self._role_numbers.get(peer), self._label_numbers.get(label), _own_kind(value)
        if role is None or number is None:
            return UNKNOWN
        with self._lock:
            status = CALLS["monitor_" + call](byref(self._handle), role, number, kind, value if kind == NAT else 0)
        if status == CLOSED:
            raise self._closed()
        if status == NO_MEMORY:
            raise MemoryError(status_text(NO_MEMORY))
        return status

    def _must(self, call: str, peer: str, label: str, value: Sendable) -> None:
        status = self._judge(call, peer, label, value)
        if status != FINE:
            sort, state = KINDS[kind_of(value)], self.state
            act = "%s(%s)" % (label, "" if sort == "unit" else sort)
            act = "send %s to %s" % (act, peer) if call == "sent" else "receive %s from %s" % (act, peer)
            now = ": the text has no such role or label;" if status == UNKNOWN else " now:"
            raise Departure(_REASONS[status], state, "%s can't %s%s its state is %s" % (self.role, act, now, state))
