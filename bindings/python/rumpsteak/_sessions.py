"""Sessions that run in this process, by threads or by tasks of asyncio."""

import asyncio
import ctypes
import threading
import time
import warnings
from ctypes import byref, c_int64, c_size_t
from types import TracebackType
from typing import Dict, Iterable, Iterator, List, NamedTuple, Optional, Tuple, Type

from ._answers import Closed, RumpsteakError, bytes_of_text, refusal
from ._library import (BOOL, BYTES, CALLS, CLOSED, EMPTY, FINE, FULL, GONE, HANDED_OUT, INT, KINDS, LIST, NAT, NO_MEMORY, UNIT, Handle, RawMessage,
                       names_of, number_at, status_text)
from ._states import Sendable, State, Value, bytes_of, kind_of, state_at

_SPINS = 20
_LONGEST_PAUSE = 0.001


class NotNow(RumpsteakError):
    """The role's state has no such act: another direction, label or sort, or the role has ended. Nothing was sent or received."""


class Gone(RumpsteakError):
    """Nothing has come and nothing will: the peer's endpoint was closed."""


class Message(NamedTuple):
    """A message that was received."""

    label: str
    value: Value


class Session:
    """A session that was accepted and has begun: a lock-free queue for each ordered pair of roles, and an endpoint for each role.

    `capacity` is the number of messages that each queue holds, 1 to 1,024. Without it, it is the session's room (1,024 at most), so that no
    role waits for ever because a queue is full.

    If the text has a derivation of each role, as `certify` makes them, these are tested, and nothing is searched. Raises Refused if the text
    isn't accepted, with the words of `explain`, or with those of `verify` if one of the text's own derivations is at fault.

    >>> with Session("roles A, B protocol A->B:hello(nat). end") as session:
    ...     a, b = session.endpoint("A"), session.endpoint("B")
    >>> a.send("hello", 7)
    >>> b.receive()
    Message(label='hello', value=7)
    """

    def __init__(self, text: str, capacity: Optional[int] = None) -> None:
        self._handle = Handle()
        if capacity is not None and not 1 <= capacity <= 1024:
            raise ValueError("a queue holds 1 to 1,024 messages")
        data, left = bytes_of_text(text), Handle()
        status = CALLS["open"](data, len(data), capacity or 0, byref(self._handle), byref(left))
        if status != FINE:
            raise refusal(status, left)
        self._lock = threading.Lock()
        self.roles: Tuple[str, ...] = names_of(self._handle, "role_name")
        self.labels: Tuple[str, ...] = names_of(self._handle, "label_name")
        self.room: int = number_at(self._handle, "room") or 0

    def endpoint(self, role: str) -> "Endpoint":
        """The endpoint of the role, once. It lives on when the session is closed."""
        if role not in self.roles:
            raise KeyError("the text has no role %s" % role)
        handle = Handle()
        with self._lock:
            status = CALLS["endpoint_of"](byref(self._handle), self.roles.index(role), byref(handle))
        if status == NO_MEMORY:
            raise MemoryError(status_text(NO_MEMORY))
        if status == HANDED_OUT:
            raise RumpsteakError("%s: %s" % (role, status_text(HANDED_OUT)))
        if status != FINE:
            raise Closed("the session is closed")
        return Endpoint(handle, role, self.roles, self.labels)

    def endpoints(self) -> "Dict[str, Endpoint]":
        """The endpoints of all roles, by name."""
        return {role: self.endpoint(role) for role in self.roles}

    def close(self) -> None:
        """Frees the session; endpoints that weren't handed out are given up."""
        CALLS["close"](byref(self._handle))

    def __enter__(self) -> "Session":
        return self

    def __exit__(self, kind: Optional[Type[BaseException]], error: Optional[BaseException], trace: Optional[TracebackType]) -> None:
        self.close()

    def __del__(self) -> None:
        self.close()


class Endpoint:
    """A role of a session: it sends and receives what the role's state allows, and each act leads to the role's next state.

    No endpoint ever finds a message that its state has no case for. As long as each thread goes on to do what its endpoint's state says, and
    no endpoint is closed before its role has ended, some role can always act until all have ended.

    A closed endpoint gives its role up. What it sent can still be received; then who receives from it gets the exception Gone, and who
    sends to it waits for ever once the queue is full (so give a timeout, or use try_send, if peers may fail). The closed endpoint itself has
    no state any more: it raises Closed.

    One thread uses an endpoint at a time. An endpoint closes itself at the end of a `with` block, or when nothing refers to it. If the block
    ends without an exception before the role has ended, a RuntimeWarning says what the role still had to do.
    """

    def __init__(self, handle: Handle, role: str, roles: Tuple[str, ...], labels: Tuple[str, ...]) -> None:
        self._handle, self._lock = handle, threading.Lock()
        self.role, self._roles, self._labels = role, roles, labels
        self._numbers = {name: number for number, name in enumerate(labels)}

    @property
    def state(self) -> State:
        """What the role does next."""
        with self._lock:
            found = state_at(self._handle, "", self._roles, self._labels)
        if found is None:
            raise self._closed()
        return found

    @property
    def has_ended(self) -> bool:
        return self.state.ended

    def try_send(self, label: str, value: Sendable = None) -> bool:
        """Sends a message, if the queue has room: whether it was sent."""
        status = self._post(label, value)
        if status == FINE or status == FULL:
            return status == FINE
        if status == CLOSED:
            raise self._closed()
        if status == NO_MEMORY:
            raise MemoryError(status_text(NO_MEMORY))
        sort = KINDS[kind_of(value)]
        raise NotNow("%s can't send %s(%s) now: its state is %s" % (self.role, label, "" if sort == "unit" else sort, self.state))

    def send(self, label: str, value: Sendable = None, timeout: Optional[float] = None) -> None:
        """Sends a message, and waits while the queue is full; TimeoutError after so many seconds."""
        pause = _Pause(timeout)
        while not self.try_send(label, value):
            time.sleep(pause.next())

    async def send_async(self, label: str, value: Sendable = None, timeout: Optional[float] = None) -> None:
        """`send` for a task of asyncio."""
        pause = _Pause(timeout)
        while not self.try_send(label, value):
            await asyncio.sleep(pause.next())

    def try_receive(self) -> Optional[Message]:
        """Receives a message, if one has come; None otherwise."""
        message, found = RawMessage(), None
        with self._lock:
            status = CALLS["receive"](byref(self._handle), byref(message))
            if status == FINE:
                found = Message(self._labels[message.label], self._value(message))
        if status == FINE or status == EMPTY:
            return found
        if status == CLOSED:
            raise self._closed()
        if status == GONE:
            raise Gone("nothing comes any more: the endpoint of %s was closed" % self.state.peer)
        if status == NO_MEMORY:
            raise MemoryError(status_text(NO_MEMORY))
        raise NotNow("%s can't receive now: its state is %s" % (self.role, self.state))

    def receive(self, timeout: Optional[float] = None) -> Message:
        """Receives a message, and waits until one comes; TimeoutError after so many seconds."""
        pause = _Pause(timeout)
        while True:
            message = self.try_receive()
            if message is not None:
                return message
            time.sleep(pause.next())

    async def receive_async(self, timeout: Optional[float] = None) -> Message:
        """`receive` for a task of asyncio."""
        pause = _Pause(timeout)
        while True:
            message = self.try_receive()
            if message is not None:
                return message
            await asyncio.sleep(pause.next())

    def __iter__(self) -> Iterator[Message]:
        """Receives messages for as long as the role's state receives. The loop also ends if its body left out a send that was due: then
        `has_ended` is False, and leaving the block `with end:` warns."""
        while self.state.receives:
            yield self.receive()

    def close(self) -> None:
        """Gives the role up wherever it stands."""
        with self._lock:
            CALLS["leave"](byref(self._handle))

    def __enter__(self) -> "Endpoint":
        return self

    def __exit__(self, kind: Optional[Type[BaseException]], error: Optional[BaseException], trace: Optional[TracebackType]) -> None:
        with self._lock:
            left = state_at(self._handle, "", self._roles, self._labels)
        if error is None and left is not None and not left.ended:
            warnings.warn("%s is given up before it has ended: its state is %s" % (self.role, left), RuntimeWarning, stacklevel=2)
        self.close()

    def __del__(self) -> None:
        CALLS["leave"](byref(self._handle))

    def __repr__(self) -> str:
        return "Endpoint(%s)" % self.role

    def _closed(self) -> Closed:
        return Closed("the endpoint of %s is closed" % self.role)

    def _post(self, label: str, value: Sendable) -> int:
        number, at = self._numbers.get(label, 0xFFFF_FFFF), byref(self._handle)
        kind = kind_of(value)
        with self._lock:
            if kind == UNIT:
                return CALLS["send_unit"](at, number)
            if kind == BOOL:
                return CALLS["send_bool"](at, number, value)
            if kind == NAT:
                return CALLS["send_nat"](at, number, value)
            if kind == INT:
                return CALLS["send_int"](at, number, value)
            if kind == BYTES:
                data = bytes_of(value)  # type: ignore[arg-type]
                return CALLS["send_bytes"](at, number, data, len(data))
            if not isinstance(value, Iterable):
                raise TypeError("a message has no value, or a bool, an int, a str, bytes, or a list of ints: this is a %s" % type(value).__name__)
            numbers: List[int] = list(value)  # type: ignore[arg-type]
            if any(kind_of(it) not in (NAT, INT) for it in numbers):
                raise TypeError("a list of a message has numbers")
            return CALLS["send_list"](at, number, (c_int64 * max(len(numbers), 1))(*numbers), len(numbers))

    def _value(self, message: RawMessage) -> Value:
        if message.kind == UNIT:
            return None
        if message.kind == BOOL:
            return bool(message.natural)
        if message.kind == NAT:
            return int(message.natural)
        if message.kind == INT:
            return int(message.whole)
        written, room = c_size_t(), message.length
        if message.kind == BYTES:
            data = ctypes.create_string_buffer(max(room, 1))
            CALLS["bytes"](byref(self._handle), data, room, byref(written))
            return data.raw[:room]
        if message.kind == LIST:
            numbers = (c_int64 * max(room, 1))()
            CALLS["list"](byref(self._handle), numbers, room, byref(written))
            return list(numbers[:room])
        return None


class _Pause:
    """How long a call that waits pauses next: not at all at first, then longer and longer, up to a millisecond."""

    def __init__(self, timeout: Optional[float]) -> None:
        self.until = None if timeout is None else time.monotonic() + timeout
        self.count = 0

    def next(self) -> float:
        if self.until is not None and time.monotonic() > self.until:
            raise TimeoutError("the peer didn't act in time")
        self.count += 1
        return 0 if self.count < _SPINS else min(_LONGEST_PAUSE, 0.00001 * (self.count - _SPINS))
