"""The C library, by ctypes: what its header declares."""

import ctypes
import os
from ctypes import POINTER, byref, c_bool, c_char_p, c_int64, c_size_t, c_uint16, c_uint32, c_uint64, c_void_p
from typing import Any, Callable, Dict, List, Optional, Tuple

FINE, NO_MEMORY, TOO_SMALL, CLOSED, FULL, EMPTY, NOT_NOW, UNKNOWN, HANDED_OUT, GONE = 0, 8, 17, 18, 19, 20, 21, 22, 23, 24
KINDS = ("unit", "bool", "nat", "int", "bytes", "list")
UNIT, BOOL, NAT, INT, BYTES, LIST = range(6)


class Handle(ctypes.Structure):
    """Zero, or what a call of the library opened."""

    _fields_ = [("at", c_void_p)]


class RawMessage(ctypes.Structure):
    _fields_ = [("label", c_uint32), ("kind", c_uint32), ("natural", c_uint64), ("whole", c_int64), ("length", c_size_t)]


_TEXT: List[Any] = [c_char_p, c_size_t]
_OUT: List[Any] = [c_void_p, c_size_t, POINTER(c_size_t)]
_HANDLE: List[Any] = [POINTER(Handle)]
_NUMBER: List[Any] = [POINTER(c_uint32)]
_ACT: List[Any] = [c_uint32, c_uint32, c_uint32, c_uint64]
_CALLS: Dict[str, List[Any]] = {
    "version": [],
    "status_text": [c_uint32] + _OUT,
    "ask": _TEXT + _TEXT + _HANDLE,
    "text": _HANDLE + _OUT,
    "text_close": _HANDLE,
    "open": _TEXT + [c_uint16] + _HANDLE + _HANDLE,
    "room": _HANDLE + [POINTER(c_uint64)],
    "role_name": _HANDLE + [c_uint32] + _OUT,
    "label_name": _HANDLE + [c_uint32] + _OUT,
    "endpoint_of": _HANDLE + [c_uint32] + _HANDLE,
    "close": _HANDLE,
    "state": _HANDLE + _NUMBER * 3,
    "arm": _HANDLE + [c_uint32] + _NUMBER * 2,
    "send_unit": _HANDLE + [c_uint32],
    "send_bool": _HANDLE + [c_uint32, c_bool],
    "send_nat": _HANDLE + [c_uint32, c_uint64],
    "send_int": _HANDLE + [c_uint32, c_int64],
    "send_bytes": _HANDLE + [c_uint32] + _TEXT,
    "send_list": _HANDLE + [c_uint32, POINTER(c_int64), c_size_t],
    "receive": _HANDLE + [POINTER(RawMessage)],
    "bytes": _HANDLE + _OUT,
    "list": _HANDLE + [POINTER(c_int64), c_size_t, POINTER(c_size_t)],
    "leave": _HANDLE,
    "monitor_open": _TEXT + _TEXT + _HANDLE + _HANDLE,
    "monitor_room": _HANDLE + [POINTER(c_uint64)],
    "monitor_role_name": _HANDLE + [c_uint32] + _OUT,
    "monitor_label_name": _HANDLE + [c_uint32] + _OUT,
    "monitor_state": _HANDLE + _NUMBER * 3,
    "monitor_arm": _HANDLE + [c_uint32] + _NUMBER * 2,
    "monitor_may_send": _HANDLE + _ACT,
    "monitor_sent": _HANDLE + _ACT,
    "monitor_received": _HANDLE + _ACT,
    "monitor_acts": _HANDLE + [POINTER(c_uint64)],
    "monitor_close": _HANDLE,
}


def _load() -> Dict[str, Callable[..., int]]:
    beside = os.path.join(os.path.dirname(os.path.abspath(__file__)), "librumpsteak.so")
    library = ctypes.CDLL(os.environ.get("RUMPSTEAK_SO") or beside)
    calls = {}
    for name, types in _CALLS.items():
        call = getattr(library, "rumpsteak_" + name)
        call.argtypes, call.restype = types, c_uint32
        calls[name] = call
    return calls


CALLS = _load()


def status_text(status: int) -> str:
    """What a status of the library says, such as "the queue is full" for 19.

    >>> status_text(19)
    'the queue is full'
    """
    out, written = ctypes.create_string_buffer(100), c_size_t()
    known = 0 <= status < 1 << 32 and CALLS["status_text"](status, out, 100, byref(written)) == FINE
    return out.raw[: written.value].decode() if known else "status %d" % status


def text_of(handle: Handle) -> str:
    """The text that a call left behind the handle, which is closed."""
    written, out, room = c_size_t(), ctypes.create_string_buffer(1), 0
    status = CALLS["text"](byref(handle), out, room, byref(written))
    if status == TOO_SMALL:
        room = written.value
        out = ctypes.create_string_buffer(room)
        status = CALLS["text"](byref(handle), out, room, byref(written))
    CALLS["text_close"](byref(handle))
    return out.raw[: written.value].decode(errors="replace") if status == FINE else ""


def names_of(handle: Handle, call: str) -> Tuple[str, ...]:
    """All names of roles, or of labels, each at the place of its number."""
    names: List[str] = []
    out, written = ctypes.create_string_buffer(64), c_size_t()
    while CALLS[call](byref(handle), len(names), out, 64, byref(written)) == FINE:
        names.append(out.raw[: written.value].decode())
    return tuple(names)


def number_at(handle: Handle, call: str) -> Optional[int]:
    """The number that a call writes; None if the handle is closed."""
    number = c_uint64()
    return number.value if CALLS[call](byref(handle), byref(number)) == FINE else None


def state_of(handle: Handle, prefix: str) -> Optional[Tuple[int, int, List[Tuple[int, int]]]]:
    """The direction, the peer's number, and the arms, each with the numbers of its label and its kind; None if the handle is closed."""
    direction, peer, count, label, kind = c_uint32(), c_uint32(), c_uint32(), c_uint32(), c_uint32()
    if CALLS[prefix + "state"](byref(handle), byref(direction), byref(peer), byref(count)) != FINE:
        return None
    arms = []
    for place in range(count.value):
        CALLS[prefix + "arm"](byref(handle), place, byref(label), byref(kind))
        arms.append((label.value, kind.value))
    return direction.value, peer.value, arms

