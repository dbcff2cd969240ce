"""Answers to texts: what the program `rumpsteak` prints, and why a text is refused."""

import os
import re
from ctypes import byref
from typing import NamedTuple, Optional, Tuple, Union

from ._library import CALLS, FINE, NO_MEMORY, Handle, status_text, text_of

_REFUSALS = {1: "refused", 2: "usage", 3: "malformed", 4: "unprojectable", 5: "too large"}

# The faults of a derivation that a text has, as `verify` prints them after the role. A search for derivations has none of them.
_DERIVATION_FAULT = re.compile(r"bad start|(bad state|too long|no move) at node \d+|(wrong next|forgets) at node \d+ arm \d+")
_OUTDATED = "The certificate (the derivations in the text) is for another version of the text: certify the text again."


class RumpsteakError(Exception):
    """What goes wrong in this package."""


class Closed(RumpsteakError):
    """The session, endpoint or monitor was closed, so that it has no state and makes no act."""


class Refused(RumpsteakError):
    """A text is refused. The text of the exception is what the program prints: in the words of `explain` if they were asked for, or if the
    text was to be opened.

    `status` is the program's status, `kind` the same in a word (refused, usage, malformed, unprojectable, too large), and `role` the role
    whose machine or projection is at fault, or None. `is_outdated` says that the text has a certificate (as `certify` makes it) which isn't
    one of this text, since a machine or the protocol was changed later; the exception's text then says so too.
    """

    def __init__(self, status: int, text: str) -> None:
        self.status = status
        self.text = text
        self.kind = _REFUSALS.get(status, "status %d" % status)
        self.role: Optional[str] = None
        self.is_outdated = False
        lines = text.split("\n")
        if lines[0].startswith("too large: candidates "):
            self.role = lines[0].split()[-1]
        if status in (1, 4) and len(lines) > 1 and ": " in lines[1]:
            self.role, fault = lines[1].split(": ", 1)
            self.is_outdated = _DERIVATION_FAULT.fullmatch(fault) is not None
        told = text.rstrip("\n") or status_text(status)
        super().__init__("%s\n%s" % (told, _OUTDATED) if self.is_outdated else told)


class Answer(NamedTuple):
    """What the program answers: its status, and the text that it prints."""

    status: int
    text: str


class Report:
    """What `check` or `explain` reports of an accepted text. `room` is the size of queues that are always enough."""

    def __init__(self, text: str) -> None:
        self.text = text
        self.room = next((int(line[5:]) for line in text.split("\n") if line.startswith("room ")), 0)

    def __str__(self) -> str:
        return self.text.rstrip("\n")

    def __repr__(self) -> str:
        return "Report(%r)" % self.text


def bytes_of_text(text: Union[str, bytes]) -> bytes:
    """The text as the library reads it. The name of a file is a mistake: its text is wanted."""
    if isinstance(text, bytes):
        return text
    if isinstance(text, os.PathLike) or (isinstance(text, str) and "\n" not in text and os.path.isfile(text)):
        name = os.fspath(text)
        raise ValueError("%r is the name of a file, and its text is wanted: read it by open(%r).read()" % (name, name))
    if re.fullmatch(r"[\w./~-]+\.\w+", text):
        raise ValueError("%r looks like the name of a file, and there is no such file; a text is wanted" % text)
    return text.encode()


def with_text_first(text: str, role: str) -> None:
    """Raises ValueError if a role and a text were given the other way round."""
    if isinstance(text, str) and len(text.split()) == 1 and len(role.split()) > 1:
        raise ValueError("the text comes first, and then the role: %r is no text" % text)


def ask(*words: str, text: Union[str, bytes] = "") -> Answer:
    """What the program `rumpsteak` prints if it is called with these words and reads this text, and its status.

    For words without a function of their own, such as run, project, draw or show:

    >>> print(ask("project", text="roles A, B protocol A->B:hello(nat). end").text.split(chr(10))[1])
    0 B!{hello(nat) 1}
    """
    spelt, answer = "\0".join(words).encode(), Handle()
    data = bytes_of_text(text)
    status = CALLS["ask"](spelt, len(spelt), data, len(data), byref(answer))
    told = text_of(answer)
    if status == NO_MEMORY:
        raise MemoryError(status_text(NO_MEMORY))
    return Answer(status, told)


def check(text: str, bound: Optional[int] = None) -> Report:
    """Checks the text's session: whether its machines can go wrong together. Raises Refused if they may. A certificate in the text is
    ignored: `verify` tests it.

    No machine may put off more acts than the bound, which is 16 if none is given.

    >>> check("roles A, B protocol rec X. A->B:ping(). B->A:pong(). X").room
    3
    """
    return _report(ask("check", *_within(bound), text=text))


def verify(text: str) -> Report:
    """Tests the certificate that the text has (the derivations, as `certify` makes them), and searches nothing: for a build, or a start, that
    must not accept a text whose certificate is outdated. (`check` ignores a certificate, and searches for its own.) Raises Refused if a
    role has no derivation, or one that is wrong; `is_outdated` then says whether it is one of another version of the text.

    >>> verify(certify("roles A, B protocol A->B:hello(). end")).room
    3
    """
    return _report(ask("verify", text=text))


def explain(text: str, bound: Optional[int] = None) -> Report:
    """Checks as `check` does, and says why: where a machine breaks which rule, or how far it is ahead."""
    return _report(ask("explain", *_within(bound), text=text))


def _within(bound: Optional[int]) -> Tuple[str, ...]:
    return () if bound is None else ("--bound", str(bound))


def certify(text: str, bound: Optional[int] = None) -> str:
    """The text with a derivation of each role, by which Session and Monitor accept it and search nothing. Raises Refused, with the words of
    `explain`, if the text isn't accepted.

    >>> "derivation A" in certify("roles A, B protocol B->A:x(). A->B:y(). end machine A: B!y(). B?x(). end")
    True
    """
    status, told = ask("check", *_within(bound), "--derivations", text=text)
    if status != FINE:
        explain(text, bound)
        raise Refused(status, told)
    return told


def improve(text: str, role: str, swaps: int = 1) -> str:
    """The text with up to `swaps` sends of the role moved ahead of its receives, and with a derivation of each role.

    >>> improve("roles A, B protocol rec X. A->B:ping(). B->A:pong(). X", "B").split(chr(10))[0]
    '# B: swaps 1, asked'
    """
    with_text_first(text, role)
    status, told = ask("improve", role, "--swaps", str(swaps), text=text)
    if status != FINE:
        raise Refused(status, told)
    return told


def _report(answer: Answer) -> Report:
    if answer.status != FINE:
        raise Refused(*answer)
    return Report(answer.text)


def refusal(status: int, left: Handle) -> Exception:
    """Why a text isn't opened, with what the call left."""
    told = text_of(left)
    return MemoryError(status_text(status)) if status == NO_MEMORY else Refused(status, told)
