"""Rumpsteak checks, before they run, that threads or programs which exchange messages can't go wrong together: that they never all wait for
each other, and that none of them receives a message that it has no case for. It also runs such conversations, over lock-free queues.

You write the conversation once, as a protocol: who sends what to whom, with choices and loops. Each participant (a role) has a machine: a
list of states, each of which sends to, or receives from, one other role.

    check(text), explain(text)    whether a text is safe, and why not
    improve(text, role)           lets a role send earlier
    certify(text), verify(text)   a certificate is made once, and tested in each build, without a search
    Session(text), its endpoints  threads or tasks of this process that talk
    Monitor(text, role)           programs that have queues of their own
    ask(word, .., text=text)      any other word of the program `rumpsteak`

From a shell: python -m rumpsteak check film.txt
"""

from ._answers import Answer, Closed, Refused, Report, RumpsteakError, ask, certify, check, explain, improve, verify
from ._library import CALLS as _CALLS
from ._library import status_text
from ._monitors import Departure, Monitor
from ._sessions import Endpoint, Gone, Message, NotNow, Session
from ._states import Arm, Sendable, State, Value

__version__ = "0.1.0"
__all__ = [
    "Answer", "Arm", "Closed", "Departure", "Endpoint", "Gone", "Message", "Monitor", "NotNow", "Refused", "Report", "RumpsteakError", "Sendable",
    "Session", "State", "Value", "ask", "certify", "check", "explain", "improve", "status_text", "verify", "version",
]
for _each in (Answer, Arm, Closed, Departure, Endpoint, Gone, Message, Monitor, NotNow, Refused, Report, RumpsteakError, Session, State):
    _each.__module__ = __name__


def version() -> int:
    """The version of the library: a million for each major version, a thousand for each minor one."""
    return _CALLS["version"]()
