"""What the package does, and what it refuses."""

import asyncio
import doctest
import importlib
import os
import pathlib
import shutil
import subprocess
import sys
import tempfile
import threading
import unittest

import rumpsteak
from rumpsteak import Closed, Departure, Endpoint, Gone, Message, Monitor, NotNow, Refused, Session

VALUES = """
roles A, B
protocol rec X. A->B{unit(). X, flag(bool). X, natural(nat). X, whole(int). X, octets(bytes). X, numbers(list). X, last(). end}
"""
RING = """
roles A, B, C
protocol rec X. A->B:x(nat). B->C:x(nat). C->A:x(nat). X
machine B: rec X. C!x(nat). A?x(nat). X
machine C: rec X. A!x(nat). B?x(nat). X
"""
WRONG = "roles A, B protocol A->B:x(). B->A:y(). end machine A: B?y(). B!x(). end"
# A sends before it receives 17 messages, one more than a search puts off.
AHEAD = "roles A, B protocol %sA->B:x(). end machine A: B!x(). %send" % ("B->A:v(). " * 17, "B?v(). " * 17)
FILM = """
roles Camera, Screen, Audience
protocol rec X. Screen->Camera:ready(). Camera->Screen{frame(nat). Screen->Audience:shown(). X, over(). Screen->Audience:over(). end}
"""


class Answers(unittest.TestCase):
    def test_a_safe_text_is_accepted(self):
        self.assertEqual(rumpsteak.check(RING).room, rumpsteak.explain(RING).room)
        self.assertTrue(rumpsteak.check(RING).text.startswith("accepted\nA: "))

    def test_a_refusal_says_which_role_and_why(self):
        with self.assertRaises(Refused) as caught:
            rumpsteak.explain(WRONG)
        self.assertEqual((caught.exception.status, caught.exception.kind, caught.exception.role), (1, "refused", "A"))
        self.assertGreater(len(caught.exception.text.split("\n")), 3)
        with self.assertRaises(Refused) as caught:
            rumpsteak.check("roles A, B\nprotocol A->B;")
        self.assertEqual((caught.exception.kind, caught.exception.role), ("malformed", None))
        with self.assertRaises(Refused) as caught:
            rumpsteak.check("roles A, B, C protocol A->B{x(). C->A:y(). end, z(). end}")
        self.assertEqual((caught.exception.kind, caught.exception.role), ("unprojectable", "C"))

    def test_the_bound_can_be_given(self):
        self.assertTrue(rumpsteak.check(AHEAD, bound=17).text.startswith("accepted\n"))
        self.assertTrue(rumpsteak.explain(AHEAD, 17).text.startswith("accepted\n"))
        for word in rumpsteak.check, rumpsteak.explain:
            self.assertRaises(Refused, word, AHEAD)

    def test_a_certificate_is_verified_and_an_old_one_refused(self):
        certified = rumpsteak.certify(RING)
        self.assertEqual(rumpsteak.verify(certified).room, rumpsteak.check(RING).room)
        with self.assertRaises(Refused) as caught:
            rumpsteak.verify(RING)
        self.assertFalse(caught.exception.is_outdated)
        other = certified.replace("B->C:x(nat)", "B->C:x(int)")
        with self.assertRaises(Refused) as caught:
            rumpsteak.verify(other.replace("C!x(nat)", "C!x(int)", 1))
        self.assertTrue(caught.exception.is_outdated)
        self.assertIn("certify the text again", str(caught.exception))

    def test_names_of_missing_files_are_no_texts(self):
        for name in "nosuch.txt", "./films/nosuch.txt":
            self.assertRaises(ValueError, rumpsteak.check, name)

    def test_a_role_that_leaves_early_is_warned_of(self):
        session = Session(RING)
        with self.assertWarns(RuntimeWarning) as caught, session.endpoint("A"):
            pass
        self.assertIn("A is given up before it has ended: its state is B!{x(nat)}", str(caught.warning))
        with self.assertRaises(KeyError) as missing:
            session.endpoint("D")
        self.assertIn("the text has no role D", str(missing.exception))

    def test_values_of_other_types_are_refused(self):
        end = Session(VALUES).endpoint("A")
        for value in 1.5, object():
            self.assertRaises(TypeError, end.send, "numbers", value)

    def test_statuses_are_sentences(self):
        self.assertEqual(rumpsteak.status_text(19), "the queue is full")
        self.assertEqual([rumpsteak.status_text(status) for status in (7, -1, 1 << 32)], ["status 7", "status -1", "status 4294967296"])
        self.assertEqual(str(Refused(16, "")), "the words ask for several workers, of which the library has none")

    def test_improve_moves_a_send_ahead(self):
        improved = rumpsteak.improve("roles A, B protocol rec X. A->B:ping(). B->A:pong(). X", "B")
        self.assertTrue(improved.startswith("# B: swaps 1, asked\n"), improved)
        rumpsteak.check(improved)
        with self.assertRaises(Refused):
            rumpsteak.improve(RING, "Q")

    def test_the_text_comes_before_the_role(self):
        for call in rumpsteak.improve, Monitor:
            with self.assertRaises(ValueError) as caught:
                call("Screen", FILM)
            self.assertEqual(str(caught.exception), "the text comes first, and then the role: 'Screen' is no text")

    def test_the_name_of_a_file_is_no_text(self):
        with tempfile.TemporaryDirectory() as folder:
            path = os.path.join(folder, "film.txt")
            with open(path, "w") as file:
                file.write(FILM)
            calls = [rumpsteak.check, rumpsteak.explain, rumpsteak.certify, Session]
            calls += [lambda text: rumpsteak.improve(text, "Screen"), lambda text: Monitor(text, "Screen"), lambda text: rumpsteak.ask("show", text=text)]
            for call in calls:
                for name in path, pathlib.Path(path):
                    with self.assertRaises(ValueError) as caught:
                        call(name)
                    self.assertIn("read it by open(%r).read()" % path, str(caught.exception))
            with self.assertRaises(ValueError) as caught:
                rumpsteak.check(path + ".old")
            self.assertIn("there is no such file", str(caught.exception))
            with open(path) as file:
                rumpsteak.check(file.read())

    def test_other_words_and_other_bytes(self):
        self.assertEqual(rumpsteak.ask("chek", text=RING)[0], 2)
        self.assertEqual(rumpsteak.ask("check", text=b"roles \xff")[0], 3)
        self.assertEqual(rumpsteak.ask("run", "--workers", "2", text=RING)[0], 16)

    def test_the_library_and_the_package_have_the_same_version(self):
        major, minor, patch = map(int, rumpsteak.__version__.split("."))
        self.assertEqual(rumpsteak.version(), major * 1_000_000 + minor * 1_000 + patch)

    def test_the_module_is_a_program(self):
        with tempfile.TemporaryDirectory() as folder:
            path = os.path.join(folder, "film.txt")
            with open(path, "w") as file:
                file.write(FILM)
            run = subprocess.run([sys.executable, "-m", "rumpsteak", "check", path], stdout=subprocess.PIPE)
            self.assertEqual((run.returncode, run.stdout.decode()), (0, rumpsteak.check(FILM).text))
        run = subprocess.run([sys.executable, "-m", "rumpsteak", "check"], input=WRONG.encode(), stdout=subprocess.PIPE)
        self.assertEqual((run.returncode, run.stdout.split(b"\n")[0]), (1, b"refused"))
        run = subprocess.run([sys.executable, "-m", "rumpsteak", "check", "no/such.txt"], stderr=subprocess.PIPE)
        self.assertEqual(run.returncode, 66)

    def test_the_examples_of_the_documentation(self):
        for name in ("_answers", "_sessions", "_monitors"):
            self.assertEqual(doctest.testmod(importlib.import_module("rumpsteak." + name)).failed, 0)


class Sessions(unittest.TestCase):
    def two(self, text=VALUES, capacity=None):
        with Session(text, capacity) as session:
            return session.endpoint("A"), session.endpoint("B")

    def test_values_arrive_as_they_were_sent(self):
        a, b = self.two()
        cases = [
            ("unit", None), ("flag", True), ("flag", False), ("natural", 2**63 - 1), ("natural", 0), ("whole", -(2**63)), ("whole", 7),
            ("octets", b"\x00\xff\x00"), ("octets", b""), ("numbers", [2**63 - 1, -(2**63), 0]), ("numbers", []),
        ]
        for label, value in cases:
            a.send(label, value)
            self.assertEqual(b.receive(), Message(label, value))
        a.send("octets", "text")
        self.assertEqual(b.receive().value, b"text")
        a.send("last")
        self.assertEqual(b.receive(), ("last", None))
        self.assertTrue(a.has_ended and b.has_ended)

    def test_an_act_that_the_state_does_not_have_changes_nothing(self):
        a, b = self.two(capacity=1)
        before = a.state
        self.assertEqual(str(before).split(", ")[:2], ["B!{unit()", "flag(bool)"])
        for label, value in (("unit", True), ("none", None), ("natural", -7), ("octets", [1])):
            with self.assertRaises(NotNow):
                a.send(label, value)
        for wrong in (2**63, -(2**63) - 1):
            with self.assertRaises(OverflowError):
                a.send("whole", wrong)
        with self.assertRaises(TypeError):
            a.send("numbers", ["one"])
        with self.assertRaises(NotNow):
            a.receive()
        with self.assertRaises(NotNow):
            b.send("unit")
        self.assertIsNone(b.try_receive())
        self.assertEqual(a.state, before)
        self.assertTrue(a.try_send("unit"))
        self.assertFalse(a.try_send("unit"))
        with self.assertRaises(TimeoutError):
            a.send("unit", timeout=0.01)
        self.assertEqual(b.receive().label, "unit")
        with self.assertRaises(TimeoutError):
            b.receive(timeout=0.01)

    def test_who_leaves_is_gone_for_those_who_receive_from_it(self):
        a, b = self.two()
        with a:
            a.send("octets", b"last words")
        self.assertEqual(b.receive().value, b"last words")
        with self.assertRaises(Gone):
            b.receive()
        ends = Session(RING).endpoints()
        ends["B"].close()
        ends["A"].send("x", 1)
        self.assertIsNone(ends["A"].try_receive())
        ends["C"].send("x", 2)
        self.assertEqual(ends["A"].receive().value, 2)
        with self.assertRaises(Gone):
            ends["C"].receive()

    def test_a_closed_endpoint_says_that_it_is_closed(self):
        a, _ = self.two()
        a.close()
        a.close()
        reads = [lambda: a.state, lambda: a.has_ended, lambda: list(a)]
        for call in [*reads, lambda: a.send("unit"), lambda: a.try_send("none"), lambda: a.send("octets", b"more"), a.receive, a.try_receive]:
            with self.assertRaises(Closed) as caught:
                call()
            self.assertEqual(str(caught.exception), "the endpoint of A is closed")
        session = Session(RING)
        session.close()
        with self.assertRaises(Closed) as caught:
            session.endpoint("A")
        self.assertEqual(str(caught.exception), "the session is closed")

    def test_endpoints_are_handed_out_once(self):
        session = Session(RING)
        self.assertEqual((session.roles, session.labels), (("A", "B", "C"), ("x",)))
        self.assertIsInstance(session.endpoint("C"), Endpoint)
        with self.assertRaises(rumpsteak.RumpsteakError):
            session.endpoint("C")
        with self.assertRaises(KeyError):
            session.endpoint("D")
        session.close()
        with self.assertRaises(rumpsteak.RumpsteakError):
            session.endpoint("A")

    def test_a_refused_text_has_no_session(self):
        with self.assertRaises(Refused) as caught:
            Session(WRONG)
        self.assertEqual(caught.exception.role, "A")
        self.assertGreater(len(caught.exception.text.split("\n")), 3)
        with self.assertRaises(ValueError):
            Session(RING, 0)

    def test_threads_exchange_what_was_sent_in_order(self):
        for capacity in (1, 16):
            a, b = self.two(capacity=capacity)

            def send(end=a):
                for number in range(2_000):
                    end.send("natural", number)
                end.send("last")

            thread = threading.Thread(target=send)
            thread.start()
            self.assertEqual([message.value for message in b], [*range(2_000), None])
            thread.join()

    def test_tasks_exchange_messages(self):
        a, b = self.two(capacity=1)

        async def send():
            for number in range(100):
                await a.send_async("natural", number)
            await a.send_async("last")

        async def receive():
            return [(await b.receive_async()).value for _ in range(101)]

        async def both():
            return await asyncio.gather(send(), receive())

        self.assertEqual(asyncio.run(both())[1], [*range(100), None])


class Monitors(unittest.TestCase):
    def test_a_monitor_lets_through_what_its_machine_does(self):
        with Monitor(FILM, "Screen") as screen:
            self.assertEqual(str(screen.state), "Camera!{ready()}")
            self.assertTrue(screen.may_send("Camera", "ready"))
            screen.sent("Camera", "ready")
            self.assertFalse(screen.may_send("Camera", "ready"))
            screen.received("Camera", "frame", 3)
            screen.sent("Audience", "shown")
            screen.sent("Camera", "ready")
            screen.received("Camera", "over")
            self.assertFalse(screen.has_ended)
            screen.sent("Audience", "over")
            self.assertTrue(screen.has_ended)
            self.assertEqual(screen.acts, 6)
            self.assertGreater(screen.room, 0)

    def test_a_refusal_gives_the_first_reason_and_changes_nothing(self):
        screen = Monitor(FILM, "Screen")

        def reason(act, *words):
            with self.assertRaises(Departure) as caught:
                act(*words)
            return caught.exception.reason

        self.assertEqual(reason(screen.sent, "Audience", "shown"), "another peer")
        self.assertEqual(reason(screen.sent, "Camera", "frame", 1), "no such label")
        self.assertEqual(reason(screen.sent, "Camera", "ready", 1), "another sort")
        self.assertEqual(reason(screen.sent, "Camera", "click"), "unknown name")
        self.assertEqual(reason(screen.received, "Camera", "frame", 1), "state sends")
        screen.sent("Camera", "ready")
        self.assertEqual(reason(screen.sent, "Camera", "ready"), "state receives")
        self.assertEqual(screen.acts, 1)
        audience = Monitor(FILM, "Audience")
        audience.received("Screen", "over")
        self.assertEqual(reason(audience.received, "Screen", "over"), "has ended")

    def test_a_monitor_takes_the_values_that_a_queue_carries(self):
        both = "roles A, B protocol rec X. A->B{some(bytes). X, all(list). X, none(). end}"
        a = Monitor(both, "A")
        for value in ("text", 1.5, {"a": 1}, ["s"], [1, 2**70], [True], object()):
            with self.assertRaises(TypeError):
                a.sent("B", "all", value)
        a.sent("B", "some", b"text")
        a.sent("B", "all", [1, -(2**63)])
        with self.assertRaises(Departure) as caught:
            a.sent("B", "sum", b"")
        self.assertEqual(str(caught.exception), "A can't send sum(bytes) to B: the text has no such role or label; its state is " + str(a.state))
        self.assertEqual(a.acts, 2)

    def test_a_text_with_derivations_is_opened_by_them(self):
        with self.assertRaises(Refused) as caught:
            Monitor(AHEAD, "A")
        self.assertEqual((caught.exception.status, caught.exception.text), rumpsteak.ask("explain", text=AHEAD))
        certified = rumpsteak.certify(AHEAD, bound=17)
        Monitor(certified, "A").sent("B", "x")
        Session(certified).close()
        wrong = certified.replace("bound 17", "bound 16", 1)
        for opens in (lambda: Monitor(wrong, "A")), (lambda: Session(wrong)):
            with self.assertRaises(Refused) as caught:
                opens()
            self.assertEqual((caught.exception.status, caught.exception.text), rumpsteak.ask("verify", text=wrong))
            self.assertTrue(caught.exception.is_outdated)

    def test_a_certificate_of_another_version_is_said_to_be_outdated(self):
        first = "roles A, B protocol B->A:x(). A->B:y(). end machine A: B!y(). B?x(). end"
        second = "roles A, B protocol B->A:x(). A->B:y(). A->B:z(). end machine A: B!y(). B?x(). B!z(). end"
        certified = rumpsteak.certify(first)
        mixed = second + "\n" + certified[certified.index("derivation"):]
        status, told = rumpsteak.ask("verify", text=mixed)
        self.assertEqual(status, 1)
        for opens in (lambda: Monitor(mixed, "A")), (lambda: Session(mixed)):
            with self.assertRaises(Refused) as caught:
                opens()
            self.assertTrue(caught.exception.is_outdated)
            self.assertEqual(caught.exception.text, told)
            lines = str(caught.exception).split("\n")
            self.assertEqual(lines[:-1], told.rstrip("\n").split("\n"))
            self.assertTrue(lines[-1].endswith("is for another version of the text: certify the text again."), lines[-1])
        Session(rumpsteak.certify(mixed)).close()
        for text in (WRONG, AHEAD):
            with self.assertRaises(Refused) as caught:
                Session(text)
            self.assertFalse(caught.exception.is_outdated)
            self.assertEqual(str(caught.exception), caught.exception.text.rstrip("\n"))

    def test_a_closed_monitor_says_that_it_is_closed(self):
        with Monitor(FILM, "Screen") as screen:
            screen.sent("Camera", "ready")
        reads = [lambda: screen.state, lambda: screen.has_ended, lambda: screen.acts, lambda: screen.may_send("Camera", "ready")]
        for call in [*reads, lambda: screen.sent("Camera", "ready"), lambda: screen.sent("Cinema", "ready"), lambda: screen.received("Camera", "over")]:
            with self.assertRaises(Closed) as caught:
                call()
            self.assertEqual(str(caught.exception), "the monitor of Screen is closed")

    def test_a_refused_text_has_no_monitor(self):
        for text, role in ((WRONG, "A"), (FILM, "Cinema")):
            with self.assertRaises(Refused):
                Monitor(text, role)


class Examples(unittest.TestCase):
    def run_example(self, name, data=b""):
        path = os.path.join(os.path.dirname(__file__), "..", "examples", name)
        run = subprocess.run([sys.executable, path], input=data, stdout=subprocess.PIPE, timeout=60)
        self.assertEqual(run.returncode, 0)
        return run.stdout

    def test_double_buffering(self):
        data = os.urandom(20_000)
        self.assertEqual(self.run_example("double_buffering.py", data), bytes(255 - byte for byte in data))

    def test_queues(self):
        told = b"one\ntwo\nthree\nScreen can't send ready() to Camera now: its state is end\n"
        self.assertEqual(self.run_example("queues.py"), told)

    def test_tasks(self):
        self.assertEqual(self.run_example("tasks.py"), b"9\n16\n9\n16\n")

    @unittest.skipUnless(shutil.which("redis-server"), "redis-server isn't on this machine")
    def test_broker(self):
        self.assertEqual(self.run_example("broker.py"), b"THREE\nPROCESSES\nAND\nA\nBROKER\n")


if __name__ == "__main__":
    unittest.main()
