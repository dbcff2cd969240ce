"""Double buffering by three processes over a broker, Redis: one list for each ordered pair of roles. Each process has the monitor of its
role, so that what `check` promises of the machines holds of the processes.

    python broker.py

It starts a redis-server of its own on a free port of this machine, if one is installed."""

import multiprocessing
import shutil
import socket
import subprocess
import time

import rumpsteak

TEXT = """
roles K, S, T
protocol rec X. K->S:ready(). T->K:ready(). S->K{copy(bytes). K->T:copy(bytes). X, stop(). K->S:ready(). K->T:stop(). end}
machine K: S!ready(). rec X. S!ready(). T?ready(). S?{copy(bytes). T!copy(bytes). X, stop(). T!stop(). end}
"""


class Redis:
    """A connection to the broker, with as much of its protocol as is needed here."""

    def __init__(self, port):
        self.socket = socket.create_connection(("127.0.0.1", port))
        self.file = self.socket.makefile("rb")

    def call(self, *words):
        self.socket.sendall(b"*%d\r\n" % len(words) + b"".join(b"$%d\r\n%s\r\n" % (len(word), word) for word in words))
        return self.reply()

    def reply(self):
        line = self.file.readline()
        if not line or line[:1] == b"-":
            raise ConnectionError(line.decode() or "the broker is gone")
        if line[:1] == b"*":
            return [self.reply() for _ in range(int(line[1:]))]
        if line[:1] == b"$":
            return self.file.read(int(line[1:]) + 2)[:-2]
        return line[1:-2]


class Line:
    """The lists between a role and all others, with the role's monitor. In a list a message is its label, a zero byte, and its bytes."""

    def __init__(self, role, port):
        self.role, self.broker, self.monitor = role, Redis(port), rumpsteak.Monitor(TEXT, role)

    def send(self, peer, label, value=None):
        self.monitor.sent(peer, label, value)
        self.broker.call(b"RPUSH", b"%s to %s" % (self.role.encode(), peer.encode()), label.encode() + b"\0" + (value or b""))

    def receive(self):
        state = self.monitor.state
        message = self.broker.call(b"BLPOP", b"%s to %s" % (state.peer.encode(), self.role.encode()), b"0")[1]
        label, _, value = message.partition(b"\0")
        arm = next((arm for arm in state.arms if arm.label == label.decode()), None)
        value = value if arm is None or arm.sort == "bytes" else None
        self.monitor.received(state.peer, label.decode(), value)
        return label.decode(), value


def kernel(port):
    line = Line("K", port)
    line.send("S", "ready")
    while True:
        line.send("S", "ready")
        line.receive()  # the sink's `ready`
        label, piece = line.receive()
        if label == "stop":
            break
        line.send("T", "copy", piece.upper())
    line.send("T", "stop")


def source(port):
    line = Line("S", port)
    line.receive()
    for piece in (b"three", b"processes", b"and", b"a", b"broker"):
        line.send("K", "copy", piece)
        line.receive()
    line.send("K", "stop")
    line.receive()


def sink(port):
    line = Line("T", port)
    while True:
        line.send("K", "ready")
        label, piece = line.receive()
        if label == "stop":
            return
        print(piece.decode(), flush=True)


def free_port():
    with socket.socket() as listening:
        listening.bind(("127.0.0.1", 0))
        return listening.getsockname()[1]


def wait_for(port):
    for _ in range(500):
        try:
            return Redis(port)
        except OSError:
            time.sleep(0.01)
    raise SystemExit("the broker doesn't answer")


def main():
    program = shutil.which("redis-server")
    if program is None:
        print("redis-server isn't on this machine: nothing was played")
        return
    port = free_port()
    words = [program, "--port", str(port), "--bind", "127.0.0.1", "--save", "", "--appendonly", "no"]
    broker = subprocess.Popen(words, stdout=subprocess.DEVNULL)
    try:
        wait_for(port)
        context = multiprocessing.get_context("spawn")
        processes = [context.Process(target=play, args=(port,)) for play in (kernel, source, sink)]
        for process in processes:
            process.start()
        for process in processes:
            process.join(60)
        if any(process.exitcode != 0 for process in processes):
            raise SystemExit("a process failed")
    finally:
        broker.terminate()
        broker.wait()


if __name__ == "__main__":
    main()
