"""Double buffering on three threads: a source reads standard input, a kernel changes each byte b to 255 - b, and a sink writes standard
output. The kernel asks for the next piece before it hands the last one on, so that the source reads while the kernel works.

    python double_buffering.py < picture > negative
"""

import sys
import threading

import rumpsteak

# K is the kernel, S the source, T the sink. The machine of K sends its second `ready` before it has the first piece.
TEXT = """
roles K, S, T
protocol rec X. K->S:ready(). T->K:ready(). S->K{copy(bytes). K->T:copy(bytes). X, stop(). K->S:ready(). K->T:stop(). end}
machine K: S!ready(). rec X. S!ready(). T?ready(). S?{copy(bytes). T!copy(bytes). X, stop(). T!stop(). end}
"""
NEGATIVE = bytes(255 - byte for byte in range(256))


def kernel(end: rumpsteak.Endpoint) -> None:
    end.send("ready")
    while True:
        end.send("ready")
        end.receive()  # the sink's `ready`
        label, piece = end.receive()
        if label == "stop":
            break
        end.send("copy", piece.translate(NEGATIVE))
    end.send("stop")


def source(end: rumpsteak.Endpoint) -> None:
    end.receive()
    while piece := sys.stdin.buffer.read(4096):
        end.send("copy", piece)
        end.receive()
    end.send("stop")
    end.receive()  # the `ready` that the kernel sent ahead


def sink(end: rumpsteak.Endpoint) -> None:
    end.send("ready")
    for label, piece in end:
        if label == "copy":
            sys.stdout.buffer.write(piece)
            end.send("ready")


def main() -> None:
    with rumpsteak.Session(TEXT) as session:
        programs = [(kernel, "K"), (source, "S"), (sink, "T")]
        threads = [threading.Thread(target=program, args=(session.endpoint(role),)) for program, role in programs]
    for thread in threads:
        thread.start()
    for thread in threads:
        thread.join()
    sys.stdout.buffer.flush()


main()
