"""A camera and a screen over queue.Queue, one for each direction. Each has a monitor of its role."""

import queue
import threading

import rumpsteak

TEXT = """
roles Camera, Screen
protocol rec X. Screen->Camera:ready(). Camera->Screen{frame(bytes). X, over(). end}
"""


class Line:
    """The queues between a program and its one peer, with the program's monitor."""

    def __init__(self, role, peer, outgoing, incoming):
        self.monitor, self.peer = rumpsteak.Monitor(TEXT, role), peer
        self.outgoing, self.incoming = outgoing, incoming

    def send(self, label, value=None):
        self.monitor.sent(self.peer, label, value)
        self.outgoing.put((label, value))

    def receive(self):
        label, value = self.incoming.get()
        self.monitor.received(self.peer, label, value)
        return label, value


def camera(line):
    for frame in (b"one", b"two", b"three"):
        line.receive()
        line.send("frame", frame)
    line.receive()
    line.send("over")


def screen(line):
    while True:
        line.send("ready")
        label, frame = line.receive()
        if label == "over":
            break
        print(frame.decode())
    try:
        line.send("ready")  # the session is over: a fault of this program
    except rumpsteak.Departure as departure:
        print(departure)


def main():
    to_camera, to_screen = queue.Queue(), queue.Queue()
    filming = threading.Thread(target=camera, args=(Line("Camera", "Screen", to_screen, to_camera),))
    filming.start()
    screen(Line("Screen", "Camera", to_camera, to_screen))
    filming.join()


main()
