"""Two tasks of asyncio: a session by its endpoints, and the same conversation over asyncio.Queue by monitors."""

import asyncio

import rumpsteak

TEXT = """
roles Client, Server
protocol rec X. Client->Server{square(nat). Server->Client:result(nat). X, bye(). end}
"""


async def client(end):
    for number in (3, 4):
        await end.send_async("square", number)
        print((await end.receive_async()).value)
    await end.send_async("bye")


async def server(end):
    while not end.has_ended:
        label, number = await end.receive_async()
        if label == "square":
            await end.send_async("result", number * number)


class Line:
    """An end over two queues of asyncio, with the calls of an endpoint. Each act goes through a monitor."""

    def __init__(self, role, peer, outgoing, incoming):
        self.monitor, self.peer = rumpsteak.Monitor(TEXT, role), peer
        self.outgoing, self.incoming = outgoing, incoming

    @property
    def has_ended(self):
        return self.monitor.has_ended

    async def send_async(self, label, value=None):
        self.monitor.sent(self.peer, label, value)
        await self.outgoing.put((label, value))

    async def receive_async(self):
        label, value = await self.incoming.get()
        self.monitor.received(self.peer, label, value)
        return rumpsteak.Message(label, value)


async def main():
    ends = rumpsteak.Session(TEXT).endpoints()
    await asyncio.gather(client(ends["Client"]), server(ends["Server"]))
    there, back = asyncio.Queue(), asyncio.Queue()
    await asyncio.gather(client(Line("Client", "Server", there, back)), server(Line("Server", "Client", back, there)))


asyncio.run(main())
