"""The clients of `make live`, of a server that is deaf to the first questions. Each question gets
its own answer, also if others with the same number wait, and is asked again until it has it."""

import asyncio

from tests.gate.tools import TOP

QUERIES = [bytes((0, 9, *b"question", number)) for number in range(4)]


class Deaf(asyncio.DatagramProtocol):
    """A server that doesn't hear the first of so many questions, and gives others back."""

    def __init__(self, count):
        self.left = count

    def connection_made(self, transport):
        self.transport = transport

    def datagram_received(self, data, address):
        self.left -= 1
        if self.left < 0:
            self.transport.sendto(data, address)


async def asked(line_of, deaf_to):
    """What a client gets for all questions, which it asks at once."""
    loop = asyncio.get_running_loop()
    server, _ = await loop.create_datagram_endpoint(
        lambda: Deaf(deaf_to), local_addr=("127.0.0.1", 0))
    client, line = await loop.create_datagram_endpoint(
        line_of, remote_addr=server.get_extra_info("sockname"))
    try:
        return await asyncio.gather(*map(line.ask, QUERIES))
    finally:
        client.close()
        server.close()


def test_clients(monkeypatch):
    monkeypatch.syspath_prepend(TOP / "live")
    import clients

    monkeypatch.setattr(clients, "RETRY", 0.1)
    for deaf_to, again in ((0, 0), (4, 1), (99, 3)):
        got = asyncio.run(asked(clients.Line, deaf_to))
        wanted = [None if deaf_to == 99 else query[2:] for query in QUERIES]
        assert [answer and answer[2:] for answer, _ in got] == wanted
        assert {count for _, count in got} == {again}
