#!/usr/bin/env python3
"""Relays between the nodes of a cluster on loopback, which can be cut: soak.py starts it.

    relays.py NODE:PORT=PEER:PORT ..

Each word is the way of a node to a peer: the port that the node connects to, and the one that the peer listens at. It obeys
lines on standard input: `cut 1,2` lets nothing pass any more between these nodes and the others, and no end is told; `join`
closes what was cut, and lets new connections pass; `delay 40` holds each piece back from then on, for up to 40 milliseconds
and mostly for few. It ends with its input.
"""
import asyncio
import random
import sys

LOOPBACK = "127.0.0.1"
PIECE = 1 << 16


class Relays:
    def __init__(self):
        self.cut, self.flows = set(), []
        # For how many seconds a piece is held back at most.
        self.delay = 0.0

    def is_cut(self, node, peer):
        return (node in self.cut) != (peer in self.cut)

    async def pass_on(self, way, reader, writer):
        try:
            while data := await reader.read(PIECE):
                # What comes over a way that is cut is lost, and so is its connection, once the halves are joined.
                while self.is_cut(*way):
                    await asyncio.sleep(0.05)
                if self.delay:
                    await asyncio.sleep(self.delay * random.random() ** 4)
                writer.write(data)
                await writer.drain()
        except OSError:
            return

    async def serve(self, way, port, reader, writer):
        flow = asyncio.current_task()
        self.flows.append((way, flow))
        ends = [writer]
        try:
            there, to = await asyncio.open_connection(LOOPBACK, port)
            ends.append(to)
            await asyncio.wait(
                [asyncio.create_task(self.pass_on(way, reader, to)), asyncio.create_task(self.pass_on(way, there, writer))],
                return_when=asyncio.FIRST_COMPLETED,
            )
        except (OSError, asyncio.CancelledError):
            pass
        finally:
            self.flows.remove((way, flow))
            for end in ends:
                end.transport.abort()

    async def obey(self, line):
        words = line.split()
        if words[0] == "cut":
            self.cut = set(map(int, words[1].split(",")))
        elif words[0] == "delay":
            self.delay = int(words[1]) / 1000
        else:
            for way, flow in list(self.flows):
                if self.is_cut(*way):
                    flow.cancel()
            await asyncio.sleep(0)
            self.cut = set()


async def main():
    relays = Relays()
    for word in sys.argv[1:]:
        (node, at), (peer, port) = (half.split(":") for half in word.split("="))
        way = int(node), int(peer)
        await asyncio.start_server(
            lambda reader, writer, way=way, port=int(port): relays.serve(way, port, reader, writer), LOOPBACK, int(at)
        )
    print("ready", flush=True)
    commands = asyncio.StreamReader()
    await asyncio.get_running_loop().connect_read_pipe(lambda: asyncio.StreamReaderProtocol(commands), sys.stdin)
    while line := await commands.readline():
        await relays.obey(line.decode())


asyncio.run(main())
