#!/usr/bin/python3
"""Drives the echo program over links with Python's `websockets`, outside the gate.

    tools/link_check.py [PROGRAM]

PROGRAM is `crates/link_echo/out/link_echo` where it is not given; `rt run` in `crates/link_echo` makes it.
It needs Debian's `python3-websockets`, and is skipped where that or the program is missing.
It prints what it saw, and fails on the first difference. It speaks to 127.0.0.1 alone.
"""

import asyncio
import os
import re
import socket
import struct
import subprocess
import sys
import time

HERE = os.path.dirname(os.path.abspath(__file__))
DEFAULT = os.path.join(HERE, "..", "crates", "link_echo", "out", "link_echo")
HOST = "127.0.0.1"
MANY = 128
PATIENCE = 20

REQUEST = (
    "GET / HTTP/1.1\r\nHost: {host}:{port}\r\nUpgrade: websocket\r\nConnection: keep-alive, Upgrade\r\n"
    "Sec-WebSocket-Key: dGhlIHNhbXBsZSBub25jZQ==\r\nSec-WebSocket-Version: 13\r\n\r\n"
)
ACCEPT = b"s3pPLMBiTxaQ9kYGzzhZRbK+xOo="


class Differs(Exception):
    pass


def want(name, seen, expected):
    if seen != expected:
        raise Differs(f"{name}: saw {seen!r}, wanted {expected!r}")


def within(name, seen, least, most):
    if not least <= seen <= most:
        raise Differs(f"{name}: saw {seen:.3f}, wanted {least} to {most}")


def say(line):
    print(line, flush=True)


async def soon(thing):
    return await asyncio.wait_for(thing, PATIENCE)


class Check:
    """One run of the program, with a pattern for each link in the order of acceptance."""

    def __init__(self, connect, closed, port):
        self.connect = connect
        self.closed = closed
        self.port = port
        self.tallies = []

    def link(self, tally):
        self.tallies.append(tally)

    async def open(self, tally):
        """A link by `websockets`, which offers compression as it does by default."""
        link = await soon(self.connect(f"ws://{HOST}:{self.port}/", max_size=1 << 24))
        want("compression", list(link.extensions), [])
        self.link(tally)
        return link

    async def raw(self):
        return await soon(asyncio.open_connection(HOST, self.port))

    async def raw_open(self, tally, pauses=1):
        """A link by plain bytes, whose request comes in pieces 0.3 s apart."""
        reader, writer = await self.raw()
        request = REQUEST.format(host=HOST, port=self.port).encode()
        size = len(request) // pauses + 1
        for at in range(0, len(request), size):
            if at:
                await asyncio.sleep(0.3)
            writer.write(request[at : at + size])
            await writer.drain()
        head = await soon(reader.readuntil(b"\r\n\r\n"))
        want("status", head.split(b"\r\n")[0].split(b" ")[1], b"101")
        want("accept key", ACCEPT in head, True)
        self.link(tally)
        return reader, writer

    async def ends(self, name, link, code):
        try:
            text = await soon(link.recv())
            raise Differs(f"{name}: saw a text of {len(text)}, wanted the close {code}")
        except self.closed:
            want(name, link.close_code, code)

    async def run(self):
        await self.texts()
        await self.fragments()
        await self.trickle()
        await self.sizes()
        await self.broken_texts()
        await self.ends_of_links()
        await self.handshakes()
        await self.at_once()

    async def texts(self):
        link = await self.open(r"Closed: 3 texts, longest 11, \d+ quiet, 0 faults")
        for text in ["", "hello", "h\u00e9llo \U0001f600"]:
            await link.send(text)
            want("text", await soon(link.recv()), text)
        await link.close()
        want("close of a plain link", link.close_code, 1000)
        say("texts: three sent back, uncompressed though compression was offered; close 1000")

    async def fragments(self):
        link = await self.open(r"Closed: 1 texts, longest 12, \d+ quiet, 0 faults")
        waits = []

        async def pieces():
            yield "h\u00e9"
            began = time.monotonic()
            await soon(await link.ping(b"between"))
            waits.append(time.monotonic() - began)
            await asyncio.sleep(0.2)
            yield "llo, "
            yield "all!"

        await link.send(pieces())
        want("fragments", await soon(link.recv()), "h\u00e9llo, all!")
        within("pong", waits[0], 0, 1)
        await link.close()
        say("fragments: three with a ping and 0.2 s between; the pong came at once, one text back")

    async def trickle(self):
        reader, writer = await self.raw_open(r"Closed: 1 texts, longest 40, (\d+) quiet, 0 faults")
        place = len(self.tallies) - 1
        frame = bytes([0x81, 0x80 | 40, 0, 0, 0, 0]) + b"a" * 40
        began = time.monotonic()
        for byte in frame:
            writer.write(bytes([byte]))
            await writer.drain()
            await asyncio.sleep(0.03)
        took = time.monotonic() - began
        want("trickled text", await soon(reader.readexactly(42)), bytes([0x81, 40]) + b"a" * 40)
        writer.close()
        self.trickled = (place, took)
        say(f"trickle: a text of 40 bytes, a byte each 30 ms ({took:.1f} s), came back whole")

    async def sizes(self):
        for size in [125, 126, 65535, 65536, 65537, 1 << 20]:
            link = await self.open(rf"Closed: 1 texts, longest {size}, \d+ quiet, 0 faults")
            text = "x" * size
            await link.send(text)
            want(f"{size} bytes", await soon(link.recv()) == text, True)
            await link.close()
        say("sizes: 125, 126, 65535, 65536, 65537 and 1048576 bytes came back whole")

    async def broken_texts(self):
        link = await self.open(r"Fault: 0 texts, longest 0, \d+ quiet, 1 faults")
        await link.write_frame(True, 1, b"\xc3\x28")
        await self.ends("invalid UTF-8", link, 1007)
        link = await self.open(r"Fault: 0 texts, longest 0, \d+ quiet, 1 faults")
        link.transport.write(b"\x81\x02hi")
        await self.ends("an unmasked frame", link, 1002)
        link = await self.open(r"Fault: 0 texts, longest 0, \d+ quiet, 1 faults")
        link.transport.write(b"\xc1\x80\0\0\0\0")
        await self.ends("a reserved bit", link, 1002)
        link = await self.open(r"Closed: 0 texts, longest 0, \d+ quiet, 0 faults")
        await link.send(b"bytes")
        await self.ends("a binary message", link, 1003)
        say("broken texts: invalid UTF-8 is closed with 1007, an unmasked frame and a reserved bit with 1002, a binary message with 1003")

    async def ends_of_links(self):
        link = await self.open(r"Closed: 0 texts, longest 0, \d+ quiet, 0 faults")
        await soon(link.close(4321, "enough"))
        want("close code", (link.close_code, link.close_reason), (4321, "enough"))
        _, writer = await self.raw_open(r"Closed: 0 texts, longest 0, \d+ quiet, 0 faults")
        writer.close()
        _, writer = await self.raw_open(r"Fault: 0 texts, longest 0, \d+ quiet, 1 faults")
        held = writer.get_extra_info("socket")
        held.setsockopt(socket.SOL_SOCKET, socket.SO_LINGER, struct.pack("ii", 1, 0))
        writer.transport.abort()
        say("ends: a close with code and reason is answered with both; the end of the stream is Closed; a reset is a fault")

    async def handshakes(self):
        reader, writer = await self.raw()
        writer.write(b"GET / HTTP/1.1\r\nHost: x\r\n\r\n")
        want("no handshake", await soon(reader.read()), b"")
        writer.close()
        reader, writer = await self.raw_open(
            r"Closed: 1 texts, longest 2, \d+ quiet, 0 faults", pauses=3
        )
        writer.write(b"\x81\x82\0\0\0\0hi")
        want("after a slow handshake", await soon(reader.readexactly(4)), b"\x81\x02hi")
        writer.close()
        _, never = await self.raw()
        never.write(b"GET / HTTP/1.1\r\n")
        await asyncio.sleep(0.1)
        began = time.monotonic()
        link = await self.open(r"Closed: 1 texts, longest 5, \d+ quiet, 0 faults")
        waited = time.monotonic() - began
        await link.send("after")
        want("after a client that never finishes", await soon(link.recv()), "after")
        await link.close()
        never.close()
        within("the wait behind a client that never finishes", waited, 0, 4)
        await self.slow_forever()
        say(f"handshakes: a request without WebSocket is dropped; one in three pieces is served; one that never ends held the next for {waited:.1f} s")

    async def slow_forever(self):
        """A client that sends a byte of its head at a time, and never its end."""
        _, writer = await self.raw()

        async def dribble():
            for byte in b"GET / HTTP/1.1\r\nX: " + b"y" * 400:
                try:
                    writer.write(bytes([byte]))
                    await writer.drain()
                except ConnectionError:
                    return
                await asyncio.sleep(0.02)

        running = asyncio.ensure_future(dribble())
        await asyncio.sleep(0.1)
        began = time.monotonic()
        link = await self.open(r"Closed: 0 texts, longest 0, \d+ quiet, 0 faults")
        waited = time.monotonic() - began
        await link.close()
        within("the wait behind a client that dribbles", waited, 0, 4)
        running.cancel()
        writer.close()

    async def at_once(self):
        opened = [self.open(r"Closed: 1 texts, longest \d+, \d+ quiet, 0 faults") for _ in range(MANY)]
        links = await asyncio.gather(*opened)

        async def ask(number, link):
            await link.send(f"link {number}")
            return await soon(link.recv())

        began = time.monotonic()
        answers = await asyncio.gather(*(ask(n, link) for n, link in enumerate(links)))
        want("links at once", answers, [f"link {n}" for n in range(MANY)])
        took = time.monotonic() - began
        await asyncio.gather(*(link.close() for link in links))
        say(f"at once: {MANY} links open together, each was answered within {took:.1f} s")


def free_port():
    with socket.socket() as probe:
        probe.bind((HOST, 0))
        return probe.getsockname()[1]


def judge(check, lines):
    """What the program wrote: a line for each link, in the order of acceptance."""
    want("the links that it served", lines[-1], f"served {len(check.tallies)}")
    want("the number of its lines", len(lines), len(check.tallies) + 1)
    for line, pattern in zip(lines, check.tallies):
        if not re.fullmatch(pattern, line):
            raise Differs(f"a link's line: saw {line!r}, wanted {pattern!r}")
    place, took = check.trickled
    quiet = int(re.fullmatch(check.tallies[place], lines[place]).group(1))
    within("quiet looks of the trickle", quiet, took / 0.05 * 0.5, took / 0.05 * 1.5)
    say(f"program: {lines[-1]}, each link's line as wanted; {quiet} quiet looks in the {took:.1f} s of the trickle")


# The links that one run opens.
LINKS = 3 + 6 + 4 + 3 + 3 + MANY


def main():
    program = sys.argv[1] if len(sys.argv) > 1 else DEFAULT
    try:
        from websockets.exceptions import ConnectionClosed
        from websockets.legacy.client import connect
    except ImportError:
        say(f"link_check: skipped, since {sys.executable} has no websockets (apt-get install python3-websockets)")
        return 0
    if not os.access(program, os.X_OK):
        say(f"link_check: skipped, since {program} is missing (rt run -- {HOST}:0 0 in crates/link_echo makes it)")
        return 0
    port = free_port()
    running = subprocess.Popen([program, f"{HOST}:{port}", str(LINKS)], stdout=subprocess.PIPE, text=True)
    try:
        want("the first line", running.stdout.readline(), "listening\n")
        check = Check(connect, ConnectionClosed, port)
        asyncio.run(check.run())
        rest, _ = running.communicate(timeout=PATIENCE)
        want("the status", running.returncode, 0)
        judge(check, rest.splitlines())
    except Exception as fault:
        say(f"link_check: DIFFERS: {type(fault).__name__}: {fault}")
        return 1
    finally:
        if running.poll() is None:
            running.kill()
            running.wait()
    say("link_check: as wanted")
    return 0


if __name__ == "__main__":
    sys.exit(main())
