#!/usr/bin/env python3
"""Measures a server's resident memory as its tables fill, and the datagrams that the kernel queues
for it.

Run it at the top of the repository, after `rt run` in crates/fcd and crates/fcasm:

    python3 bench/room.py

Memory is that of `fcd play`, which has the tables of `fcd serve`, and whose time passes as its
lines say. For the datagrams a `fcd serve` is stopped by SIGSTOP and sent pings; /proc/net/udp has
the number that the kernel dropped."""
import os
import signal
import subprocess
import sys
from pathlib import Path

from one_endpoint import BLOCK1, CONFIRMABLE, FCASM, FCD, GET, LONG, NON_CONFIRMABLE, OBSERVE, PUT, Server, numbered, request

SLOTS, MOST, OBSERVERS, PLACES, WINDOW = 64, 1024, 32, 1024, 247_000
SENT = 5000


class Played:
    """A `fcd play`, which gets one datagram after the other."""

    def __init__(self):
        self.child = subprocess.Popen([FCD, "play"], stdin=subprocess.PIPE, stdout=subprocess.PIPE, text=True)
        self.now = self.number = 0
        self.ask(request(CONFIRMABLE, GET, "p/0"))

    def ask(self, message):
        """Returns the code of the response."""
        self.number = self.number % 65535 + 1
        print(self.now, 1, numbered(message, self.number).hex(), file=self.child.stdin, flush=True)
        return int(self.child.stdout.readline().split()[1][2:4], 16)

    def wait(self):
        """Expires each exchange."""
        self.now += WINDOW


def resident(child):
    status = Path(f"/proc/{child.pid}/status").read_text(encoding="ascii")
    return int(status.split("VmRSS:")[1].split()[0])


def largest():
    """Returns the image of a program of 1,024 slots, whose GET is answered by 4,096 bytes."""
    count = len([it for it in LONG.splitlines() if not it.endswith(":")])
    text = "mov64 r0, 0\n" * (MOST - count) + LONG
    words = [FCASM, "image", "--format", "2", "--vars", "256", "--budget", "auto"]
    return subprocess.run(words, input=text.encode(), stdout=subprocess.PIPE, check=True).stdout


def row(what, child):
    print(f"| {what} | {resident(child):,} |", flush=True)


def memory():
    played, image = Played(), largest()
    print("| Resident memory | KiB |\n|---|---|")
    with Server() as server:
        row("`fcd serve`, two workers, empty slots", server.child)
    row("`fcd play`, empty slots", played.child)
    for slot in range(SLOTS):
        for at in range(0, len(image), 1024):
            more = at + 1024 < len(image)
            block = bytes([at >> 6 & 0xF0 | more << 3 | 6])
            code = played.ask(request(CONFIRMABLE, PUT, f"p/{slot}", more=[(BLOCK1, block)], body=image[at : at + 1024]))
        assert code == 0x41, hex(code)
    row(f"the same, and {SLOTS} programs of {MOST:,} slots, with 256 bytes of variables each", played.child)
    played.wait()
    while played.ask(request(CONFIRMABLE, GET, "r/1")) == 0x45:
        pass
    row(f"the same, and {PLACES:,} exchanges, whose answers have 1,041 bytes", played.child)
    for slot in range(SLOTS):
        if slot % 16 == 0:
            played.wait()
        for number in range(OBSERVERS):
            assert played.ask(request(NON_CONFIRMABLE, GET, f"r/{slot}", token=bytes([number]), more=[(OBSERVE, b"")])) == 0x45
    row(f"the same, and {SLOTS * OBSERVERS:,} observers", played.child)
    played.child.stdin.close()
    played.child.wait()


def kept(size):
    """Returns how many datagrams of this size are queued for a server that is busy."""
    with Server() as server:
        os.kill(server.child.pid, signal.SIGSTOP)
        client = server.endpoint()
        for number in range(SENT):
            client.send((b"\x40\x00" + number.to_bytes(2, "big")).ljust(size, b"\x01"))
        dropped = int(next(it for it in Path("/proc/net/udp").read_text().splitlines() if f"0100007F:{server.port:04X} 00000000:0000" in it).split()[-1])
        os.kill(server.child.pid, signal.SIGCONT)
        return SENT - dropped


def main():
    memory()
    room = Path("/proc/sys/net/core/rmem_default").read_text(encoding="ascii").strip()
    print(f"\n| Of {SENT:,} datagrams at once, with net.core.rmem_default {room} | are kept |\n|---|---|")
    for size in (4, 100, 500, 1280):
        print(f"| of {size:,} bytes | {kept(size):,} |", flush=True)
    return 0


if __name__ == "__main__":
    sys.exit(main())
