#!/usr/bin/env python3
"""Measures the processor time of a request: `fcd serve`, libcoap's `coap-server`, and a bare echo
(bench/echo.c).

The last is a server in C that only receives and sends. Run it at the top of the repository, after
`rt run` in crates/fcd, with gcc and Debian's libcoap3-bin:

    python3 bench/processor_time.py

Each measurement has a fresh server, pinned to two processors of its own, and 1,000 confirmable
requests from one client or from eight, pinned to two others; at most 64 wait for their response.
The output has the user and the system time of the server's process over these, divided by their
number: the least and the median of fifteen rounds, in which the servers alternate. A fresh server
stores 1,024 exchanges for 247 s, so no round can be longer."""
import os
import shutil
import socket
import statistics
import struct
import subprocess
import sys
import tempfile

from one_endpoint import numbered
from ping import wait_for

FCD = "crates/fcd/out/fcd"
REQUESTS = 1000
WAITING = 64
ROUNDS = 15
PORT = 5698
ADDRESS = ("127.0.0.1", PORT)

# `mov64 r0, 0` and `exit`, with no variables and with eight bytes of them.
PLAIN = bytes.fromhex("46434231000002000200000000000000" "b700000000000000" "9500000000000000")
EIGHT = bytes.fromhex("46434231080002000200000000000000" "b700000000000000" "9500000000000000")


def looped(turns):
    """Returns an image of a loop of this many iterations of six steps each, and four other
    steps."""
    code = [(0xB7, 0, 0, 0), (0xB7, 6, 0, 0), *[(0x07, 0, 0, 1)] * 4, (0x07, 6, 0, 1), (0xA5, 6, -6, turns), (0xB7, 0, 0, 0), (0x95, 0, 0, 0)]
    head = struct.pack("<4sHHII", b"FCB2", 0, len(code), 4 + 6 * turns, 0)
    return head + b"".join(struct.pack("<BBhi", *it) for it in code)


PUT = bytes.fromhex("40030000b1700130ff")
GET = bytes.fromhex("40010000b1720130")
POST = bytes.fromhex("40020000b1720130")
# libcoap's server has no resource that a POST changes; `/` is a short text.
ROOT = bytes.fromhex("40010000")
EXAMPLE = bytes.fromhex("40030000bc") + b"example_data\xff1"


def processor_time(pid):
    """Returns the user and system time of a process so far, in nanoseconds by the scheduler, of all
    its threads."""
    total = 0
    for thread in os.listdir(f"/proc/{pid}/task"):
        with open(f"/proc/{pid}/task/{thread}/schedstat", encoding="ascii") as file:
            total += int(file.read().split()[0])
    return total


def ask(clients, request, code):
    """Has the clients send the requests, some at a time, and receive their responses."""
    waiting = WAITING // len(clients)
    each = REQUESTS // len(clients)
    for begin in range(0, each, waiting):
        numbers = range(begin, min(begin + waiting, each))
        for number in numbers:
            for client in clients:
                client.send(numbered(request, number + 2))
        for _ in numbers:
            for client in clients:
                answer = client.recv(2048)
                if answer[1] != code:
                    sys.exit(f"answered {answer.hex()}")


def client_of():
    client = socket.socket(socket.AF_INET, socket.SOCK_DGRAM)
    client.settimeout(2)
    client.connect(ADDRESS)
    return client


def round_of(words, setup, request, code, count):
    """Returns the microseconds of the server's processor time for each request of one round."""
    server = subprocess.Popen(["taskset", "-c", "2,3", *words], stdout=subprocess.DEVNULL, stderr=subprocess.DEVNULL)
    try:
        wait_for(server, ADDRESS)
        clients = [client_of() for _ in range(count)]
        if setup:
            clients[0].send(numbered(setup, 1))
            clients[0].recv(2048)
        before = processor_time(server.pid)
        ask(clients, request, code)
        return (processor_time(server.pid) - before) / (REQUESTS // count * count) / 1000
    finally:
        server.terminate()
        server.wait()


def main():
    os.sched_setaffinity(0, {0, 1})
    with tempfile.TemporaryDirectory() as room:
        echo = f"{room}/echo"
        subprocess.run(["gcc", "-O2", "-o", echo, "bench/echo.c"], check=True)
        measure([echo, str(PORT)])
    return 0


def measure(echo):
    libcoap = [shutil.which("coap-server") or "coap-server-notls", "-A", "127.0.0.1", "-p", str(PORT)]
    serve = [FCD, "serve", "--port", str(PORT)]
    alone = [*serve, "--workers", "1"]
    kinds = [
        ("`fcd serve`, GET of a program of 2 slots", serve, PUT + PLAIN, GET, 0x45),
        ("`fcd serve`, POST that commits", serve, PUT + EIGHT, POST, 0x44),
        ("`fcd serve`, GET of 5,998 steps, worked off where it was received", serve, PUT + looped(999), GET, 0x45),
        ("`fcd serve`, GET of 6,004 steps, handed to a worker", serve, PUT + looped(1000), GET, 0x45),
        ("`fcd serve --workers 1`, GET", alone, PUT + PLAIN, GET, 0x45),
        ("`fcd serve --workers 1`, POST", alone, PUT + EIGHT, POST, 0x44),
        ("`coap-server`, GET of `/`", libcoap, b"", ROOT, 0x45),
        ("`coap-server`, PUT of `example_data`", libcoap, EXAMPLE, EXAMPLE, 0x44),
        ("a server that only receives and sends", echo, b"", GET, 0x45),
    ]
    times = {}
    for _ in range(ROUNDS):
        for name, *kind in kinds:
            for count in (1, 8):
                times.setdefault((name, count), []).append(round_of(*kind, count))
    print("| A request | 1 client: least, us | middle, us | 8 clients: least, us | middle, us |\n|---|---|---|---|---|")
    for name, *_ in kinds:
        cells = [f(times[name, count]) for count in (1, 8) for f in (min, statistics.median)]
        print(f"| {name} | " + " | ".join(f"{cell:.1f}" for cell in cells) + " |", flush=True)


if __name__ == "__main__":
    sys.exit(main())
