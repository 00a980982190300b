#!/usr/bin/env python3
"""Measures the processor time of a change with 32 observers: `fcd serve` and libcoap's
`coap-server`.

Run it at the top of the repository, after `rt run` in crates/fcd, with Debian's libcoap3-bin:

    python3 bench/observers_time.py

Each round has a fresh server, 32 observers on ports of their own, and 100 changes, each made when
all observers were notified of the one before it. A confirmable notification is acknowledged
immediately. The output has the server's user and system time of a change, by the scheduler: the
least and the median of nine rounds. The servers alternate, pinned to two processors of their
own."""
import os
import shutil
import socket
import statistics
import subprocess
import sys

from one_endpoint import numbered
from ping import wait_for
from processor_time import processor_time

FCD = "crates/fcd/out/fcd"
OBSERVERS = 32
CHANGES = 100
ROUNDS = 9
PORT = 5698
SERVER = ("127.0.0.1", PORT)

# A program that counts POSTs in eight bytes of variables, and notifies of each.
COUNT = bytes.fromhex(
    "46434231080009000900000000000000" "b701000000000000" "8500000003000000" "0700000001000000" "bf02000000000000"
    "b701000000000000" "8500000004000000" "8500000007000000" "b700000000000000" "9500000000000000"
)


def asked(client, request, number):
    client.sendto(numbered(request, number), SERVER)
    return client.recv(2048)


def hear(observer):
    """Returns the next notification, which is acknowledged if it is confirmable."""
    message = observer.recv(2048)
    if message[0] & 0x30 == 0:
        observer.sendto(b"\x60\x00" + message[2:4], SERVER)


def round_of(words, setup, observe, change):
    """Returns the microseconds of the server's processor time for each change of one round."""
    server = subprocess.Popen(["taskset", "-c", "2,3", *words], stdout=subprocess.DEVNULL, stderr=subprocess.DEVNULL)
    try:
        wait_for(server, SERVER)
        client, *observers = [socket.socket(socket.AF_INET, socket.SOCK_DGRAM) for _ in range(OBSERVERS + 1)]
        for it in (client, *observers):
            it.settimeout(5)
        if setup:
            asked(client, setup, 1)
        for it in observers:
            asked(it, observe, 2)
        before = processor_time(server.pid)
        for number in range(CHANGES):
            asked(client, change + str(number).encode() if change.endswith(b"\xff") else change, number + 3)
            for it in observers:
                hear(it)
        return (processor_time(server.pid) - before) / CHANGES / 1000
    finally:
        server.terminate()
        server.wait()


def main():
    os.sched_setaffinity(0, {0, 1})
    kinds = []
    for words in ([], ["--workers", "1"]):
        serve = [FCD, "serve", "--port", str(PORT), *words]
        put = bytes.fromhex("40030000b1700130ff") + COUNT
        name = " ".join(["fcd serve", *words])
        kinds.append((f"`{name}`, POST of a program that calls `notify`", serve, put, bytes.fromhex("410100006f6051720130"), bytes.fromhex("40020000b1720130")))
    libcoap = shutil.which("coap-server") or "coap-server-notls"
    # `example_data`, which a PUT changes; it is PUT first, since its initial value needs two blocks
    path = b"example_data"
    observe = bytes.fromhex("410100006f60") + bytes([0x50 | len(path)]) + path
    change = bytes.fromhex("40030000") + bytes([0xb0 | len(path)]) + path + b"\xff"
    kinds.append(("`coap-server`, PUT of `example_data`", [libcoap, "-A", "127.0.0.1", "-p", str(PORT)], change + b"first", observe, change))
    rounds = [[round_of(*kind) for _, *kind in kinds] for _ in range(ROUNDS)]
    print("| A change that 32 observers hear | least, us | middle, us |\n|---|---|---|")
    for (name, *_), times in zip(kinds, zip(*rounds)):
        print(f"| {name} | {min(times):.0f} | {statistics.median(times):.0f} |", flush=True)
    return 0


if __name__ == "__main__":
    sys.exit(main())
