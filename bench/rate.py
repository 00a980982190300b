#!/usr/bin/env python3
"""Measures the POSTs per second that `fcd serve` answers with one, two and four workers.

Run it at the top of the repository, after `rt run` in crates/fcd:

    python3 bench/rate.py

Each measurement has a fresh server whose 64 slots have the same program, and one client that sends
900 POSTs to the slots one after the other; at most 32 wait for their response. A fresh server
stores 1,024 exchanges for 247 s, so no measurement can be longer. The output is the middle of
fifty, by wall-clock time; one, two and four workers alternate."""
import socket
import statistics
import struct
import subprocess
import sys
import time

from ping import wait_for

FCD = "crates/fcd/out/fcd"
PORT = 5698
POSTS = 900
WAITING = 32
ROUNDS = 50

EXIT = bytes.fromhex("b700000000000000" "9500000000000000")


def image(calls, additions):
    """Returns a program without loops.

    Each function calls the next one this many times, and the last one adds this many times."""
    code = b""
    for count in calls:
        code += b"".join(struct.pack("<BBhi", 0x85, 0x10, 0, count - place + 1) for place in range(count)) + EXIT
    code += EXIT[:8] + b"".join(struct.pack("<BBhi", 0x07, 0, 0, place) for place in range(additions)) + EXIT[8:]
    return struct.pack("<4sHHII", b"FCB1", 0, len(code) // 8, 65_536, 0) + code


# steps of a run, and its image: 38 (1 + 38 (1 + 41) + 2) + 2, and 6 (1 + 82) + 2
PROGRAMS = [(60_764, image([38, 38], 39)), (500, image([6], 80)), (2, image([], 0))]


def request(code, resource, slot, number, payload=b""):
    path = str(slot).encode()
    head = bytes([0x40, code]) + number.to_bytes(2, "big") + b"\xb1" + resource + bytes([len(path)]) + path
    return head + (b"\xff" + payload if payload else b"")


def round_of(workers, program):
    """Returns the POSTs per second of one round."""
    server = subprocess.Popen([FCD, "serve", "--port", str(PORT), "--workers", str(workers)], stderr=subprocess.DEVNULL)
    try:
        wait_for(server, ("127.0.0.1", PORT))
        client = socket.socket(socket.AF_INET, socket.SOCK_DGRAM)
        client.connect(("127.0.0.1", PORT))
        client.settimeout(5)
        for slot in range(64):
            client.send(request(3, b"p", slot, slot, program))
            client.recv(2048)
        begun = time.monotonic()
        for number in range(POSTS + WAITING):
            if number >= WAITING and client.recv(2048)[1] != 0x44:
                sys.exit("a POST isn't answered 2.04")
            if number < POSTS:
                client.send(request(2, b"r", number % 64, 64 + number))
        return POSTS / (time.monotonic() - begun)
    finally:
        server.terminate()
        server.wait()


def main():
    print("| Steps of a run | 1 worker | 2 workers | 4 workers |\n|---|---|---|---|")
    for steps, program in PROGRAMS:
        rounds = [[round_of(workers, program) for workers in (1, 2, 4)] for _ in range(ROUNDS)]
        rates = [statistics.median(it) for it in zip(*rounds)]
        print(f"| {steps:,} | " + " | ".join(f"{rate:,.0f}" for rate in rates) + " |", flush=True)
    return 0


if __name__ == "__main__":
    sys.exit(main())
