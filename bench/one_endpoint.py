#!/usr/bin/env python3
"""Measures the resources that one endpoint can take from the others, and the traffic to a forged
source.

Run it at the top of the repository, after `rt run` in crates/fcd and crates/fcasm:

    python3 bench/one_endpoint.py [--wait]

Each row has a fresh server on a free port, one socket that takes resources, and another that
behaves like any other client. A forger's datagrams in another endpoint's name are sent here from
that endpoint's own socket. With --wait it also prints how long the others are answered 5.03, which
takes 247 s twice."""
import socket
import subprocess
import sys
import time

FCD, FCASM = "crates/fcd/out/fcd", "crates/fcasm/out/fcasm"
PLACES, TRANSFERS, OBSERVERS, COPIES, POSTS = 1024, 16, 32, 1000, 200
CONFIRMABLE, NON_CONFIRMABLE = 0x40, 0x50
GET, POST, PUT, DELETE = 1, 2, 3, 4
OBSERVE, PATH, BLOCK1 = 6, 11, 27
FULL = 0xA3  # 5.03

PLAIN = "mov64 r0, 0\nexit\n"

# A GET is answered by 4,096 bytes, of which the first block has 1,024; a POST sets the notify flag.
LONG = (
    "mov64 r6, r1\nldxb r7, r1, 0\njeq r7, 2, post\n"
    + "mov64 r1, r6\nmov64 r2, 1024\ncall 5\n" * 4
    + "mov64 r0, 0\nexit\npost:\ncall 7\nmov64 r0, 0\nexit\n"
)

# A run of either method calls `notify` 1,000 times in each of 60 places: 62,003 steps.
DEAR = "mov64 r6, 0\nnext:\n" + "call 7\n" * 60 + "add64 r6, 1\njlt r6, 1000, next\nmov64 r0, 0\nexit\n"


def image(text, version=1):
    words = [FCASM, "image", "--format", str(version), "--vars", "0", "--budget", "auto"]
    return subprocess.run(words, input=text.encode(), stdout=subprocess.PIPE, check=True).stdout


def request(kind, code, path, number=0, token=b"", more=(), body=b""):
    """Returns a request's bytes.

    `more` are options in addition to the path. All have numbers and lengths that fit a nibble or an
    additional byte."""
    said, last = b"", 0
    for option, value in sorted([*((PATH, it.encode()) for it in path.split("/") if it), *more], key=lambda it: it[0]):
        delta = option - last
        said += bytes([min(delta, 13) << 4 | len(value)]) + (bytes([delta - 13]) if delta > 12 else b"") + value
        last = option
    return bytes([kind | len(token), code]) + number.to_bytes(2, "big") + token + said + (b"\xff" + body if body else b"")


def numbered(message, number):
    return message[:2] + number.to_bytes(2, "big") + message[4:]


class Server:
    """A server of its own, and sockets that send it requests."""

    def __enter__(self):
        with socket.socket(socket.AF_INET, socket.SOCK_DGRAM) as free:
            free.bind(("127.0.0.1", 0))
            self.port = free.getsockname()[1]
        self.child = subprocess.Popen([FCD, "serve", "--port", str(self.port)])
        time.sleep(0.3)
        return self

    def __exit__(self, *_):
        self.child.kill()
        self.child.wait()

    def endpoint(self):
        made = socket.socket(socket.AF_INET, socket.SOCK_DGRAM)
        made.connect(("127.0.0.1", self.port))
        made.settimeout(60)
        return made

    def install(self, program, slot=1):
        put = request(CONFIRMABLE, PUT, f"p/{slot}", number=65535, body=program)
        assert ask(self.endpoint(), put)[1] in (0x41, 0x44)

    def processor_time(self):
        """Returns the user and system time so far, in seconds."""
        with open(f"/proc/{self.child.pid}/stat", encoding="ascii") as file:
            fields = file.read().rsplit(")", 1)[1].split()
        return (int(fields[11]) + int(fields[12])) / 100


def ask(endpoint, message):
    endpoint.send(message)
    return endpoint.recv(2048)


def code(answer):
    return f"{answer[1] >> 5}.{answer[1] & 31:02}"


def row(sent, size, came):
    print(f"| {sent} | {size:,} | {came} |", flush=True)


def until_room(server, message, wait):
    """Returns how long the others are answered 5.03, if that is to be measured."""
    began, number = time.monotonic(), 100
    while wait:
        number += 1
        if ask(server.endpoint(), numbered(message, number))[1] != FULL:
            return f", for {time.monotonic() - began:.0f} s"
        time.sleep(0.5)
    return ""


def places(wait):
    with Server() as server:
        server.install(image(PLAIN))
        taker, size = server.endpoint(), 0
        for number in range(PLACES):
            message = request(NON_CONFIRMABLE, GET, "", number)
            size += len(message)
            ask(taker, message)
        others = request(CONFIRMABLE, GET, "r/1", 1)
        told = code(ask(server.endpoint(), others))
        row(f"{PLACES:,} non-confirmable requests", size, f"each new request of the others is answered {told}{until_room(server, others, wait)}")


def transfers(wait):
    with Server() as server:
        taker, size = server.endpoint(), 0
        for slot in range(TRANSFERS):
            message = request(NON_CONFIRMABLE, PUT, f"p/{slot}", slot, more=[(BLOCK1, b"\x08")], body=bytes(16))
            size += len(message)
            assert code(ask(taker, message)) == "2.31"
        others = request(CONFIRMABLE, PUT, "p/20", 1, more=[(BLOCK1, b"\x08")], body=bytes(16))
        whole = request(CONFIRMABLE, PUT, "p/20", 2, body=image(PLAIN))
        endpoint = server.endpoint()
        told = code(ask(endpoint, others)), code(ask(endpoint, whole))
        what = f"a PUT by blocks that another begins is answered {told[0]}, a PUT without blocks {told[1]}"
        row(f"{TRANSFERS} beginnings of a PUT by blocks", size, what + until_room(server, others, wait))


def observers(_):
    with Server() as server:
        server.install(image(PLAIN))
        taker, size = server.endpoint(), 0
        for number in range(OBSERVERS):
            message = request(NON_CONFIRMABLE, GET, "r/1", number, token=bytes([number]), more=[(OBSERVE, b"")])
            size += len(message)
            assert is_observed(ask(taker, message))
        told = ask(server.endpoint(), request(CONFIRMABLE, GET, "r/1", 1, more=[(OBSERVE, b"")]))
        what = f"another's registration is answered {code(told)} {'with' if is_observed(told) else 'without'} Observe"
        row(f"{OBSERVERS} registrations at a slot", size, what)


def is_observed(answer):
    """Returns whether the response has Observe after its ETag, which has 8 bytes."""
    rest = answer[4 + (answer[0] & 15) :]
    return rest[:1] == b"\x48" and rest[9:10] != b"" and rest[9] >> 4 == OBSERVE - 4


def removal(_):
    with Server() as server:
        server.install(image(PLAIN))
        message = request(NON_CONFIRMABLE, DELETE, "p/1")
        ask(server.endpoint(), message)
        told = code(ask(server.endpoint(), request(CONFIRMABLE, GET, "r/1", 1)))
        row("a DELETE", len(message), f"the slot's program is gone for all: {told}")


def processor(_):
    """Measures the most expensive program in a slot with 32 observers.

    Each POST runs it 33 times; the next one is sent after everything that the one before led to."""
    with Server() as server:
        server.install(image(DEAR, 2))
        server.install(image(PLAIN), 2)
        taker, others, longest = server.endpoint(), server.endpoint(), 0
        for number in range(OBSERVERS):
            ask(taker, request(NON_CONFIRMABLE, GET, "r/1", number, token=bytes([number]), more=[(OBSERVE, b"")]))
        message, before, began = request(NON_CONFIRMABLE, POST, "r/1"), server.processor_time(), time.monotonic()
        for number in range(POSTS):
            taker.send(numbered(message, OBSERVERS + number))
            if number % 10 == 0:
                asked = time.monotonic()
                ask(others, request(CONFIRMABLE, GET, "r/2", number))
                longest = max(longest, time.monotonic() - asked)
            for _ in range(1 + OBSERVERS):
                taker.recv(2048)
        took, spent = time.monotonic() - began, server.processor_time() - before
        row(f"{POSTS} POSTs of a program of 62,003 steps, with {OBSERVERS} observers", POSTS * len(message), f"{spent:.1f} s of processor time, "
            f"{spent / POSTS * 1000:.0f} ms each; of {POSTS // 10} GETs of a cheap program beside them one waited {longest * 1000:.0f} ms, the others less")
        assert took < 200  # less than the time after which exchanges expire


def copies(_):
    with Server() as server:
        server.install(image(LONG))
        named, sizes = server.endpoint(), set()
        message = request(CONFIRMABLE, GET, "r/1", 7)
        for _ in range(COPIES):
            sizes.add(len(ask(named, message)))
        free = code(ask(server.endpoint(), request(CONFIRMABLE, GET, "r/1", 1)))
        most = max(sizes)
        row(f"a confirmable GET, {COPIES:,} times the same", len(message), f"{most:,} bytes each time, {most / len(message):.0f} times as many; "
            f"the copies take no place: another is answered {free} behind them")


def changes(_):
    with Server() as server:
        server.install(image(LONG))
        named = server.endpoint()
        for number in range(OBSERVERS):
            assert is_observed(ask(named, request(NON_CONFIRMABLE, GET, "r/1", number, token=bytes([number]), more=[(OBSERVE, b"")])))
        message = request(NON_CONFIRMABLE, POST, "r/1")
        server.endpoint().send(message)
        size = sum(len(named.recv(2048)) for _ in range(OBSERVERS))
        row(f"a POST, behind {OBSERVERS} registrations", len(message), f"{size:,} bytes to whom the registrations named, {size / len(message):,.0f} times as many")


def main():
    wait = "--wait" in sys.argv[1:]
    print("| One endpoint sends | bytes | and then |\n|---|---|---|")
    for it in (places, transfers, observers, removal, processor):
        it(wait)
    print("\n| In another's name | bytes | are answered to that other by |\n|---|---|---|")
    for it in (copies, changes):
        it(wait)
    return 0


if __name__ == "__main__":
    sys.exit(main())
