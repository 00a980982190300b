#!/usr/bin/env python3
"""Sends requests to other servers by `fcreq`: libcoap's, also with lost datagrams, and one of this
script's own.

libcoap's server is that of Debian's libcoap3-bin. The script's own server names small blocks,
executes each block by itself, sends separate responses, and changes its response midway. Each row
has to have the right bytes, or an error.

Run it at the top of the repository, after `rt run` in crates/fcreq. `rt ci` doesn't run it. The
status is 0 if all rows are right."""
import os
import shutil
import socket
import subprocess
import sys
import threading
import time

FCREQ = "crates/fcreq/out/fcreq"
SERVER = shutil.which("coap-server-notls") or shutil.which("coap-server")
FAILED = []


def fcreq(method, target, body=b"", *words):
    began = time.time()
    ran = subprocess.run([FCREQ, *words, method, target], input=body, capture_output=True, timeout=200)
    return ran.returncode, ran.stdout.decode(), ran.stderr.decode().strip(), time.time() - began


def row(name, ran, status, code=None, body=None, told=None):
    """Returns one row of the table: the result, and whether it is right."""
    lines = ran[1].split("\n")
    right = ran[0] == status and (code is None or lines[0] == code)
    if body is not None:
        right = right and bytes.fromhex(lines[1] if len(lines) > 1 else "") == body
    if told is not None:
        right = right and told in ran[2]
    shown = lines[0] or ran[2]
    print(f"| {name} | {shown} | {ran[0]} | {ran[3]:.1f} | {'right' if right else 'WRONG'} |", flush=True)
    if not right:
        FAILED.append((name, ran))


def free_port():
    with socket.socket(socket.AF_INET, socket.SOCK_DGRAM) as s:
        s.bind(("127.0.0.1", 0))
        return s.getsockname()[1]


def libcoap(*words):
    port = free_port()
    server = subprocess.Popen([SERVER, "-A", "127.0.0.1", "-p", str(port), "-d", "4", *words], stdout=subprocess.DEVNULL, stderr=subprocess.DEVNULL)
    time.sleep(0.5)
    return server, f"coap://127.0.0.1:{port}"


def against_libcoap():
    body = bytes(i % 251 for i in range(5000))
    server, at = libcoap()
    try:
        row("libcoap: GET /", fcreq("get", at + "/"), 0, "2.05")
        row("libcoap: GET / by -N", fcreq("get", at + "/", b"", "-N"), 0, "2.05")
        row("libcoap: PUT of 5,000 bytes", fcreq("put", at + "/kept", body), 0)
        row("libcoap: GET of 5,000 bytes", fcreq("get", at + "/kept"), 0, "2.05", body)
        row("libcoap: GET of 5,000 bytes by -N", fcreq("get", at + "/kept", b"", "-N"), 0, "2.05", body)
        row("libcoap: a separate response after 3 s", fcreq("get", at + "/async?3"), 0, "2.05", b"done")
        row("libcoap: nothing there", fcreq("get", at + "/none"), 1, "4.04")
        row("libcoap: DELETE", fcreq("delete", at + "/kept"), 0, "2.02")
    finally:
        server.kill()
        server.wait()
    server, at = libcoap()
    try:
        # It executes a last block that is sent again, because its response was lost, as a separate
        # body. So only requests of the PUT are lost.
        lossy = Lossy(at, 3, 0)
        row("libcoap, every third request lost: PUT of 5,000 bytes", fcreq("put", lossy.at + "/kept", body), 0)
        lossy = Lossy(at, 3, 4)
        row("libcoap, every third request and fourth answer lost: GET of 5,000 bytes", fcreq("get", lossy.at + "/kept"), 0, "2.05", body)
    finally:
        server.kill()
        server.wait()


class Lossy(threading.Thread):
    """A relay between a client and a server that loses every n-th request, and every n-th response;
    0 loses none."""

    def __init__(self, at, requests, answers):
        super().__init__(daemon=True)
        self.socket = socket.socket(socket.AF_INET, socket.SOCK_DGRAM)
        self.socket.bind(("127.0.0.1", 0))
        self.server = ("127.0.0.1", int(at.rsplit(":", 1)[1]))
        self.at = f"coap://127.0.0.1:{self.socket.getsockname()[1]}"
        self.every, self.count, self.client = (requests, answers), [0, 0], None
        self.start()

    def run(self):
        while True:
            data, peer = self.socket.recvfrom(2048)
            way = 1 if peer == self.server else 0
            if way == 0:
                self.client = peer
            self.count[way] += 1
            if self.every[way] == 0 or self.count[way] % self.every[way] != 0:
                self.socket.sendto(data, self.client if way else self.server)


def options_of(data):
    """Returns the options and the payload of a message without a token."""
    at, number, options = 4 + (data[0] & 15), 0, {}
    while at < len(data) and data[at] != 0xFF:
        delta, length = data[at] >> 4, data[at] & 15
        at += 1
        if delta == 13:
            delta, at = 13 + data[at], at + 1
        if length == 13:
            length, at = 13 + data[at], at + 1
        number += delta
        options[number] = data[at:at + length]
        at += length
    return options, data[at + 1:]


def message(kind, code, mid, options=(), payload=b""):
    out, before = bytes([0x40 | kind << 4, code]) + mid.to_bytes(2, "big"), 0
    for number, value in sorted(options):
        delta, before = number - before, number
        head, more = (delta, b"") if delta < 13 else (13, bytes([delta - 13]))
        out += bytes([head << 4 | len(value)]) + more + value
    return out + (b"\xff" + payload if payload else b"")


def block(number, more, szx):
    value = number << 4 | (8 if more else 0) | szx
    return value.to_bytes((value.bit_length() + 7) // 8, "big")


class Own(threading.Thread):
    """A server of the paths below, one datagram at a time."""

    def __init__(self):
        super().__init__(daemon=True)
        self.socket = socket.socket(socket.AF_INET, socket.SOCK_DGRAM)
        self.socket.bind(("127.0.0.1", 0))
        self.at = f"coap://127.0.0.1:{self.socket.getsockname()[1]}"
        self.body, self.parts, self.gets, self.mid, self.lose = b"", {}, 0, 1000, set()
        self.seen = 0

    def run(self):
        while True:
            data, peer = self.socket.recvfrom(2048)
            if data[1] == 0:
                continue
            self.seen += 1
            if self.seen in self.lose:
                continue
            options, payload = options_of(data)
            mid = int.from_bytes(data[2:4], "big")
            for out in self.answer(data[1], options.get(11, b"").decode(), options, payload, mid):
                self.socket.sendto(out, peer)

    def answer(self, method, path, options, payload, mid):
        one = int.from_bytes(options[27], "big") if 27 in options else None
        two = int.from_bytes(options[23], "big") if 23 in options else None
        if path == "small" and method == 3:
            return [self.put_small(one, payload, mid)]
        if path == "each" and method == 3:
            number, szx = one >> 4, one & 7
            self.parts[number] = payload
            self.body = b"".join(self.parts[n] for n in sorted(self.parts))
            return [message(2, 0x44, mid, [(27, block(number, False, szx))])]
        if path == "begun":
            return [message(2, 0x44, mid, [(27, block(0, False, 6))])]
        if path == "small":
            return [self.get_small(two, mid, b"\x01")]
        if path == "moves":
            self.gets += 1
            return [self.get_small(two, mid, bytes([min(self.gets, 2)]))]
        if path == "never":
            self.gets += 1
            return [self.get_small(two, mid, bytes([self.gets % 250]))]
        if path in ("con", "non"):
            self.mid += 1
            late = message(0 if path == "con" else 1, 0x45, self.mid, [], b"late")
            return [message(2, 0, mid), late, late]
        return [message(2, 0x84, mid)]

    def put_small(self, one, payload, mid):
        number, more, szx = one >> 4, bool(one & 8), one & 7
        if number == 0:
            self.body = b""
        if number << (szx + 4) != len(self.body):
            return message(2, 0x88, mid)
        self.body += payload
        return message(2, 0x5F if more else 0x44, mid, [(27, block(number, more, min(szx, 2)))])

    def get_small(self, two, mid, etag):
        number, szx = (two >> 4, min(two & 7, 2)) if two is not None else (0, 2)
        begin = number << ((two & 7) + 4) if two is not None else 0
        number = begin >> (szx + 4)
        part = self.body[begin:begin + (16 << szx)]
        more = begin + len(part) < len(self.body)
        return message(2, 0x45, mid, [(4, etag), (23, block(number, more, szx))], part)


def against_own():
    own = Own()
    own.start()
    body = bytes(i % 249 for i in range(3000))
    row("blocks of 64 bytes: PUT of 3,000", fcreq("put", own.at + "/small", body), 0, "2.04")
    row("what came is the body", (0 if own.body == body else 1, "", "", 0.0), 0)
    row("blocks of 64 bytes: GET of 3,000", fcreq("get", own.at + "/small"), 0, "2.05", body)
    row("each block by itself: PUT of 3,000", fcreq("put", own.at + "/each", body), 0, "2.04")
    row("what came is the body", (0 if own.body == body else 1, "", "", 0.0), 0)
    row("2.04 of block 0 again and again", fcreq("put", own.at + "/begun", body), 3, told="doesn't fit")
    row("an ETag that changes once", fcreq("get", own.at + "/moves"), 0, "2.05", body)
    row("an ETag that changes for ever", fcreq("get", own.at + "/never"), 3, told="changed")
    row("a confirmable response, twice", fcreq("get", own.at + "/con"), 0, "2.05", b"late")
    row("a non-confirmable response, twice", fcreq("get", own.at + "/non"), 0, "2.05", b"late")
    own.lose = {own.seen + 1, own.seen + 2}
    row("two requests lost", fcreq("get", own.at + "/con"), 0, "2.05", b"late")
    row("nobody listens", fcreq("get", f"coap://127.0.0.1:{free_port()}/r/1"), 3, told="Connection refused")


def main():
    if not os.path.exists(FCREQ):
        sys.exit(f"{FCREQ} isn't there: `rt run -- --version` in crates/fcreq builds it")
    print("| Asked | Told | Status | Seconds | |\n|---|---|---|---|---|")
    against_own()
    if SERVER:
        against_libcoap()
    else:
        print("libcoap's server isn't there: Debian's libcoap3-bin has it")
    for name, ran in FAILED:
        print(f"{name}: {ran}", file=sys.stderr)
    return 1 if FAILED else 0


if __name__ == "__main__":
    sys.exit(main())
