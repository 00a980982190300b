#!/usr/bin/env python3
"""Tries `fcd serve --log`, changes and reports: which lines standard error gets, by the built program, over its socket.

Run it at the top of the repository, after `rt run` in crates/fcd, which builds what it runs:

    python3 tests/records/try.py

Each of `off`, `info`, `changes` and both is tried with 1 worker and with 2. The digests are those of Python's hashlib. Then reports of each second are tried over
three seconds. Each row that isn't as it has to be is
printed with what came, and then the status is 1.
"""
import hashlib
import re
import socket
import subprocess
import sys
import time
from pathlib import Path

TOP = Path(__file__).resolve().parent.parent.parent
FCD = TOP / "crates/fcd/out/fcd"

# The worked program counter.s; and an image of 512 slots, `mov64 r0, 0`, 511 times, and `exit`, which goes up in five blocks.
COUNTER = bytes.fromhex(
    "4643423108000f000f00000000000000" "7116000000000000" "bf27000000000000" "5506070002000000" "b701000000000000" "8500000003000000"
    "bf02000000000000" "0702000001000000" "b701000000000000" "8500000004000000" "8500000007000000" "bf71000000000000" "b702000008000000"
    "8500000005000000" "b700000000000000" "9500000000000000"
)
LARGEST = b"FCB1\0\0\0\2\0\2\0\0\0\0\0\0" + b"\xb7\0\0\0\0\0\0\0" * 511 + b"\x95" + bytes(7)
# A budget one below the cost.
DEAR = COUNTER[:8] + b"\x0e" + COUNTER[9:]
# The program `mov64 r0, 69` and `exit`, and a registration of /r/7 (RFC 7641, 2).
OBSERVED = b"FCB1\0\0\2\0\2\0\0\0\0\0\0\0" + b"\xb7\0\0\0\x45\0\0\0" + b"\x95" + bytes(7)
OBSERVE = b"\x40\1\0\2\x60\x51r\x017"
GET, PUT, DELETE = 1, 3, 4


def request(method, message_id, slot, payload=b"", block=None):
    """Returns a confirmable request of /p/N without a token (RFC 7252, 3), with a value of Block1, if there is one (RFC 7959, 2.2)."""
    digits = str(slot).encode()
    options = b"\xb1p" + bytes([len(digits)]) + digits + (b"" if block is None else bytes([0xD1, 3, block]))
    return bytes([0x40, method, message_id >> 8, message_id & 255]) + options + (b"\xff" + payload if payload else b"")


def changes(ask):
    """Makes the requests, and returns the code that each has to get, and the one that it got.

    They are an upload, its duplicate, a look, an upload that is refused, a removal, one that finds nothing, five blocks, and a block that begins nowhere."""
    upload = request(PUT, 1, 3, COUNTER)
    blocks = [LARGEST[at : at + 1024] for at in range(0, len(LARGEST), 1024)]
    asked = [(upload, 0x41), (upload, 0x41), (request(GET, 2, 3), 0x45), (request(PUT, 3, 4, DEAR), 0x80)]
    asked += [(request(DELETE, 4, 3), 0x42), (request(DELETE, 5, 3), 0x42)]
    asked += [(request(PUT, 10 + k, 63, it, k * 16 + 8 * (k < 4) + 6), 0x5F if k < 4 else 0x41) for k, it in enumerate(blocks)]
    asked += [(request(PUT, 20, 62, blocks[1], 16 + 8 + 6), 0x88)]
    return [(code, ask(it)) for it, code in asked]


def first_serial(started):
    """Returns the serial that slots begin with, on a server that started this many milliseconds after 1970."""
    return 32 * started + 2**24 * (started // 1000)


def lines_of(peer, version):
    """Returns the lines of these changes, with the version of a first install. The refused block is no request that reaches its slot."""
    digest = {name: hashlib.sha256(it).hexdigest() for name, it in (("counter", COUNTER), ("dear", DEAR), ("largest", LARGEST))}
    return [
        f"change PUT /p/3 peer={peer} code=2.01 version={version} cost=15 budget=15 vars=8 sha256={digest['counter']}",
        f"change PUT /p/4 peer={peer} code=4.00 V16 slot 0 sha256={digest['dear']}",
        f"change DELETE /p/3 peer={peer} code=2.02",
        f"change DELETE /p/3 peer={peer} code=2.02",
        f"change PUT /p/63 peer={peer} code=2.01 version={version} cost=512 budget=512 vars=0 sha256={digest['largest']}",
    ]


def begin(workers, limit, logs):
    """Starts a server of as many datagrams with these values of `--log`, and returns it and its port."""
    with socket.socket(socket.AF_INET, socket.SOCK_DGRAM) as it:
        it.bind(("127.0.0.1", 0))
        port = it.getsockname()[1]
    words = [FCD, "serve", "--port", str(port), "--workers", str(workers), "--limit", str(limit), *(it for log in logs for it in ("--log", log))]
    return subprocess.Popen([str(it) for it in words], stderr=subprocess.PIPE), port


def await_server(client, port):
    """Connects a client to a server, waits until it is there, and returns the time then: an empty confirmable message is answered by a Reset message, and takes no place."""
    client.bind(("127.0.0.1", 0))
    client.settimeout(5)
    for _ in range(100):
        try:
            client.connect(("127.0.0.1", port))
            client.send(b"\x40\0\0\0")
            client.recv(1500)
            break
        except ConnectionRefusedError:
            time.sleep(0.05)
    return time.time()


def serve(workers, logs):
    """Returns what is wrong, and the lines of standard error, of a server that is asked for these changes."""
    before = time.time()
    server, port = begin(workers, 13, logs)
    with socket.socket(socket.AF_INET, socket.SOCK_DGRAM) as client:
        started = before, await_server(client, port)
        peer = "127.0.0.1:%d" % client.getsockname()[1]

        def ask(it):
            client.send(it)
            return client.recv(1500)[1]

        wrong = [f"{got:02x} for {code:02x}" for code, got in changes(ask) if got != code]
    _, told = server.communicate(timeout=20)
    return wrong, told.decode().splitlines(), peer, port, started


def report(received, gauges):
    """Returns the line of a report of as many datagrams, none of which is refused, with these gauges."""
    return f"report received={received} forbidden=0 unavailable=0 notified=0 resent=0 removed=0 offloaded=0 {gauges} sent={received} failed=0"


def reports(workers):
    """Returns the lines of standard error of a server that reports each second, and gets a datagram at its start and another after two and a half."""
    server, port = begin(workers, 4, ("report:1",))
    with socket.socket(socket.AF_INET, socket.SOCK_DGRAM) as client:
        await_server(client, port)
        time.sleep(2.5)
        client.send(request(GET, 1, 3))
        client.recv(1500)
        time.sleep(1)
        for message_id in (2, 3):
            client.send(request(GET, message_id, 3))
            client.recv(1500)
    _, told = server.communicate(timeout=20)
    return told.decode().splitlines()


def held(workers):
    """Returns the lines of standard error of a server that reports each second, with a program, an observer and a begun upload in blocks."""
    server, port = begin(workers, 5, ("report:1",))
    with socket.socket(socket.AF_INET, socket.SOCK_DGRAM) as client:
        await_server(client, port)
        for it in (request(PUT, 1, 7, OBSERVED), OBSERVE, request(PUT, 3, 9, LARGEST[:1024], 8 + 6)):
            client.send(it)
            client.recv(1500)
        time.sleep(1.5)
        client.send(request(GET, 4, 3))
        client.recv(1500)
    _, told = server.communicate(timeout=20)
    return told.decode().splitlines()


def is_right(name, told, wanted):
    """Prints whether the lines without their times are these, and returns it."""
    right = [re.sub(r"^\[INFO  [^]]*\] ", "", it) for it in told] == wanted
    print(f"{'right' if right else 'WRONG'}  {name}", *([] if right else told), sep="\n    ")
    return right


def main():
    failed = 0
    for workers in (1, 2):
        for logs in ((), ("off",), ("info",), ("changes",), ("info", "changes")):
            wrong, told, peer, port, started = serve(workers, logs)
            versions = {int(it) for it in re.findall(r" version=(\d+) ", " ".join(told))}
            version = versions.pop() if len(versions) == 1 else 0
            if "changes" in logs and not first_serial(int(started[0] * 1000)) < version <= first_serial(int(started[1] * 1000)) + 1:
                wrong.append(f"version {version} of a start between {started}")
            bare = [re.sub(r"^\[INFO  [^]]*\] ", "", it) for it in told]
            wanted = ([f"listening on 127.0.0.1:{port}"] if "info" in logs else []) + (lines_of(peer, version) if "changes" in logs else [])
            wanted += ["sent 13 failed 0"] if "info" in logs else []
            right = not wrong and bare == wanted
            failed += not right
            print(f"{'right' if right else 'WRONG'}  --workers {workers} {' '.join(logs) or 'nothing'}", *([] if right else [*wrong, *told]), sep="\n    ")
        none, one = (f"exchanges={it}/1024 transfers=0/16" for it in (0, 1))
        failed += not is_right(f"--workers {workers} report:1", reports(workers), [report(1, none), report(1, none), report(2, one)])
        gauges = "exchanges=3/1024 transfers=1/16 observers/7=1"
        failed += not is_right(f"--workers {workers} report:1, gauges", held(workers), [report(4, gauges)])
    print(f"{failed} wrong")
    return int(failed > 0)


if __name__ == "__main__":
    sys.exit(main())
