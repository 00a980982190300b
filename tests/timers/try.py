#!/usr/bin/env python3
"""Tries the timers of `fcd serve --every`: their beats, their observers, late ones, expensive ones,
skipped ones, and an idle server's wakes.

Run it at the top of the repository, after `rt run` in crates/fcd and crates/fcreq, which builds the
programs:

    python3 tests/timers/try.py [WORD..] [--seconds SECONDS]

The tries are `mistakes`, `beats`, `late`, `many`, `expensive`, `skipped` and `idle`; the named ones are
made, or all. `many` has ten timers of 100 ms, each with an observer, and a client with four requests
a second, with one worker and with two, for 60 s unless `--seconds` says otherwise. Each wrong row is
printed with its result, and then the status is 1."""
import argparse
import ctypes
import os
import select
import signal
import socket
import subprocess
import sys
import threading
import time
from pathlib import Path

TOP = Path(__file__).resolve().parent.parent.parent
FCD, FCREQ = (TOP / f"crates/{it}/out/{it}" for it in ("fcd", "fcreq"))

# The worked program counter.s: a POST adds one to the count in eight bytes of variables, and sets
# the notify flag; both methods reply with the count.
COUNTER = bytes.fromhex(
    "4643423108000f000f00000000000000" "7116000000000000" "bf27000000000000" "5506070002000000" "b701000000000000" "8500000003000000"
    "bf02000000000000" "0702000001000000" "b701000000000000" "8500000004000000" "8500000007000000" "bf71000000000000" "b702000008000000"
    "8500000005000000" "b700000000000000" "9500000000000000"
)

# A program that counts to 29 times 1,000, adds one to the count in its variables, and notifies: 58,000
# instructions, nearly the most that a program may execute.
SLOW = (
    bytes.fromhex("4643423208000f00") + (1 + 29 * (3 + 2 * 1_000) + 9).to_bytes(4, "little") + bytes(4) + bytes.fromhex("b706000000000000" "b707000000000000" "0707000001000000")
    + bytes.fromhex("a507feff") + (1_000).to_bytes(4, "little") + bytes.fromhex("0706000001000000" "a506fbff") + (29).to_bytes(4, "little")
    + bytes.fromhex("b701000000000000" "8500000003000000" "0700000001000000" "bf02000000000000" "b701000000000000" "8500000004000000" "8500000007000000" "b700000000000000" "9500000000000000")
)


def row(name, right, told=""):
    """Prints a line for a row, and returns whether it is wrong."""
    print(f"{'right' if right else 'WRONG'}  {name}{'  ' + told if told else ''}", flush=True)
    return not right


def free_port():
    """Returns a port of this host without a listener."""
    with socket.socket(socket.AF_INET, socket.SOCK_DGRAM) as it:
        it.bind(("127.0.0.1", 0))
        return it.getsockname()[1]


def fcreq(*words, body=b""):
    """Returns the status and the printed lines of a client."""
    ran = subprocess.run([FCREQ, *map(str, words)], input=body, capture_output=True, timeout=120)
    return ran.returncode, ran.stdout.decode().splitlines()


class Server:
    """A server with timers, and counters in some slots."""

    def __init__(self, *words, slots=()):
        self.port = free_port()
        self.it = subprocess.Popen([FCD, "serve", "--port", str(self.port), *map(str, words)], stderr=subprocess.PIPE)
        for _ in range(100):
            if fcreq("--port", self.port, "get", "/.well-known/core")[0] != 3:
                break
            time.sleep(0.05)
        for slot in slots:
            fcreq("--port", self.port, "put", f"/p/{slot}", body=COUNTER)

    def __enter__(self):
        return self

    def __exit__(self, *_):
        self.it.kill()
        self.it.wait()

    def count(self, slot):
        """Returns the count of a slot, by a GET."""
        lines = fcreq("--port", self.port, "get", f"/r/{slot}")[1]
        return int.from_bytes(bytes.fromhex(lines[1]), "little") if len(lines) == 2 else None

    def install(self, slot, image):
        """Installs a program, and returns the slot's version. Each change of the slot adds one to it."""
        lines = fcreq("--port", self.port, "put", f"/p/{slot}", body=image)[1]
        return int(bytes.fromhex(lines[1]).split()[0].partition(b"=")[2])

    def wakes(self):
        """Returns how often the threads of the server gave up the processor since the start."""
        total = 0
        for status in Path(f"/proc/{self.it.pid}/task").glob("*/status"):
            total += sum(int(line.split()[1]) for line in status.read_text().splitlines() if line.startswith("voluntary_ctxt"))
        return total


# ---- the tries


def mistakes(_seconds):
    """Tries values of `--every` that end the start with status 2, and the messages about them."""
    wrong = 0
    for words, said in [
        (["--every", "0:7"], "a period of 1 to 86400000 ms"),
        (["--every", "1000:64"], "a slot of 0 to 63"),
        (["--every", "1000"], "for example 1000:7"),
    ]:
        ran = subprocess.run([FCD, "serve", "--port", str(free_port()), *words], capture_output=True, text=True, timeout=10)
        wrong += row(f"{' '.join(words)} is refused", ran.returncode == 2 and said in ran.stderr, ran.stderr.strip())
    return wrong


def beats(_seconds):
    """Tries a counter with a timer of 500 ms, with one worker and with two; its observer is
    notified of each state."""
    wrong = 0
    for workers in (1, 2):
        with Server("--workers", workers, "--every", "500:7", slots=[7]) as server:
            before, began = server.count(7), time.monotonic()
            told = fcreq("--port", server.port, "--count", 5, "observe", "/r/7")[1]
            took = time.monotonic() - began
            counts = [int.from_bytes(bytes.fromhex(it.split()[-1]), "little") for it in told]
            rising = counts == list(range(counts[0], counts[0] + 5)) if len(counts) == 5 else False
            wrong += row(f"{workers} workers: an observer is told of four runs in two seconds", rising and 1.4 < took < 3, f"{before} {counts} {took:.2f} s")
    return wrong


def late(_seconds):
    """Tries a server that is stopped for 3 s: the program runs once late, and then at its own
    beats."""
    with Server("--every", "500:0", slots=[0]) as server:
        time.sleep(1)
        server.it.send_signal(signal.SIGSTOP)
        time.sleep(0.1)
        time.sleep(3)
        server.it.send_signal(signal.SIGCONT)
        time.sleep(0.05)
        first = server.count(0)
        time.sleep(1)
        then = server.count(0)
    return row("six beats that were missed aren't made up for", first is not None and first <= 5 and then - first in (2, 3), f"{first} and 1 s later {then}")


def ask_at_rate(server, until, codes):
    """Sends requests four times a second until a time, and stores the codes of the responses."""
    while time.monotonic() < until:
        codes.append(fcreq("--port", server.port, "get", "/r/0")[1][:1])
        time.sleep(0.25)


class Observers:
    """Observers of some slots, which count their notifications."""

    def __init__(self, port, slots):
        self.sockets, self.told, self.codes = {}, dict.fromkeys(slots, 0), set()
        for slot in slots:
            it = socket.socket(socket.AF_INET, socket.SOCK_DGRAM)
            it.connect(("127.0.0.1", port))
            # A confirmable GET of /r/SLOT with Observe 0 and a token of one byte (RFC 7641, 2).
            it.send(bytes([0x41, 1, 0, slot, slot, 0x60, 0x51, 0x72, 0x01, 0x30 + slot]))
            self.sockets[it] = slot
        self.stopped = threading.Event()
        self.thread = threading.Thread(target=self.listen)
        self.thread.start()

    def listen(self):
        """Counts notifications, and acknowledges those that ask for it."""
        while not self.stopped.is_set():
            for it in select.select(list(self.sockets), [], [], 0.2)[0]:
                got = it.recv(2000)
                self.codes.add(got[1])
                if got[0] >> 4 & 3 == 0:
                    it.send(bytes([0x60, 0]) + got[2:4])
                if got[0] >> 4 & 3 < 2:
                    self.told[self.sockets[it]] += 1

    def __enter__(self):
        return self

    def __exit__(self, *_):
        self.stopped.set()
        self.thread.join()
        for it in self.sockets:
            it.close()


def many(seconds):
    """Tries ten timers of 100 ms, an observer of each, and a client with four requests a second."""
    wrong = 0
    every = [it for slot in range(10) for it in ("--every", f"100:{slot}")]
    for workers in (1, 2):
        with Server("--workers", workers, *every, slots=range(10)) as server, Observers(server.port, range(10)) as seen:
            time.sleep(0.5)
            counts, codes, began = [server.count(slot) for slot in range(10)], [], time.monotonic()
            before = dict(seen.told)
            asking = threading.Thread(target=ask_at_rate, args=(server, began + seconds, codes))
            asking.start()
            time.sleep(seconds)
            told = [seen.told[slot] - before[slot] for slot in range(10)]
            runs = [server.count(slot) - count for slot, count in enumerate(counts)]
            asking.join()
        least = int(0.99 * seconds * 10)
        wrong += row(f"{workers} workers: ten timers of 100 ms for {seconds} s", min(runs) >= least, f"{min(runs)} to {max(runs)} runs, {least} at least")
        wrong += row(f"{workers} workers: an observer of each is notified", min(told) >= least and seen.codes == {0x45}, f"{min(told)} to {max(told)} notifications, codes {sorted(seen.codes)}")
        wrong += row(f"{workers} workers: the client beside them", all(it == ["2.05"] for it in codes), f"{len(codes)} requests")
    return wrong


def expensive(_seconds):
    """Tries a timer of 20 ms whose program runs at a worker: it runs at its beats, its observer is
    notified, and the server responds meanwhile."""
    with Server("--workers", 2, "--every", "20:0") as server:
        first, began, listed = server.install(0, SLOW), time.monotonic(), []
        with Observers(server.port, [0]) as seen:
            for _ in range(40):
                asked = time.monotonic()
                fcreq("--port", server.port, "get", "/.well-known/core")
                listed.append(time.monotonic() - asked)
                time.sleep(0.1)
            told = seen.told[0]
            runs = server.install(0, SLOW) - first - 1
            beats = (time.monotonic() - began) / 0.02
    wrong = row("an expensive program runs at its beats at a worker", runs >= 0.97 * beats, f"{runs} runs of {beats:.0f}")
    wrong += row("its observer is notified, if not of each state", told >= 0.3 * beats, f"{told} notifications")
    return wrong + row("the server responds meanwhile", max(listed) < 0.25, f"{max(listed):.3f} s at most")


class Stopped:
    """The workers of a server, each stopped as by a debugger (ptrace(2)). The thread that receives,
    the first of the process, goes on."""

    ATTACH, DETACH, ALL = 16, 17, 0x40000000

    def __init__(self, pid):
        self.call = ctypes.CDLL(None, use_errno=True).ptrace
        self.call.argtypes = [ctypes.c_long, ctypes.c_long, ctypes.c_void_p, ctypes.c_void_p]
        self.workers = [it for it in map(int, os.listdir(f"/proc/{pid}/task")) if it != pid]

    def __enter__(self):
        for it in self.workers:
            if self.call(self.ATTACH, it, None, None):
                raise OSError(ctypes.get_errno(), "ptrace")
            os.waitpid(it, self.ALL)

    def __exit__(self, *_):
        for it in self.workers:
            self.call(self.DETACH, it, None, None)


def skipped(_seconds):
    """Tries a timer of 20 ms whose job isn't run for a second, since the workers are stopped. A
    counter replaces the expensive program: the jobs of 50 beats would add to its count."""
    with Server("--workers", 2, "--every", "20:0") as server:
        server.install(0, SLOW)
        time.sleep(0.5)
        with Stopped(server.it.pid):
            time.sleep(1)
            server.install(0, COUNTER)
        began = time.monotonic()
        time.sleep(1)
        counted = server.count(0)
        beats = (time.monotonic() - began) / 0.02
    return row("the beats of a second without workers are skipped", abs(counted - beats) <= 8, f"{counted} runs, {beats:.0f} beats since then")


def idle(_seconds):
    """Tries how often a server with one timer of 10 s wakes in 30 s, with one worker and with two."""
    wrong = 0
    for workers in (1, 2):
        with Server("--workers", workers, "--every", "10000:0", slots=[0]) as server:
            time.sleep(1)
            before = server.wakes()
            time.sleep(30)
            wakes = server.wakes() - before
        wrong += row(f"{workers} workers: one timer of 10 s wakes the server once in 10 s", wakes == 3, f"{wakes} in 30 s")
    return wrong


TRIES = {"mistakes": mistakes, "beats": beats, "late": late, "many": many, "expensive": expensive, "skipped": skipped, "idle": idle}


def main():
    """Makes the tries that are named, or all."""
    words = argparse.ArgumentParser(description=__doc__, formatter_class=argparse.RawDescriptionHelpFormatter)
    words.add_argument("tries", nargs="*", choices=[[], *TRIES])
    words.add_argument("--seconds", type=int, default=60)
    given = words.parse_args()
    wrong = sum(TRIES[it](given.seconds) for it in given.tries or TRIES)
    print(f"{wrong} wrong", flush=True)
    sys.exit(1 if wrong else 0)


if __name__ == "__main__":
    main()
