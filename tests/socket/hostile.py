#!/usr/bin/env python3
"""Sends a server mutated datagrams, and reports whether it still works.

Run it at the top of the repository, after `rt run` in crates/fcd, which builds the server:

    python3 tests/socket/hostile.py [--count N] [--seconds S] [--no-wait]

It starts `fcd serve`, installs a program in slot 1, and sends N datagrams (1,000,000 by default)
for at most S seconds (600). Each is a request, a registration of an observer, or one of its
Acknowledgements and Resets, with bytes changed, removed, repeated or inserted, or it consists of
random bytes. The same seed gives the same datagrams. Before them an honest client installs a
program in a slot of its own and sends it a POST. After every 1,000 datagrams it repeats that POST,
whose response has to have the same bytes each time.

It prints how many datagrams the kernel dropped, and the server's resident memory before and after.
Then it waits 247 s, after which each exchange has expired, and sends requests once more: a PUT has
to be answered 2.01 or 2.04, a GET 2.05, the honest client's GET as after its one POST, and 32
observers of one slot have to be notified of a change (`--no-wait` omits this). Then it sends pings
until the server has received the number of datagrams that it was started for: it has to end with
status 0 and print its replies. The script ends with 1 if any of that fails, or if the number of
pings differs from the number of datagrams that the kernel dropped."""
import argparse
import random
import re
import select
import socket
import subprocess
import sys
import time

FCD = "crates/fcd/out/fcd"
PORT = 5699

# The lifetime of an exchange in seconds, and a little more.
LIFETIME = 247.5

# The honest client repeats its POST after this many datagrams, sends it this many times if there is
# no response, and never after this many seconds.
EVERY = 1_000
TRIES = 5
REPEATED = 240

# The number of datagrams apart from the mutated ones and the duplicates.
BESIDE = 100

# A program that counts POSTs in eight bytes of variables.
COUNT = bytes.fromhex(
    "46434231080009000900000000000000" "b701000000000000" "8500000003000000" "0700000001000000" "bf02000000000000"
    "b701000000000000" "8500000004000000" "8500000007000000" "b700000000000000" "9500000000000000"
)

# The worked program counter.s: a POST adds one to the count in eight bytes of variables, and sets
# the notify flag; both methods reply with the count.
COUNTER = bytes.fromhex(
    "4643423108000f000f00000000000000" "7116000000000000" "bf27000000000000" "5506070002000000" "b701000000000000" "8500000003000000"
    "bf02000000000000" "0702000001000000" "b701000000000000" "8500000004000000" "8500000007000000" "bf71000000000000" "b702000008000000"
    "8500000005000000" "b700000000000000" "9500000000000000"
)

PUT = bytes.fromhex("40030000b1700131ff") + COUNT
GET = bytes.fromhex("40010000b1720131")

# Requests that the server serves or refuses, with the message ID in bytes 2 and 3.
SEEDS = [
    bytes.fromhex("40010000b1720131"),
    bytes.fromhex("40020000b1720131"),
    bytes.fromhex("50020000b1720131ff01"),
    bytes.fromhex("48010000aabbccddeeff0011b1720131"),
    bytes.fromhex("40030000b1700132ff") + COUNT,
    bytes.fromhex("40030000b1700132d1030aff") + COUNT[:64],
    bytes.fromhex("40010000bb2e77656c6c2d6b6e6f776e04636f7265"),
    bytes.fromhex("400100004800000000000000025572013116"),
    bytes.fromhex("40040000b1700132"),
    bytes.fromhex("70000000"),
    bytes.fromhex("60000000"),
    # Registrations of observers and their end; the last byte but six is the token, which is random
    # too.
    bytes.fromhex("41010000006051720131"),
    bytes.fromhex("4101000000610151720131"),
]

# The honest client's slot: no other datagram has these two bytes, so that no other client names it.
# Its requests, and the responses.
SLOT = b"47"
HONEST_PUT = bytes.fromhex("40030001b17002") + SLOT + b"\xff" + COUNTER
HONEST_POST = bytes.fromhex("40020002b17202") + SLOT
HONEST_GET = bytes.fromhex("40010003b17202") + SLOT
INSTALLED = re.compile(rb"\x60\x41\x00\x01\xffversion=\d{17} cost=15 budget=15 vars=8")
POSTED = bytes.fromhex("60440002ff0100000000000000")
GOT = re.compile(rb"\x60\x45\x00\x03\x48.{8}\xff\x01\0\0\0\0\0\0\0", re.DOTALL)

PING = bytes.fromhex("40000000")

# The observers of one slot, and the slot that they observe at the end.
OBSERVERS = 32
WATCHED = bytes.fromhex("b1720133")


def mutated(rng):
    """Returns a datagram: one of the seeds with a few changes, or random bytes."""
    if rng.random() < 0.05:
        return rng.randbytes(rng.randrange(0, 1400))
    bytes_ = bytearray(rng.choice(SEEDS))
    bytes_[2:4] = rng.randbytes(2)
    if bytes_[0] == 0x41:
        bytes_[4] = rng.randrange(0, 256)
    for _ in range(rng.randrange(0, 5)):
        place = rng.randrange(0, len(bytes_) + 1)
        kind = rng.randrange(0, 5)
        if kind == 0 and place < len(bytes_):
            bytes_[place] = rng.randrange(0, 256)
        elif kind == 1 and place < len(bytes_):
            bytes_[place] ^= 1 << rng.randrange(0, 8)
        elif kind == 2:
            del bytes_[place:]
        elif kind == 3:
            bytes_[place:place] = rng.randbytes(rng.randrange(1, 16))
        else:
            bytes_ += bytes_[place:]
        if not bytes_:
            return b""
    return bytes(bytes_[:1400])


def stranger(rng):
    """Returns a mutated datagram that doesn't name the honest client's slot."""
    while True:
        datagram = mutated(rng)
        if SLOT not in datagram:
            return datagram


def resident(pid):
    """Returns the resident memory of a process, in KiB."""
    with open(f"/proc/{pid}/status", encoding="ascii") as file:
        for line in file:
            if line.startswith("VmRSS:"):
                return int(line.split()[1])
    return 0


def dropped():
    """Returns how many datagrams the kernel dropped because the server's socket was full."""
    with open("/proc/net/udp", encoding="ascii") as file:
        for line in file:
            fields = line.split()
            if fields[1] == f"0100007F:{PORT:04X}":
                return int(fields[-1])
    return 0


class Client:
    """A client on a port of its own. The datagrams of all clients are counted."""

    sent = 0

    def __init__(self):
        self.socket = socket.socket(socket.AF_INET, socket.SOCK_DGRAM)

    def send(self, datagram):
        self.socket.sendto(datagram, ("127.0.0.1", PORT))
        Client.sent += 1

    def received(self, seconds):
        """Returns the next datagram, if it arrives in time, or None."""
        self.socket.settimeout(seconds)
        try:
            return self.socket.recv(2048)
        except TimeoutError:
            return b""

    def asked(self, request, tries=1, seconds=5):
        """Returns the response to a request, after this many tries, or None."""
        drain([self.socket])
        for _ in range(tries):
            self.send(request)
            answer = self.received(seconds)
            if answer:
                return answer
        return b""


def drain(sockets):
    """Receives the replies that have arrived, and counts them."""
    count = 0
    while True:
        ready, _, _ = select.select(sockets, [], [], 0)
        if not ready:
            return count
        for it in ready:
            it.recv(2048)
            count += 1


def ask(request, number):
    """Returns the code of the response to a confirmable request with this message ID."""
    answer = Client().asked(request[:2] + number.to_bytes(2, "big") + request[4:])
    return f"{answer[1] >> 5}.{answer[1] & 31:02}" if answer else "no answer"


class Honest:
    """A client that installs a program and sends it a POST, and then repeats its POST.

    It counts its POSTs, and the responses that equal the first one."""

    def __init__(self):
        self.client = Client()
        self.is_well = INSTALLED.fullmatch(self.client.asked(HONEST_PUT)) is not None and self.client.asked(HONEST_POST) == POSTED
        self.until = time.monotonic() + REPEATED
        self.repeats = self.alike = 0

    def repeat(self):
        if time.monotonic() < self.until:
            self.repeats += 1
            self.alike += self.client.asked(HONEST_POST, TRIES, 1) == POSTED

    def told(self):
        """Prints the counts, and returns whether each response was right."""
        print(f"of the honest client's {self.repeats} repeats {self.alike} were answered as the first time", flush=True)
        return self.is_well and self.alike == self.repeats


def send(count, seconds, honest):
    """Sends datagrams from 64 ports in rotation. Returns how many were sent and how many replies
    arrived."""
    rng = random.Random(1)
    clients = [Client() for _ in range(64)]
    sockets = [it.socket for it in clients]
    until = time.monotonic() + seconds
    sent = replies = 0
    while sent < count and time.monotonic() < until:
        clients[sent % 64].send(stranger(rng))
        sent += 1
        if sent % 32 == 0:
            replies += drain(sockets)
        if sent % EVERY == 0:
            honest.repeat()
    time.sleep(0.5)
    return sent, replies + drain(sockets)


def observed():
    """Returns how many of 32 observers of slot 3 are notified of a POST."""
    print("PUT of the observed program:", ask(PUT.replace(b"p\x011", b"p\x013"), 4))
    observers = [Client() for _ in range(OBSERVERS)]
    for it in observers:
        it.asked(bytes.fromhex("41010001aa6051720133"))
    ask(bytes.fromhex("40020000") + WATCHED, 5)
    return sum(it.received(5)[1:2] == b"\x45" for it in observers)


def asked_again(honest):
    """Waits until each exchange has expired, and sends requests: returns whether all are answered
    as expected."""
    time.sleep(LIFETIME)
    put, get, own = ask(PUT, 2), ask(GET, 3), honest.client.asked(HONEST_GET)
    print(f"PUT: {put}\nGET: {get}\nthe honest client's GET: {own.hex()}")
    heard = observed()
    print(f"{heard} of {OBSERVERS} observers hear of a change", flush=True)
    return put in ("2.01", "2.04") and get == "2.05" and GOT.fullmatch(own) is not None and heard == OBSERVERS


def ended(server, limit):
    """Sends pings until the server has received the number of datagrams that it was started for.

    Returns whether it ends with success, and the number of dropped datagrams agrees."""
    sent, lost, client = Client.sent, dropped(), Client()
    pings = 0
    while server.poll() is None and client.asked(PING, seconds=2):
        pings += 1
    try:
        _, told = server.communicate(timeout=5)
    except subprocess.TimeoutExpired:
        print(f"the server hasn't ended after {pings} pings")
        return False
    replies = re.search(r"sent \d+ failed \d+", told)
    print(f"status {server.returncode}; {replies and replies[0]}; by the {pings} pings until its end {sent + pings - limit} datagrams were dropped")
    return server.returncode == 0 and replies is not None and sent + pings - limit == lost


def tried(server, options, limit):
    """Sends the datagrams, sends requests again, and ends the server: returns whether all went
    well."""
    print("PUT:", ask(PUT, 1), flush=True)
    honest, before = Honest(), resident(server.pid)
    started = time.monotonic()
    sent, replies = send(options.count, options.seconds, honest)
    took = time.monotonic() - started
    if server.poll() is not None:
        print(f"the server has ended with status {server.returncode}")
        return False
    behind = f"resident {before} KiB before, {resident(server.pid)} KiB behind"
    print(f"{sent} datagrams in {took:.0f} s, {replies} replies, {dropped()} dropped; {behind}", flush=True)
    is_well = honest.told()
    is_well = (options.no_wait or asked_again(honest)) and is_well
    return ended(server, limit) and is_well


def main():
    parser = argparse.ArgumentParser(description=__doc__.splitlines()[0])
    parser.add_argument("--count", type=int, default=1_000_000)
    parser.add_argument("--seconds", type=float, default=600)
    parser.add_argument("--no-wait", action="store_true", help="don't wait for the exchanges to be gone, nor ask after that")
    options = parser.parse_args()
    limit = options.count + options.count // EVERY * TRIES + BESIDE
    words = [FCD, "serve", "--port", str(PORT), "--limit", str(limit), "--log", "info"]
    server = subprocess.Popen(words, stderr=subprocess.PIPE, text=True)
    try:
        time.sleep(0.5)
        return 0 if tried(server, options, limit) else 1
    finally:
        if server.poll() is None:
            server.terminate()
            server.wait()


if __name__ == "__main__":
    sys.exit(main())
