#!/usr/bin/env python3
"""Tries attacks of other hosts on a server with a policy: uploads, floods, full tables.

It also tries observers that were killed.

Run it at the top of the repository, after `rt run` in crates/fcd, which builds the server:

    python3 tests/strangers/try.py [WORD..] [--flood SECONDS]

It starts `fcd serve` with one worker and with two, at ports of 127.0.0.1 to which it sends from
127.0.0.1 and 127.0.0.2, and `fcd play` without a socket. The tries are `managers`, `places`,
`share`, `mistakes`, `flood`, `killed` and `play`; the named ones are made, or all. Each wrong row
is printed with its result and the expected one, and then the status is 1. The flood takes 60 s
unless `--flood` says otherwise, and the killed observers up to two minutes, which is the server's
timeout by RFC 7252."""
import argparse
import collections
import multiprocessing
import random
import select
import socket
import subprocess
import sys
import time

FCD = "crates/fcd/out/fcd"
PORTS = {1: 5701, 2: 5702}
OWN, OTHER = "127.0.0.1", "127.0.0.2"

CON, NON, ACK = 0, 1, 2
GET, POST, PUT, DELETE = 1, 2, 3, 4
OBSERVE, PATH, BLOCK1 = 6, 11, 27

# The worked program counter.s: a POST adds one to the count in eight bytes of variables, and sets
# the notify flag; both methods reply with the count.
COUNTER = bytes.fromhex(
    "4643423108000f000f00000000000000" "7116000000000000" "bf27000000000000" "5506070002000000" "b701000000000000" "8500000003000000"
    "bf02000000000000" "0702000001000000" "b701000000000000" "8500000004000000" "8500000007000000" "bf71000000000000" "b702000008000000"
    "8500000005000000" "b700000000000000" "9500000000000000"
)

# A request of an honest client in a flood is sent again after this many seconds, as often as RFC
# 7252, section 4.8 says, and counts as unanswered after the last.
WAITS = [2, 4, 8, 16, 32]
EACH_SECOND = 20

# The number of observers of a slot, and how long an unacknowledged notification is retransmitted at
# most: 31 times 3 s.
OBSERVERS = 32
GIVEN_UP = 93


def nibble(number):
    """Returns an option's delta or length: its nibble, and the bytes after it."""
    if number < 13:
        return number, b""
    if number < 269:
        return 13, bytes([number - 13])
    return 14, (number - 269).to_bytes(2, "big")


def option_bytes(options):
    """Returns options, in order of their numbers, as bytes of a message."""
    last, written = 0, b""
    for number, value in options:
        delta, more_delta = nibble(number - last)
        length, more_length = nibble(len(value))
        written += bytes([delta << 4 | length]) + more_delta + more_length + value
        last = number
    return written


def message(kind, code, number, path="", payload=b"", token=b"", options=()):
    """Returns a request of this type, method and message ID."""
    every = sorted([*options, *((PATH, part.encode()) for part in path.split("/") if part)], key=lambda it: it[0])
    head = bytes([0x40 | kind << 4 | len(token), code]) + number.to_bytes(2, "big")
    return head + token + option_bytes(every) + (b"\xff" + payload if payload else b"")


def code(answer):
    """Returns the code of a response, such as 4.03; `nothing` without one."""
    return f"{answer[1] >> 5}.{answer[1] & 31:02}" if answer else "nothing"


def payload(answer):
    """Returns the payload of a response."""
    return answer.partition(b"\xff")[2]


class Client:
    """A client at an address of this host, on a port of its own, with message IDs in order."""

    def __init__(self, ip, server):
        self.socket = socket.socket(socket.AF_INET, socket.SOCK_DGRAM)
        self.socket.bind((ip, 0))
        self.server = (OWN, server)
        self.number = random.randrange(0, 30_000)

    def send(self, datagram):
        self.socket.sendto(datagram, self.server)

    def received(self, seconds):
        """Returns the next datagram, if it arrives in time, or no bytes."""
        ready, _, _ = select.select([self.socket], [], [], seconds)
        return self.socket.recv(2048) if ready else b""

    def new(self, kind, method, path, body=b"", **more):
        """Returns a request with the next message ID."""
        self.number += 1
        return message(kind, method, self.number, path, body, **more)

    def asked(self, datagram, seconds=5):
        """Returns the response to a datagram, if it arrives in time."""
        self.send(datagram)
        return self.received(seconds)

    def ask(self, method, path, body=b"", kind=CON, seconds=5, **more):
        """Returns the response to a new request, if it arrives in time."""
        return self.asked(self.new(kind, method, path, body, **more), seconds)


class Server:
    """A server with this policy and this many workers, until the end of the block."""

    def __init__(self, workers, *policy):
        self.port = PORTS[workers]
        words = [FCD, "serve", "--port", str(self.port), "--workers", str(workers), "--log", "info", *policy]
        self.process = subprocess.Popen(words, stderr=subprocess.PIPE, text=True)

    def __enter__(self):
        self.process.stderr.readline()
        return self

    def __exit__(self, *_):
        self.process.terminate()
        self.process.wait()

    def client(self, ip):
        return Client(ip, self.port)

    def resident(self):
        """Returns the resident memory, in KiB."""
        with open(f"/proc/{self.process.pid}/status", encoding="ascii") as file:
            return next(int(line.split()[1]) for line in file if line.startswith("VmRSS:"))

    def dropped(self):
        """Returns how many datagrams the kernel dropped because the server's socket was full."""
        with open("/proc/net/udp", encoding="ascii") as file:
            return next((int(line.split()[-1]) for line in file if line.split()[1] == f"0100007F:{self.port:04X}"), 0)


class Rows:
    """The rows of a try: their number, and whether each was as expected."""

    def __init__(self, name):
        self.name, self.count, self.wrong = name, 0, 0

    def row(self, what, came, wanted):
        self.count += 1
        if came != wanted:
            self.wrong += 1
            print(f"WRONG {self.name}: {what}: {came}, and not {wanted}", flush=True)

    def told(self, more=""):
        """Prints the try. Returns whether all rows were right."""
        print(f"{self.name}: {self.count - self.wrong} of {self.count} rows as they have to be{more}", flush=True)
        return self.wrong == 0


def beginning(client, slot, size_exponent=6):
    """Returns the response to the first of several blocks of an upload."""
    return code(client.ask(PUT, f"p/{slot}", bytes(1024), options=[(BLOCK1, bytes([8 | size_exponent]))]))


def refused(rows, stranger):
    """Tries another host's uploads and removals, and their duplicates."""
    put, put_non = stranger.new(CON, PUT, "p/1", COUNTER), stranger.new(NON, PUT, "p/1", COUNTER)
    first = stranger.asked(put)
    rows.row("a stranger's PUT", code(first), "4.03")
    rows.row("its duplicate", stranger.asked(put), first)
    rows.row("a stranger's PUT that isn't confirmable", code(stranger.asked(put_non)), "4.03")
    rows.row("its duplicate", code(stranger.asked(put_non, 0.5)), "nothing")
    rows.row("a stranger's DELETE", code(stranger.ask(DELETE, "p/1")), "4.03")
    rows.row("20 uploads by blocks that a stranger begins", {beginning(stranger, 2 + n) for n in range(20)}, {"4.03"})
    rows.row("a stranger's PUT of slot 99", code(stranger.ask(PUT, "p/99", COUNTER)), "4.04")
    rows.row("with an unknown critical option", code(stranger.ask(PUT, "p/1", COUNTER, options=[(65_001, b"")])), "4.02")
    rows.row("with a block size exponent of 7", beginning(stranger, 1, 7), "4.00")
    rows.row("of 1,025 bytes", code(stranger.ask(PUT, "p/1", bytes(1025))), "4.13")


def allowed(rows, stranger):
    """Tries the requests that another host is allowed: it changes no program."""
    rows.row("a stranger's GET of the program", payload(stranger.ask(GET, "p/1"))[:8], b"version=")
    rows.row("its GET of the resource", payload(stranger.ask(GET, "r/1")), bytes(8))
    rows.row("its POST", payload(stranger.ask(POST, "r/1")), b"\x01" + bytes(7))
    rows.row("its GET of the list", b"</r/1>" in stranger.ask(GET, ".well-known/core"), True)


def try_managers(workers):
    """Tries a server whose manager is 127.0.0.1 alone."""
    rows = Rows(f"managers, --workers {workers}")
    with Server(workers, "--managers", "127.0.0.1/32") as server:
        manager, stranger = server.client(OWN), server.client(OTHER)
        rows.row("the manager's PUT", code(manager.ask(PUT, "p/1", COUNTER)), "2.01")
        refused(rows, stranger)
        allowed(rows, stranger)
        rows.row("16 uploads by blocks that the manager begins", {beginning(manager, 2 + n) for n in range(16)}, {"2.31"})
        rows.row("and one more", beginning(manager, 18), "5.03")
        rows.row("the manager's DELETE", code(manager.ask(DELETE, "p/1")), "2.02")
    return rows.told()


def drained(client, seconds):
    """Returns how many responses of each code arrive in time."""
    codes, until = collections.Counter(), time.monotonic() + seconds
    while time.monotonic() < until:
        answer = client.received(until - time.monotonic())
        if answer:
            codes[code(answer)] += 1
    return codes


def counted(client, kind, count):
    """Returns how many of a number of new GETs were answered by each code, within 2 s after the
    last.

    The socket's buffer has space for 256 responses."""
    codes = collections.Counter()
    for n in range(count):
        client.send(client.new(kind, GET, "r/1"))
        if n % 50 == 49:
            codes.update(drained(client, 0.05))
    codes.update(drained(client, 2))
    return dict(codes)


def try_places(workers):
    """Tries a server of 200 places: one address takes all of them."""
    rows = Rows(f"places, --workers {workers}")
    with Server(workers, "--exchanges", "200") as server:
        first, other = server.client(OWN), server.client(OTHER)
        rows.row("PUT", code(first.ask(PUT, "p/1", COUNTER)), "2.01")
        rows.row("300 GETs of one address", counted(other, CON, 300), {"2.05": 199, "5.03": 101})
        rows.row("a GET of another", code(first.ask(GET, "r/1")), "5.03")
        rows.row("one that isn't confirmable", code(first.ask(GET, "r/1", kind=NON)), "5.03")
    return rows.told()


def try_share(workers):
    """Tries a server that allows an address at most 100 places."""
    rows = Rows(f"share, --workers {workers}")
    with Server(workers, "--share", "100") as server:
        own, other, port = server.client(OWN), server.client(OTHER), server.client(OTHER)
        rows.row("PUT", code(own.ask(PUT, "p/1", COUNTER)), "2.01")
        rows.row("150 GETs of an address that aren't confirmable", counted(other, NON, 150), {"2.05": 100})
        rows.row("a GET of another port of it", code(port.ask(GET, "r/1")), "5.03")
        rows.row("one that isn't confirmable", code(port.ask(GET, "r/1", kind=NON, seconds=0.5)), "nothing")
        rows.row("100 GETs of another address, which had a PUT", counted(own, CON, 100), {"2.05": 99, "5.03": 1})
    return rows.told()


def try_mistakes():
    """Tries values of the options that the command line refuses."""
    rows = Rows("mistakes")
    network = ["192.0.2.0", "192.0.2.0/33", "192.0.2/24", "192.0.2.0/", "/24", "192.0.2.0/2 4", "::/0"]
    mistakes = [["--managers", it] for it in network]
    mistakes += [["--managers", "192.0.2.0/24"] * 5]
    mistakes += [["--exchanges", it] for it in ("0", "65537", "-1", "many")]
    mistakes += [["--share", it] for it in ("0", "65537", "")]
    mistakes += [["--confirm-after", it] for it in ("0", "86401", "1.5", "-1", "1s")]
    for command in (["play"], ["serve", "--port", str(PORTS[1])]):
        for it in mistakes:
            ended = subprocess.run([FCD, *command, *it], stdin=subprocess.DEVNULL, capture_output=True, timeout=10, check=False)
            rows.row(" ".join([*command, *it]), (ended.returncode, bool(ended.stderr)), (2, True))
    return rows.told()


def flood(port, seconds, sent):
    """Sends new GETs of 127.0.0.2 from 64 ports in rotation, as many as possible."""
    sockets = []
    for _ in range(64):
        it = socket.socket(socket.AF_INET, socket.SOCK_DGRAM)
        it.bind((OTHER, 0))
        it.connect((OWN, port))
        sockets.append(it)
    datagrams = [message(CON, GET, n, "r/1") for n in range(65_536)]
    until, count = time.monotonic() + seconds, 0
    while time.monotonic() < until:
        for it in sockets:
            try:
                it.send(datagrams[count // 64 % 65_536])
            except OSError:
                pass
            count += 1
    sent.value = count


class Honest:
    """A client that sends a new GET 20 times a second, and each again if there is no response."""

    def __init__(self, client):
        self.client = client
        self.open, self.answered, self.longest = {}, collections.Counter(), 0.0
        self.codes = collections.Counter()

    def begin(self, now):
        datagram = self.client.new(CON, GET, "r/1")
        self.client.send(datagram)
        self.open[datagram[2:4]] = [datagram, now, now + WAITS[0], 1]

    def repeat(self, now):
        """Sends again the requests that weren't answered in time."""
        for it in self.open.values():
            if it[2] <= now and it[3] < len(WAITS):
                self.client.send(it[0])
                it[2] = now + WAITS[it[3]]
                it[3] += 1

    def listen(self, until):
        """Receives the responses that arrive before a time."""
        while (left := until - time.monotonic()) > 0:
            answer = self.client.received(left)
            request = self.open.pop(answer[2:4], None) if answer else None
            if request:
                self.answered[request[3]] += 1
                self.codes[code(answer)] += 1
                self.longest = max(self.longest, time.monotonic() - request[1])

    def ask(self, seconds):
        """Sends requests for this many seconds, and waits until each is answered, or its last
        transmission is long enough ago."""
        started = time.monotonic()
        for n in range(round(seconds * EACH_SECOND)):
            self.begin(time.monotonic())
            self.repeat(time.monotonic())
            self.listen(started + (n + 1) / EACH_SECOND)
        until = time.monotonic() + sum(WAITS)
        while self.open and time.monotonic() < until:
            self.repeat(time.monotonic())
            self.listen(time.monotonic() + 0.1)


def try_flood(workers, seconds):
    """Tries an honest client at one address, while another sends as fast as possible."""
    rows = Rows(f"flood, --workers {workers}")
    with Server(workers, "--exchanges", "65536", "--share", "16384") as server:
        own = server.client(OWN)
        before = server.resident()
        rows.row("PUT", code(own.ask(PUT, "p/1", COUNTER)), "2.01")
        sent = multiprocessing.Value("q", 0)
        flooding = multiprocessing.Process(target=flood, args=(server.port, seconds, sent))
        flooding.start()
        honest = Honest(own)
        honest.ask(seconds)
        flooding.join()
        rows.row("unanswered requests of the honest client", len(honest.open), 0)
        rows.row("their codes", dict(honest.codes), {"2.05": round(seconds * EACH_SECOND)})
        sendings = ", ".join(f"{count} after {n}" for n, count in sorted(honest.answered.items()))
        rows.row("the server", server.process.poll(), None)
        more = f"; {sent.value / seconds:,.0f} datagrams a second, {server.dropped():,} dropped; answered by sendings: {sendings}; at most {honest.longest:.2f} s"
        more += f"; resident {before} KiB before, {server.resident()} KiB after"
    return rows.told(more)


def option_numbers(answer):
    """Returns the numbers of a response's options, in order."""
    place, number, numbers = 4 + (answer[0] & 15), 0, []
    while place < len(answer) and answer[place] != 0xFF:
        delta, length = answer[place] >> 4, answer[place] & 15
        place += 1
        if delta == 13:
            delta, place = 13 + answer[place], place + 1
        number += delta
        numbers.append(number)
        place += length
    return numbers


def observe(client, token):
    """Returns the response to a registration with a token, and whether it is accepted: its response
    has Observe."""
    answer = client.ask(GET, "r/1", token=bytes([token]), options=[(OBSERVE, b"")])
    return code(answer), len(answer) > 4 and OBSERVE in option_numbers(answer)


def places_freed(server, seconds):
    """Returns whether a registration is accepted within this many seconds, tried every two."""
    client, until = server.client(OWN), time.monotonic() + seconds
    while time.monotonic() < until:
        time.sleep(2)
        if observe(client, 1) == ("2.05", True):
            return True
    return False


def try_killed(workers):
    """Tries 32 observers that acknowledge nothing, on a server that confirms after 2 s."""
    rows = Rows(f"killed, --workers {workers}")
    with Server(workers, "--confirm-after", "2") as server:
        own, killed, other = server.client(OWN), server.client(OTHER), server.client(OWN)
        rows.row("PUT", code(own.ask(PUT, "p/1", COUNTER)), "2.01")
        rows.row("32 registrations", {observe(killed, n) for n in range(OBSERVERS)}, {("2.05", True)})
        rows.row("one more", observe(other, 1), ("2.05", False))
        own.ask(POST, "r/1")
        early = [killed.received(1) for _ in range(OBSERVERS)]
        rows.row("notifications before 2 s", {it[:1].hex() for it in early}, {"51"})
        time.sleep(2.2)
        own.ask(POST, "r/1")
        rows.row("notifications after 2 s", {killed.received(1)[:1].hex() for _ in range(OBSERVERS)}, {"41"})
        started = time.monotonic()
        rows.row("a place is freed", places_freed(server, GIVEN_UP + 10), True)
        more = f"; it was freed after {time.monotonic() - started:.0f} s"
    return rows.told(more)


def played(lines, *options):
    """Returns the datagrams that `fcd play` sends for these lines."""
    text = "".join(f"{now} {peer} {datagram.hex()}\n" for now, peer, datagram in lines)
    ended = subprocess.run([FCD, "play", *options], input=text, capture_output=True, text=True, timeout=120, check=False)
    return [bytes.fromhex(it.split()[1]) for it in ended.stdout.splitlines()], ended.returncode


def codes_of(lines, *options):
    """Returns how many responses of each code are in these lines."""
    sent, status = played(lines, *options)
    return dict(collections.Counter(code(it) for it in sent)), status


def notified(lines, *options):
    """Returns the first bytes of the notifications with the token `a`: 51 isn't confirmable, 41
    is."""
    sent, _ = played(lines, *options)
    return " ".join(it[:1].hex() for it in sent if it[4:5] == b"a" and (it[0] >> 4 & 3) != ACK)


def try_play():
    """Tries 250 new requests a second for 360 s of played time, and a notification's time, without
    a socket."""
    rows = Rows("play")
    lines = [(n * 4, n % 200, message(CON, GET, n // 200, "r/1")) for n in range(90_000)]
    started = time.monotonic()
    rows.row("90,000 GETs in 360 s, --exchanges 65536", codes_of(lines, "--exchanges", "65536"), ({"4.04": 90_000}, 0))
    took = time.monotonic() - started
    rows.row("the same by default", codes_of(lines), ({"4.04": 2048, "5.03": 87_952}, 0))
    rows.row("the same with two workers", codes_of(lines, "--exchanges", "65536", "--workers", "2"), ({"4.04": 90_000}, 0))
    confirmed = [
        (0, 1, message(CON, PUT, 1, "p/1", COUNTER)),
        (0, 2, message(CON, GET, 2, "r/1", token=b"a", options=[(OBSERVE, b"")])),
        (9_999, 1, message(CON, POST, 3, "r/1")),
        (10_000, 1, message(CON, POST, 4, "r/1")),
    ]
    for seconds, kinds in (("10", "51 41"), ("9", "41"), ("86400", "51 51")):
        for workers in ([], ["--workers", "2"]):
            words = ["--confirm-after", seconds, *workers]
            rows.row(f"notifications 9,999 and 10,000 ms after a registration, {' '.join(words)}", notified(confirmed, *words), kinds)
    daily = [*confirmed[:2], (86_399_999, 1, confirmed[2][2]), (86_400_000, 1, confirmed[3][2])]
    rows.row("notifications 86,399,999 and 86,400,000 ms after it, by default", notified(daily), "51 41")
    return rows.told(f"; the first took {took:.2f} s")


def main():
    parser = argparse.ArgumentParser(description=__doc__.splitlines()[0])
    parser.add_argument("words", nargs="*", metavar="WORD")
    parser.add_argument("--flood", type=float, default=60, metavar="SECONDS")
    options = parser.parse_args()
    tries = {"mistakes": try_mistakes, "play": try_play}
    by_workers = {"managers": try_managers, "places": try_places, "share": try_share, "killed": try_killed}
    by_workers["flood"] = lambda workers: try_flood(workers, options.flood)
    unknown = set(options.words) - {*tries, *by_workers}
    if unknown:
        parser.error(f"no such try: {', '.join(sorted(unknown))}")
    well = [it() for name, it in tries.items() if not options.words or name in options.words]
    well += [it(workers) for name, it in by_workers.items() if not options.words or name in options.words for workers in PORTS]
    return 0 if all(well) else 1


if __name__ == "__main__":
    sys.exit(main())
