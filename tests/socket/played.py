#!/usr/bin/env python3
"""Plays mutated datagrams to a server while its time passes, and checks its responses.

Run it at the top of the repository, after `rt run` in crates/fcd, which builds the server;
hostile.py, next to it, mutates the datagrams:

    python3 tests/socket/played.py [--count N] [--seed K] [--workers W] [--seconds S] [--program FILE]

It sends N lines (1,000,000 by default) to `fcd play` through a pipe: mutated datagrams from 64
peers, datagrams of one byte repeated, and times alone. Time advances by steps of several sizes, and
by leaps of an exchange's lifetime and of a day. So the table of exchanges fills and empties, and
notifications become confirmable and are retransmitted. The same K (1 by default) gives the same
lines.

Among them is an honest client, at a peer and a slot of its own. It installs a program that counts
POSTs, sends POSTs and GETs, checks that its ETag is still valid, reads the receipt, removes the
program at times, and repeats its last request. Each of its responses is computed beforehand, byte
by byte, including 5.03 if the table is full: it sends most requests while one or two places are
left. Of the responses to others, the number of acknowledgements and resets is computed. At the end
32 observers of the honest client's slot have to be notified of a POST.

It prints how many responses were right, how many datagrams were sent to others, and the server's
resident memory. It ends with 1 in these cases:

- The server doesn't end with status 0 (it is killed after S seconds, 1,800 by default).
- A response is wrong or missing, or a datagram is no message.
- There is one acknowledgement or reset too many or too few.
- An observer isn't notified.
- Memory grows by more than 1 MiB after the first tenth of the lines."""
import argparse
import collections
import contextlib
import random
import subprocess
import sys
import threading
import time

from hostile import COUNT, COUNTER, FCD, OBSERVERS, SLOT, resident, stranger

# The lifetime of an exchange in milliseconds, and the number of exchanges.
WINDOW = 247_000
EXCHANGES = 1024

DAY = 86_400_000

# Lines are in blocks. Each begins with one of these leaps, and has one of these as its longest
# step, in milliseconds.
BLOCK = 2_000
LEAPS = (0, 0, 1_000, WINDOW, DAY)
STEPS = (0, 300, 600, 600, 3_000)

# The peers: of mutated datagrams 1 to 64; one that maintains a program in slot 1, which those
# observe; the honest client; and 32 observers from this one on.
PEERS = 64
KEEPER = 199
HONEST = 200
FIRST_OBSERVER = 101

# The honest client's requests to its slot, after the token.
RUN = b"\xb1r\x02" + SLOT
RUN_BEHIND_AN_ETAG = b"\x71r\x02" + SLOT
PROGRAM = b"\xb1p\x02" + SLOT
TOKEN = b"h"

# Methods and codes, by their bytes.
GET, POST, PUT, DELETE = 1, 2, 3, 4
CREATED, DELETED, VALID, CHANGED, CONTENT = 0x41, 0x42, 0x43, 0x44, 0x45
NOT_FOUND, UNAVAILABLE = 0x84, 0xA3
CODES = bytes.fromhex("41424344455f8082838485888da0a3a5")

# The honest client's requests, and how often of a hundred times each is sent.
KINDS = {"put": 3, "post": 32, "get": 25, "valid": 12, "stale": 6, "describe": 8, "delete": 2, "repeat": 12}

# The classification of a request by the table of exchanges.
NEW, REPEAT, FULL = "new", "repeat", "full"

# No delta and no length of an option is this large.
TOO_MUCH = 1 << 20

# By how many KiB resident memory may grow after the first tenth of the lines.
GROWTH = 1024


def extended(nibble, rest, place):
    """Returns a delta or a length of an option from its nibble, 13 to 15, and the place after its
    bytes (RFC 7252, section 3.1)."""
    if nibble == 13 and place < len(rest):
        return rest[place] + 13, place + 1
    if nibble == 14 and place + 1 < len(rest):
        return int.from_bytes(rest[place:place + 2], "big") + 269, place + 2
    return TOO_MUCH, place


def is_spelled(rest):
    """Returns whether the bytes after a token are options and a payload."""
    number = place = 0
    while place < len(rest):
        if rest[place] == 0xFF:
            return place + 1 < len(rest)
        delta, length = rest[place] >> 4, rest[place] & 15
        place += 1
        if delta > 12:
            delta, place = extended(delta, rest, place)
        if length > 12:
            length, place = extended(length, rest, place)
        number += delta
        place += length
        if number > 65_535 or place > len(rest):
            return False
    return True


def is_confirmable(datagram):
    """Returns whether a datagram has the version and the type of a confirmable message, and a size
    that is read."""
    return 4 <= len(datagram) <= 1280 and datagram[0] >> 4 == 4


def is_request(datagram):
    """Returns whether a datagram is a request: a confirmable or non-confirmable message of class 0
    that isn't empty."""
    if not 4 <= len(datagram) <= 1280 or datagram[0] >> 4 not in (4, 5) or not 0 < datagram[1] < 32:
        return False
    behind = 4 + (datagram[0] & 15)
    return behind <= 12 and behind <= len(datagram) and is_spelled(datagram[behind:])


def is_message(datagram):
    """Returns whether a server sends such a datagram: a reset, or a reply or notification with one
    of its codes."""
    if datagram[:2] == b"\x70\x00":
        return len(datagram) == 4
    behind = 4 + (datagram[0] & 15) if datagram else 0
    known = len(datagram) >= 4 and datagram[0] >> 4 in (4, 5, 6) and datagram[1] in CODES
    return known and behind <= min(12, len(datagram)) and is_spelled(datagram[behind:])


class Table:
    """The exchanges that the server stores."""

    def __init__(self):
        self.opened = collections.deque()
        # Whether the request that opened it was confirmable, by the peer and the message ID.
        self.confirmable = {}
        self.most = 0

    def places(self, now):
        """Returns how many places are free at a time."""
        while self.opened and now - self.opened[0][0] >= WINDOW:
            del self.confirmable[self.opened.popleft()[1]]
        return EXCHANGES - len(self.opened)

    def hear(self, now, peer, datagram):
        """Returns the classification of a peer's datagram by the table, which stores a new request.
        None if it is no request."""
        if not is_request(datagram):
            return None
        left = self.places(now)
        key = peer, datagram[2:4]
        if key in self.confirmable:
            return REPEAT
        if left == 0:
            return FULL
        self.opened.append((now, key))
        self.confirmable[key] = is_confirmable(datagram)
        self.most = max(self.most, len(self.opened))
        return NEW

    def acknowledges(self, peer, datagram, heard):
        """Returns whether a request is answered by an acknowledgement: a duplicate by that of the
        first, if it got one."""
        if heard == FULL:
            return is_confirmable(datagram)
        return self.confirmable[peer, datagram[2:4]]


class Honest:
    """The honest client, and the state of its slot: a serial, and if it has a program, the version
    and the count of POSTs."""

    def __init__(self, rng):
        self.rng = rng
        self.number = 0
        self.serial = self.version = self.count = 0
        self.is_present = False
        self.last = None
        self.kept = b""
        self.unavailable = 0

    def next_kind(self):
        if self.last is None:
            return "put"
        return self.rng.choices(list(KINDS), list(KINDS.values()))[0]

    def ask(self, kind, now, table):
        """Returns a request of this kind, and the response to it."""
        if kind != "repeat":
            self.number += 1
            tag = {"valid": self.serial, "stale": max(self.serial - 1, 0)}.get(kind)
            self.last = kind, tag, self.request(kind, tag)
        kind, tag, datagram = self.last
        heard = table.hear(now, HONEST, datagram)
        if heard == NEW:
            self.kept = self.carry_out(kind, tag)
        self.unavailable += heard == FULL
        answer = bytes([UNAVAILABLE]) if heard == FULL else self.kept
        return datagram, b"\x61" + answer[:1] + datagram[2:4] + TOKEN + answer[1:]

    def request(self, kind, tag):
        head = (self.number % 65_536).to_bytes(2, "big") + TOKEN
        if kind == "put":
            return bytes([0x41, PUT]) + head + PROGRAM + b"\xff" + COUNTER
        if kind in ("describe", "delete"):
            return bytes([0x41, GET if kind == "describe" else DELETE]) + head + PROGRAM
        if tag is not None:
            return bytes([0x41, GET]) + head + b"\x48" + tag.to_bytes(8, "big") + RUN_BEHIND_AN_ETAG
        return bytes([0x41, POST if kind == "post" else GET]) + head + RUN

    def carry_out(self, kind, tag):
        """Changes the slot as a request does. Returns the response's code, and the bytes after its
        token."""
        if kind == "put":
            return self.install()
        if kind == "delete":
            return self.remove()
        if not self.is_present:
            return bytes([NOT_FOUND])
        if kind == "describe":
            return bytes([CONTENT]) + self.receipt()
        if kind == "post":
            self.count += 1
            self.serial += 1
            return bytes([CHANGED]) + self.counted()
        etag = b"\x48" + self.serial.to_bytes(8, "big")
        if tag == self.serial:
            return bytes([VALID]) + etag
        return bytes([CONTENT]) + etag + self.counted()

    def install(self):
        code = CHANGED if self.is_present else CREATED
        self.serial += 1
        self.version, self.count, self.is_present = self.serial, 0, True
        return bytes([code]) + self.receipt()

    def remove(self):
        self.serial += self.is_present
        self.is_present = False
        return bytes([DELETED])

    def receipt(self):
        return f"\xffversion={self.version} cost=15 budget=15 vars=8".encode("latin-1")

    def counted(self):
        return b"\xff" + self.count.to_bytes(8, "little")


class Script:
    """The lines that are played, and the expectations for the output."""

    def __init__(self, count, seed):
        self.count = count
        self.rng = random.Random(seed)
        self.now = 0
        self.step = 0
        self.table = Table()
        self.honest = Honest(self.rng)
        self.expected = collections.deque()
        self.acknowledgements = self.resets = 0
        self.notification = None

    def lines(self):
        for number in range(self.count):
            if number % BLOCK == 0:
                yield self.block(number // BLOCK)
            else:
                self.now += self.rng.randrange(self.step + 1)
                yield self.line()
        yield from self.ending()

    def block(self, number):
        """Begins a block: slot 1 has a program again."""
        self.now += self.rng.choice(LEAPS)
        self.step = self.rng.choice(STEPS)
        return self.told(KEEPER, bytes([0x40, PUT]) + (number % 65_536).to_bytes(2, "big") + b"\xb1p\x011\xff" + COUNT)

    def line(self):
        chance = self.rng.random()
        if chance < 0.05 or 0 < self.table.places(self.now) < 3:
            return self.asked(self.honest.next_kind())
        if chance < 0.06:
            return self.passed()
        return self.told(self.rng.randrange(1, PEERS + 1), self.repeated() if chance < 0.065 else stranger(self.rng))

    def repeated(self):
        """Returns a confirmable GET whose options, or payload, are one byte repeated."""
        return bytes([0x40, GET]) + self.rng.randbytes(2) + self.rng.randbytes(1) * 1276

    def told(self, peer, datagram):
        """Adds a line of another peer. Counts whether it is acknowledged, or reset."""
        heard = self.table.hear(self.now, peer, datagram)
        if heard is None:
            self.resets += is_confirmable(datagram)
        else:
            self.acknowledgements += self.table.acknowledges(peer, datagram, heard)
        return self.spelled(peer, datagram)

    def asked(self, kind):
        """Adds a line of the honest client, with the expected response."""
        datagram, answer = self.honest.ask(kind, self.now, self.table)
        self.expected.append(f"{HONEST} {answer.hex()}\n".encode())
        return self.spelled(HONEST, datagram)

    def spelled(self, peer, datagram):
        return f"{self.now} {peer} {datagram.hex()}\n".encode()

    def passed(self):
        return f"{self.now} - -\n".encode()

    def ending(self):
        """After each exchange has expired, observers of the honest client's slot register, and are
        notified of a POST."""
        self.now += WINDOW
        yield self.passed()
        yield self.asked("put")
        for number in range(OBSERVERS):
            yield self.told(FIRST_OBSERVER + number, bytes.fromhex("4101000168") + b"\x60\x51r\x02" + SLOT)
        yield self.asked("post")
        yield self.asked("get")
        self.notification = self.notified()

    def notified(self):
        """Returns an observer's notification of the last POST, without its message ID."""
        sequence = (self.honest.serial % (1 << 24)).to_bytes(3, "big").lstrip(b"\x00")
        etag = b"\x48" + self.honest.serial.to_bytes(8, "big")
        return b"\x51\x45" + TOKEN + etag + bytes([0x20 + len(sequence)]) + sequence + self.honest.counted()


class Reader:
    """Reads the server's output, and compares it with the expectations."""

    def __init__(self, script):
        self.script = script
        self.right = self.acknowledgements = self.resets = self.others = 0
        self.wrong = []
        self.told = collections.Counter()

    def read(self, output):
        honest = b"%d " % HONEST
        for line in output:
            if line.startswith(honest):
                self.compare(line)
            else:
                self.look(line)

    def compare(self, line):
        wanted = self.script.expected.popleft() if self.script.expected else None
        if line == wanted:
            self.right += 1
        else:
            self.wrong.append((wanted, line))

    def look(self, line):
        peer, _, digits = line.rstrip(b"\n").partition(b" ")
        try:
            peer, datagram = int(peer), bytes.fromhex(digits.decode())
        except ValueError:
            peer, datagram = 0, b""
        if not is_message(datagram):
            self.wrong.append((None, line))
        elif datagram[0] >> 4 == 6:
            self.acknowledgements += 1
        elif datagram[0] >> 4 == 7:
            self.resets += 1
        else:
            self.others += 1
        if FIRST_OBSERVER <= peer < FIRST_OBSERVER + OBSERVERS:
            self.told[peer, datagram[:2] + datagram[4:]] += 1

    def counts(self):
        """Returns whether as many acknowledgements and resets were sent as expected."""
        return (self.acknowledgements, self.resets) == (self.script.acknowledgements, self.script.resets)

    def heard(self):
        """Returns how many observers were notified of the last POST, each once."""
        told = (self.told[FIRST_OBSERVER + number, self.script.notification] for number in range(OBSERVERS))
        return sum(count == 1 for count in told)


def feed(server, script, samples):
    """Writes the lines to the server, and samples its resident memory a hundred times."""
    every = max(script.count // 100, 1)
    with contextlib.suppress(BrokenPipeError), server.stdin as pipe:
        for number, line in enumerate(script.lines()):
            if number % every == 0:
                samples.append(resident(server.pid))
            pipe.write(line)


def play(words, script, seconds):
    """Plays the script; returns the reader, the samples, the status, and the messages on standard
    error."""
    reader, samples = Reader(script), []
    server = subprocess.Popen(words, stdin=subprocess.PIPE, stdout=subprocess.PIPE, stderr=subprocess.PIPE)
    limit = threading.Timer(seconds, server.kill)
    writer = threading.Thread(target=feed, args=(server, script, samples))
    limit.start()
    writer.start()
    try:
        reader.read(server.stdout)
        told = server.stderr.read().decode(errors="replace").strip()
        writer.join()
        return reader, samples, server.wait(), told
    finally:
        limit.cancel()
        if server.poll() is None:
            server.kill()
            server.wait()


def growth(samples):
    """Returns by how much resident memory grew at most after the first tenth of the lines."""
    later = [it for it in samples[len(samples) // 10:] if it]
    return max(later) - later[0] if later else 0


def main():
    parser = argparse.ArgumentParser(description=__doc__.splitlines()[0])
    parser.add_argument("--count", type=int, default=1_000_000)
    parser.add_argument("--seed", type=int, default=1)
    parser.add_argument("--workers", type=int, help="as of `fcd play`")
    parser.add_argument("--seconds", type=float, default=1_800)
    parser.add_argument("--program", default=FCD, help="another program than the one that is built here")
    options = parser.parse_args()
    words = [options.program, "play"] + (["--workers", str(options.workers)] if options.workers else [])
    script = Script(options.count, options.seed)
    started = time.monotonic()
    reader, samples, status, told = play(words, script, options.seconds)
    took = time.monotonic() - started
    for wanted, line in reader.wrong[:5]:
        print(f"wanted {wanted}, printed {line}")
    missing, heard, grown = len(script.expected), reader.heard(), growth(samples)
    print(
        f"{options.count} lines in {took:.0f} s, status {status}{told and f' ({told})'}; of the honest client's answers {reader.right} right, "
        f"{len(reader.wrong)} wrong, {missing} missing, {script.honest.unavailable} of them 5.03; {script.table.most} exchanges at most; to others "
        f"{reader.acknowledgements} acknowledgements of {script.acknowledgements}, {reader.resets} resets of {script.resets}, {reader.others} more; "
        f"{heard} of {OBSERVERS} observers heard; resident {max(samples[:1], default=0)} KiB at first, {max(samples, default=0)} at most, "
        f"{grown} more behind a tenth"
    )
    well = status == 0 and reader.right > 0 and not reader.wrong and not missing and reader.counts() and heard == OBSERVERS
    return 0 if well and grown <= GROWTH else 1


if __name__ == "__main__":
    sys.exit(main())
