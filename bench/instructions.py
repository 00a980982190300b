#!/usr/bin/env python3
"""Counts the machine instructions and the copied bytes of `fcd` by callgrind, and prints the tables
of docs/PERFORMANCE.md.

Run it at the top of the repository, after `rt run` in crates/fcd and crates/fcasm, with Debian's
valgrind and gcc:

    python3 bench/instructions.py [TABLE..]

TABLE is `requests`, `serving`, `moves`, `datagrams`, `options`, `ticks`, `runs`, `calls`,
`comparing` or `verifying`; without one, all are printed, in some minutes. A count is the total of
the last lines of an input, divided by their number: `fcd play` runs with all lines, and then
without these. The count is the same in each run, whatever else the machine does. The exception is
`serving`, where the server may wake between requests."""
import os
import re
import socket
import subprocess
import sys
import tempfile
import time
from pathlib import Path

from one_endpoint import BLOCK1, CONFIRMABLE, DELETE, FCASM, FCD, GET, OBSERVE, POST, PUT, image, numbered, request

SLOTS, OBSERVERS, PLACES, WINDOW, DAY = 64, 32, 1024, 247_000, 86_400_000
ETAG, PORT, CORE = 4, 5697, ".well-known/core"

# a success; with variables a POST of it commits, whatever they are
PLAIN = "mov64 r0, 0\nexit\n"
NOTIFIES = "call 7\nmov64 r0, 0\nexit\n"

CALLGRIND = ["valgrind", "--tool=callgrind", "--callgrind-out-file=/dev/null"]

# callgrind counts `rep movsb` and `rep stosb` once for each byte, so the C library is set to copy
# by vectors
BY_VECTORS = {**os.environ, "GLIBC_TUNABLES": "glibc.cpu.x86_rep_movsb_threshold=1000000000:glibc.cpu.x86_rep_stosb_threshold=1000000000"}


def dear(body):
    """Returns a source of 62,005 steps, of which a POST sets the notify flag.

    It is a loop of 1,000 iterations whose body is this line, 60 times."""
    return "call 7\nmov64 r7, 5\nmov64 r6, 0\nnext:\n" + f"{body}\n" * 60 + "add64 r6, 1\njlt r6, 1000, next\nmov64 r0, 0\nexit\n"


def counted(words, data=b"", within=None):
    """Returns the instructions of a command with this input, all of them or those within a
    function."""
    toggles = [f"--toggle-collect={within}"] if within else []
    with tempfile.TemporaryFile() as given:
        given.write(data)
        given.seek(0)
        done = subprocess.run([*CALLGRIND, *toggles, *words], stdin=given, capture_output=True, env=BY_VECTORS)
    found = re.search(rb"Collected : (\d+)", done.stderr)
    if done.returncode or not found:
        sys.exit(done.stderr.decode())
    return int(found[1])


def played(lines, within=None):
    """Returns the instructions of `fcd play` for these lines, all of them or those within a
    function."""
    return counted([FCD, "play"], "".join(lines).encode(), within)


def each(before, lines, within=None):
    """Returns the instructions of one of these lines, after those before."""
    return (played(before + lines, within=within) - played(before, within=within)) / len(lines)


def line(now, peer, message):
    return f"{now} {peer} {message.hex()}\n"


def lines_of(message, count, first=1, step=0, now=0, peer=1):
    """Returns lines of a message, with message IDs from the first one on, one step apart."""
    return [line(now + k * step, peer, numbered(message, (first + k) % 65_536)) for k in range(count)]


def put(program, slot=0, number=60_000, now=0, peer=250):
    """Returns the lines of a PUT of an image in a slot, by blocks of 1,024 bytes if it needs
    them."""
    if len(program) <= 1024:
        return [line(now, peer, request(CONFIRMABLE, PUT, f"p/{slot}", number, body=program))]
    made = []
    for k in range((len(program) + 1023) // 1024):
        more = 8 if len(program) > 1024 * (k + 1) else 0
        message = request(CONFIRMABLE, PUT, f"p/{slot}", number + k, more=[(BLOCK1, bytes([k << 4 | more | 6]))], body=program[1024 * k : 1024 * (k + 1)])
        made.append(line(now, peer, message))
    return made


def ignored(message):
    """Returns a datagram of this size that is ignored for its version."""
    return bytes([message[0] | 0x80]) + message[1:]


def get(path="r/0", **parts):
    return request(CONFIRMABLE, GET, path, **parts)


def row(*cells):
    print("| " + " | ".join(it if isinstance(it, str) else f"{it:,.0f}" for it in cells) + " |", flush=True)


def head(*cells):
    print()
    row(*cells)
    print("|" + "---|" * len(cells), flush=True)


def with_variables(text):
    words = [FCASM, "image", "--vars", "8", "--budget", "auto"]
    return subprocess.run(words, input=text.encode(), stdout=subprocess.PIPE, check=True).stdout


def registered(slots, now=0):
    """Returns lines that install a cheap program in some slots, each with 32 observers, some slots
    in each lifetime."""
    made = [it for slot in range(slots) for it in put(image(NOTIFIES), slot, 60_000 + slot, now)]
    for slot in range(slots):
        now += WINDOW if slot % 16 == 0 else 0
        for peer in range(OBSERVERS):
            message = request(CONFIRMABLE, GET, f"r/{slot}", 1000 + slot, token=bytes([slot, peer]), more=[(OBSERVE, b"")])
            made.append(line(now, 1 + peer, message))
    return made, now


# ---- the tables


def requests():
    """Counts lines of `fcd play`, including reading and printing them."""
    head("A request, as a line of `fcd play`", "instructions")
    plain, commits = put(image(PLAIN)), put(with_variables(PLAIN))
    full = [it for slot in range(SLOTS) for it in put(image(PLAIN), slot, 60_000 + slot)]
    for what, before, message, step, first, last in [
        ("GET of a program of two instructions, 200 to 600 exchanges held", plain, get(), 0, 200, 600),
        ("the same, 600 to 1,000 exchanges held", plain, get(), 0, 600, 1000),
        ("the same, each 300 ms after the one before, so that one exchange expires for each that is opened", plain, get(), 300, 1000, 1400),
        ("the same with the slot's ETag, answered 2.03, 200 to 600 exchanges held", plain, get(more=[(ETAG, (1).to_bytes(8, "big"))]), 0, 200, 600),
        ("POST that commits", commits, request(CONFIRMABLE, POST, "r/0"), 0, 200, 600),
        ("PUT of that program", plain, request(CONFIRMABLE, PUT, "p/0", body=image(PLAIN)), 0, 200, 600),
        ("DELETE of an empty slot", [], request(CONFIRMABLE, DELETE, "p/0"), 0, 200, 600),
        ("GET of the receipt", plain, get("p/0"), 0, 200, 600),
        (f"GET of `{CORE}`, one slot of 64 with a program", plain, get(CORE), 0, 200, 600),
        ("the same, 64 slots with a program", full, get(CORE), 0, 200, 600),
    ]:
        all_lines = lines_of(message, last, step=step)
        row(what, each(before + all_lines[:first], all_lines[first:]))


def served(words, program, message, observers, count):
    """Returns the instructions of `fcd serve` for these requests.

    Each is sent when everything that the one before led to has arrived."""
    with tempfile.NamedTemporaryFile() as told:
        limit = 1 + observers + count
        serve = [FCD, "serve", "--port", str(PORT), "--limit", str(limit), *words]
        server = subprocess.Popen([*CALLGRIND, *serve], stdout=subprocess.DEVNULL, stderr=told, env=BY_VECTORS)
        client, *others = [socket.socket(socket.AF_INET, socket.SOCK_DGRAM) for _ in range(1 + observers)]
        for it in (client, *others):
            it.connect(("127.0.0.1", PORT))
            it.settimeout(20)
        first_answer(client, request(CONFIRMABLE, PUT, "p/0", 60_000, body=program))
        for it in others:
            it.send(request(CONFIRMABLE, GET, "r/0", 60_001, token=b"x", more=[(OBSERVE, b"")]))
            it.recv(2048)
        for number in range(1, count + 1):
            client.send(numbered(message, number))
            for it in (client, *others):
                it.recv(2048)
        if server.wait(20):
            sys.exit(f"fcd serve ended with {server.returncode}")
        return int(re.search(rb"Collected : (\d+)", Path(told.name).read_bytes())[1])


def first_answer(client, message):
    """Sends requests until the server responds."""
    while True:
        try:
            client.send(message)
            return client.recv(2048)
        except ConnectionRefusedError:
            time.sleep(0.02)


def serving():
    """Counts requests on a socket, one after the other."""
    head("A request on a socket", "`fcd serve`", "`fcd serve --workers 1`")
    get_r, post = get(), request(CONFIRMABLE, POST, "r/0")
    for what, program, message, observers, first, last in [
        ("GET of a program of two instructions", image(PLAIN), get_r, 0, 200, 600),
        ("POST that commits", with_variables(PLAIN), post, 0, 200, 600),
        ("POST that 32 observers hear", image(NOTIFIES), post, OBSERVERS, 10, 60),
    ]:
        cells = []
        for words in ([], ["--workers", "1"]):
            fewer, more = (min(served(words, program, message, observers, count) for _ in range(2)) for count in (first, last))
            cells.append((more - fewer) / (last - first))
        row(what, *cells)


def moved(library, lines, workers=()):
    """Returns the bytes that `fcd play` copies, zeroes and moves, and the number of copies and
    zeroings of at least 8,000 bytes."""
    environment = {**os.environ, "LD_PRELOAD": library}
    done = subprocess.run([FCD, "play", *workers], input="".join(lines).encode(), capture_output=True, env=environment)
    return [int(it) for it in done.stderr.split()[-5:]]


def moves():
    """Counts the lengths that are passed to `memcpy`, `memset` and `memmove`."""
    with tempfile.TemporaryDirectory() as room:
        library = str(Path(room) / "moves.so")
        subprocess.run(["gcc", "-O2", "-fPIC", "-shared", "-fno-builtin", "-o", library, "bench/moves.c"], check=True)
        head("What `fcd play` moves for a request", "bytes copied", "bytes zeroed", "moved by `memmove`", "copies of 8,000 bytes and more", "zeroings of as many")
        for what, workers, program, message in [
            ("GET", (), image(PLAIN), get()),
            ("POST that commits", (), with_variables(PLAIN), request(CONFIRMABLE, POST, "r/0")),
            ("GET, `--workers 1`", ("--workers", "1"), image(PLAIN), get()),
        ]:
            lines = put(program) + lines_of(message, 600)
            more, fewer = moved(library, lines, workers), moved(library, lines[:-400], workers)
            cells = [(a - b) / 400 for a, b in zip(more, fewer)]
            row(what, *cells[:3], *(f"{it:.1f}" for it in cells[3:]))


def options():
    """Counts confirmable GETs of many options.

    There are 100 of them, a lifetime apart; ignored datagrams of the same size are subtracted."""
    head("A confirmable GET of 1,280 bytes", "instructions", "a byte")
    for what, tail in [
        ("1,276 options of no byte, number 0", b"\x00" * 1276),
        ("1,276 options of no byte, numbers 1 to 1,276", b"\x10" * 1276),
        ("1,276 ETags of no byte", b"\x40" + b"\x00" * 1275),
        ("1,276 times Uri-Port of no byte", b"\x70" + b"\x00" * 1275),
        ("1,275 times Uri-Query of no byte", b"\xd0\x02" + b"\x00" * 1274),
        ("1,276 times Uri-Path of no byte", b"\xb0" + b"\x00" * 1275),
        ("638 options of one byte, number 0", b"\x01\x00" * 638),
        ("a payload of 1,275 bytes", b"\xff" + b"\x00" * 1275),
        ("8 bytes: GET of an empty slot", get()[4:]),
    ]:
        message = bytes([CONFIRMABLE, GET, 0, 0]) + tail
        now = lines_of(message, 100, step=WINDOW)
        more = played(now) - played(lines_of(ignored(message), 100, step=WINDOW))
        row(what, more / 100, f"{more / 100 / len(message):.1f}")


def one(before, now, message, peer=1):
    """Returns the instructions of one line, without those of an ignored datagram of the same
    size."""
    return played(before + [line(now, peer, message)]) - played(before + [line(now, peer, ignored(message))])


def datagrams():
    """Counts the work of one datagram, before the next one is read."""
    head("A datagram", "bytes", "instructions", "a byte")

    def tell(what, message, count):
        row(what, len(message), count, count / len(message))

    dividing, adding = (image(dear(body), 2) for body in ("sdiv64 r7, 3", "add64 r7, 1"))
    post, of_get, whole = request(CONFIRMABLE, POST, "r/0", 7), get(number=7), request(CONFIRMABLE, PUT, "p/0", 7, body=dividing)
    one_slot, now = registered(1)
    dearly = one_slot + put(dividing, 0, 61_000, now)
    what = "POST of a program of 62,005 steps, most of them signed divisions, in a slot that 32 observers observe: it runs 33 times"
    tell(what, post, one(dearly, now, post))
    tell("PUT of that program in that slot, whose program was cheap: it runs 32 times", whole, one(one_slot, now, whole))
    tell("POST of that program, without observers", post, one(put(dividing), 0, post))
    tell("GET of it", of_get, one(put(dividing), 0, of_get))
    tell("GET of 62,005 steps, most of them `add64`", of_get, one(put(adding), 0, of_get))
    last = put(dearest(1024), 0)
    message = bytes.fromhex(last[-1].split()[2])
    tell("the last block of a PUT of the image of 1,024 slots that is dearest to verify", message, one(last[:-1], 0, message, 250))
    tell("POST of a program that calls `notify` alone, 32 observers", post, one(one_slot, now, post))
    waited, later = waited_for()
    ping = bytes.fromhex("40000001")
    tell("a ping, while 2,048 notifications of 64 slots are overdue: all are sent again", ping, played(waited + [line(later + 5_000, 200, ping)]) - played(waited))
    full = [it for slot in range(SLOTS) for it in put(image(PLAIN), slot, 60_000 + slot)]
    core = get(CORE, number=7)
    tell(f"GET of `{CORE}`, 64 slots with a program", core, one(full, 0, core))
    tell("GET of a program of two instructions", of_get, one(put(image(PLAIN)), 0, of_get))
    receipt = get("p/0", number=7)
    tell("GET of the receipt", receipt, one(put(image(PLAIN)), 0, receipt))
    crowd = put(image(PLAIN)) + lines_of(get(), PLACES - 1)
    tell("a repeat of a GET, 1,024 exchanges held", numbered(get(), 500), one(crowd, 0, numbered(get(), 500)))
    tell("GET that is answered 5.03, 1,024 exchanges held", numbered(get(), 2000), one(crowd, 0, numbered(get(), 2000)))
    rootless = bytes.fromhex("50010001")
    tell("a non-confirmable GET of no path", rootless, one([], 0, rootless))
    tell("a ping", ping, one([], 0, ping))


def waited_for():
    """Returns lines after which 2,048 confirmable notifications are outstanding, and the time of
    the last."""
    made, now = registered(SLOTS)
    now += DAY
    for slot in range(SLOTS):
        made.append(line(now, 200, request(CONFIRMABLE, POST, f"r/{slot}", slot)))
    return made, now


def ticks():
    """Counts lines `now - -`, one millisecond apart."""
    head("Time that passes, as a line `now - -`", "instructions")
    waited, later = waited_for()
    observed, now = registered(SLOTS)
    for what, before, begun in [("nobody observes", put(image(PLAIN)), 0), ("2,048 observers, none of whom is due", observed, now),
                                ("2,048 confirmable notifications are waited for, and none is overdue", waited, later)]:
        row(what, each(before, [f"{begun + 1 + k} - -\n" for k in range(100)]))


def straight(lines, count):
    """Returns the instructions of a line, of a number of them in a program, and of the text before
    them."""
    def of(text):
        return each(put(image(text, 2)), lines_of(get(), 10), "*run_to_exit*")

    begin, repeated, rest = lines
    return (of(begin + repeated * (count + 1) + rest) - of(begin + repeated + rest)) / count


def runs():
    """Counts `run`, within a GET."""
    head("A run", "instructions")
    for what, payload in [("of two instructions, without a payload", b""), ("the same, with a payload of 1,024 bytes", bytes(range(1, 129)) * 8)]:
        row(what, each(put(image(PLAIN)), lines_of(get(body=payload), 10), "fc_machine::interpreter::run"))


def calls():
    """Counts 41 calls in a program, without those of the same program with one call, in the
    interpreter's loop and its callees."""
    head("A call", "instructions")
    frame = "mov64 r1, r10\nadd64 r1, -8\n"
    for what, begin, repeated, rest in [
        ("`callf` of a function of `mov64 r0, 0` and `exit`: the three", "", "callf leaf\n", "mov64 r0, 0\nexit\nleaf:\nmov64 r0, 0\nexit\n"),
        ("`payload_len`", "", "call 1\n", PLAIN),
        ("`payload_byte` of byte 0, and `mov64`", "", "mov64 r1, 0\ncall 2\n", PLAIN),
        ("`var_get` of word 0, and `mov64`", "", "mov64 r1, 0\ncall 3\n", PLAIN),
        ("`var_put` of word 0, and two `mov64`", "", "mov64 r1, 0\nmov64 r2, 0\ncall 4\n", PLAIN),
        ("`reply_put` of eight bytes, and three for its arguments", "stdw r10, -8, 7\n", frame + "mov64 r2, 8\ncall 5\n", PLAIN),
        ("`reply_byte`, and `mov64`", "", "mov64 r1, 7\ncall 6\n", PLAIN),
        ("`notify`", "", "call 7\n", PLAIN),
    ]:
        row(what, f"{straight((begin, repeated, rest), 40):.1f}")


def comparing():
    """Counts `Verified::is`, within a POST that wants to write: once with the ticket's program,
    once with the slot's."""
    head("Slots of a program", "instructions of comparing it with another")
    for slots in (2, 126, 512):
        program = with_variables("mov64 r0, 0\n" * (slots - 1) + "exit\n")
        posts = lines_of(request(CONFIRMABLE, POST, "r/0"), 20)
        row(slots, each(put(program) + posts[:10], posts[10:], "*Verified*is*") / 2)


def dearest(slots):
    """Returns the image of nested loops, nine deep, around as many of three slots as fit."""
    head_of = "".join(f"mov64 r{k}, 0\no{k}:\n" for k in (1, 2, 3, 4, 5, 6, 7, 8, 9))
    tail = "".join(f"add64 r{k}, 1\njlt r{k}, 1, o{k}\n" for k in (9, 8, 7, 6, 5, 4, 3, 2, 1))
    count = (slots - 29) // 3
    inner = "".join(f"mov64 r0, 0\ni{k}:\nadd64 r0, 1\njlt r0, 1, i{k}\n" for k in range(count))
    return image(head_of + inner + tail + PLAIN, 2)


VERIFIES = "*verifier*verify*"


def verifying():
    """Counts `verify`, within a PUT."""
    head("An image of version 2", "256 slots", "512", "1,024", "a slot, of 1,024")
    sizes = (256, 512, 1024)
    rising = ["".join(f"jgt r3, {k}, 0\n" for k in range(slots - 2)) + PLAIN for slots in sizes]
    loops = ["".join(f"mov64 r1, 0\nl{k}:\nadd64 r1, 1\njlt r1, 2, l{k}\n" for k in range((slots - 2) // 3)) + PLAIN for slots in sizes]
    for what, images in [
        ("`mov64` of an immediate", [image("mov64 r0, 0\n" * (slots - 1) + "exit\n", 2) for slots in sizes]),
        ("`jgt r3` with rising numbers", [image(text, 2) for text in rising]),
        ("loops of three slots, as many as fit", [image(text, 2) for text in loops]),
        ("nine loops in one another, round as many of three slots as fit", [dearest(slots) for slots in sizes]),
    ]:
        cells = [played(put(it), within=VERIFIES) for it in images]
        row(what, *cells, cells[-1] / 1024)
    print(f"\nAn image of two slots takes {played(put(image(PLAIN, 2)), within=VERIFIES):,}.")


TABLES = {it.__name__: it for it in (requests, serving, moves, options, datagrams, ticks, runs, calls, comparing, verifying)}


def main():
    for name in sys.argv[1:] or TABLES:
        TABLES[name]()
    return 0


if __name__ == "__main__":
    sys.exit(main())
