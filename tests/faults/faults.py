#!/usr/bin/env python3
"""Runs the programs with faults of their surroundings, and reports how each ends.

The faults are closed streams, full disks, no descriptors, no threads, no file, no server, endless
input, and signals. Run it at the top of the repository, after `rt run` in crates/fcd, crates/fcasm,
crates/fcreplay and crates/fcreq, which build the programs:

    python3 tests/faults/faults.py [WORD..]

It needs a C compiler and UDP port 5696 at 127.0.0.1. Each fault whose name contains one of these
words (all, if none is given) is tried once. It prints a line for each: the command, its message on
standard error, its status, or the signal that ended it, and its time. The message, the output, the
responses and the status have to be exactly those in this file, within 5 s. A difference is marked,
and then the script ends with 1."""
import dataclasses
import os
import signal
import socket
import subprocess
import sys
import tempfile
import threading
import time

HERE = os.path.dirname(os.path.realpath(__file__))
PROGRAMS = {name: f"crates/{name}/out/{name}" for name in ("fcd", "fcasm", "fcreplay", "fcreq")}
PORT = 5696
LIMIT = 5

# A ping, and its reset; as a line, and as an event, and the output for these.
PING, RESET = bytes.fromhex("40000001"), bytes.fromhex("70000001")
LINE = b"0 1 40000001\n"
EVENT = b"Deliver now=0 ep=1 data=40000001\n"
REPLY = b"1 70000001\n"

TEXT = b"mov64 r0, 69\nexit\n"
IMAGE = bytes.fromhex("46434231000002000200000000000000" "b700000045000000" "9500000000000000")

# The messages on standard error.
NO_INPUT = "standard input: Bad file descriptor (os error 9)"
A_DIRECTORY = "standard input: Is a directory (os error 21)"
NO_OUTPUT = "standard output: Bad file descriptor (os error 9)"
NO_READER = "standard output: Broken pipe (os error 32)"
FULL = "standard output: No space left on device (os error 28)"
TAKEN = f"UDP 127.0.0.1:{PORT}: Address already in use (os error 98)"
NO_FILES = f"UDP 127.0.0.1:{PORT}: Too many open files (os error 24)"
NO_THREADS = "no worker could be started: the receiving thread works all jobs off"
NO_MEMORY = "standard input: out of memory"
NOBODY = "UDP: Connection refused (os error 111)"
NO_SOCKET = "UDP: Too many open files (os error 24)"
NO_FILE = "missing.img: No such file or directory (os error 2)"
LONG_TEXT = "the text has more than 1048576 bytes"
LISTENING = f"listening on 127.0.0.1:{PORT}"

# An address that no host has (RFC 5737), and the message of a server that is to listen there.
NOWHERE = "192.0.2.1"
NOT_OURS = f"UDP {NOWHERE}:{PORT}: Cannot assign requested address (os error 99)"

# A rule that is broken, and the message about it.
V01, V02 = "V01 slot 0", "V02 slot 0"
WHY_V01 = """rule: under 16 bytes, no `FCB1` or `FCB2` in front, or a length that isn't 16 + 8 times the count of slots
change: write the image by `fcasm image`, and hand it on whole"""
WHY_V02 = """rule: the count of slots isn't 1 to 512, or in the second version 1 to 1024
change: write 1 to 512 slots, in the second version 1024 at most; a wide load takes two"""

# The programs that write something, and their input for that.
WRITERS = [
    ("fcd play", LINE),
    ("fcd play --workers 2", LINE),
    ("fcasm image --vars 0 --budget 2", TEXT),
    ("fcasm expand", TEXT),
    ("fcasm list", IMAGE),
    ("fcasm check", IMAGE),
    ("fcasm run", IMAGE),
    ("fcreplay", EVENT),
]
READERS = [command for command, _ in WRITERS] + [f"fcreq --port {PORT} get /r/1"]

# How much of a long input may be read before it is refused, and how much memory there is for an
# endless one, in KiB.
READ = 256 * 1024
MEMORY = 512 * 1024


@dataclasses.dataclass
class Fault:
    """A shell command, its input, and its expected result: the message, the status, and the
    output."""

    command: str
    given: bytes
    told: str
    status: int
    printed: bytes = b""
    preload: str = ""
    most: int | None = None


@dataclasses.dataclass
class Ran:
    """The result of a command: its status is None if it was stopped."""

    told: str
    status: int | None
    printed: bytes
    seconds: float
    read: int = 0


def start(command, preload="", output=subprocess.PIPE):
    """Starts a shell command, its program with these variables. If its input is endless, its memory
    is limited."""
    name, _, rest = command.partition(" ")
    memory = f"ulimit -v {MEMORY}; " if rest.endswith("/dev/zero") else ""
    words = ["sh", "-c", f"{memory}exec env {preload} {PROGRAMS[name]} {rest}"]
    return subprocess.Popen(words, stdin=subprocess.PIPE, stdout=output, stderr=subprocess.PIPE)


def feed(process, given, read):
    """Writes a process's input, piece by piece, up to its end or that of the process.

    The number of bytes that were accepted is added to the list."""
    try:
        for place in range(0, len(given), 4096):
            process.stdin.write(given[place:place + 4096])
            process.stdin.flush()
            read[0] += len(given[place:place + 4096])
        process.stdin.close()
    except BrokenPipeError:
        pass


def ended(process, given=b""):
    """Returns the result of a process with this input. It is stopped if it doesn't end in time."""
    started, read = time.monotonic(), [0]
    limit = threading.Timer(LIMIT, process.kill)
    writer = threading.Thread(target=feed, args=(process, given, read))
    limit.start()
    writer.start()
    printed = process.stdout.read() if process.stdout else b""
    told = process.stderr.read().decode(errors="replace")
    status = process.wait()
    is_over = not limit.is_alive()
    limit.cancel()
    writer.join()
    return Ran(told, None if is_over else status, printed, time.monotonic() - started, read[0])


def tell(name, ran, told, status, is_well=True):
    """Prints a line of the table. Returns whether all is as expected."""
    is_well = is_well and ran.status == status and ran.told == (told and told + "\n")
    how = f"no end in {LIMIT} s" if ran.status is None else f"signal {-ran.status}" if ran.status < 0 else ran.status
    first, _, more = ran.told.rstrip().partition("\n")
    said = f"`{first}`{' and more' if more else ''}" if ran.told else "nothing"
    print(f"| {name} | {said} | {how} | {ran.seconds:.2f} |{'' if is_well else f' WRONG: printed {ran.printed[:60]}, read {ran.read}'}", flush=True)
    return is_well


def tried(fault):
    """Tries a fault. Returns whether its result is right."""
    ran = ended(start(fault.command, fault.preload), fault.given)
    is_well = ran.printed == fault.printed and (fault.most is None or ran.read <= fault.most)
    return tell(named(fault), ran, fault.told, fault.status, is_well)


def named(fault):
    """Returns the name of a fault in the table."""
    words = [word for key, word in (("FILES", "no descriptors"), ("THREADS", "no threads")) if key in fault.preload]
    given = [f"{len(fault.given)} bytes"] if len(fault.given) > 4096 else []
    return ", ".join([f"`{fault.command}`", *given, *words])


def streams():
    """Faults of the three streams."""
    faults = [Fault(f"{command} <&-", b"", NO_INPUT, 3) for command in READERS]
    faults += [Fault(f"{command} < /", b"", A_DIRECTORY, 3) for command in READERS]
    faults += [Fault(f"{command} >&-", given, NO_OUTPUT, 3) for command, given in WRITERS]
    faults += [Fault(f"{command} > /dev/full", given, FULL, 3) for command, given in WRITERS]
    faults += [Fault("fcd play >&-", b"0 - -\n0 1 50000001\n", "", 0)]
    faults += [Fault(f"{command} 2>{stream}", b"bad\n", "", 3) for stream in ("&-", "/dev/full") for command in ("fcd play", "fcreplay")]
    return faults


def limits(shim):
    """Faults of descriptors, threads and sizes."""
    no_files, no_threads = f"LD_PRELOAD={shim} FILES=1", f"LD_PRELOAD={shim} THREADS=1"
    zeros = b"0" * 20_000_000
    line = b"0 1 " + b"40" * 10_000_000
    # The longest line that is read: 20 digits, 3, and the most bytes that UDP carries. The longest text.
    longest = b"%020d %03d " % (0, 1) + b"40" * 65_507
    text = b"\n" * 1_048_576
    assembled = "fcasm image --vars 0 --budget 2"
    return [
        Fault(f"fcd serve --port {PORT}", b"", NO_FILES, 3, preload=no_files),
        Fault(f"fcd serve --port {PORT} --bind {NOWHERE}", b"", NOT_OURS, 3),
        Fault(f"fcreq --port {PORT} get /r/1", b"", NO_SOCKET, 3, preload=no_files),
        Fault("fcd play --workers 2", LINE, NO_THREADS, 0, REPLY, no_threads),
        Fault("fcd play", longest, "", 0),
        Fault("fcd play", b"0" + longest, "line 1: bad", 2),
        Fault("fcd play", zeros, "line 1: bad", 2, most=READ),
        Fault("fcd play", line, "line 1: bad", 2, most=READ),
        Fault("fcd play --workers 2", line, "line 1: bad", 2, most=READ),
        Fault("fcd play", LINE + line, "line 2: bad", 2, REPLY, most=READ),
        Fault("fcd play < /dev/zero", b"", "line 1: bad", 2),
        Fault("fcd play --workers 2 < /dev/zero", b"", "line 1: bad", 2),
        Fault(assembled, b"mov64 r0, 0\n" * 33_000, f"{V02}\n{WHY_V02}", 1),
        Fault(assembled, text, f"{V02}\n{WHY_V02}", 1),
        Fault(assembled, b"\n" + text, LONG_TEXT, 1),
        Fault(f"{assembled} < /dev/zero", b"", LONG_TEXT, 1),
        Fault("fcasm expand < /dev/zero", b"", LONG_TEXT, 1),
        Fault("fcasm list < /dev/zero", b"", f"{V01}\n{WHY_V01}", 1),
        Fault("fcasm check < /dev/zero", b"", WHY_V01, 1, f"{V01}\n".encode()),
        Fault("fcasm run < /dev/zero", b"", WHY_V01, 1, f"{V01}\n".encode()),
        Fault("fcasm run /dev/zero", b"", WHY_V01, 1, f"{V01}\n".encode()),
        Fault("fcreplay < /dev/zero", b"", NO_MEMORY, 3),
        Fault(f"fcreq --port {PORT} put /p/1 < /dev/zero", b"", NO_MEMORY, 3),
        Fault(f"fcreq --port {PORT} put /p/1 -f /dev/zero", b"", "/dev/zero: out of memory", 3),
    ]


def files():
    """Faults of the files that a command line names."""
    commands = ["fcasm run", f"fcreq --port {PORT} put /p/1 -f"]
    faults = [Fault(f"{command} missing.img", b"", NO_FILE, 3) for command in commands]
    faults += [Fault(f"{command} /", b"", "/: Is a directory (os error 21)", 3) for command in commands]
    return faults


def unheard():
    """A client sends a request to a port without a listener."""
    asked = f"fcreq --port {PORT} get /r/1"
    faults = [Fault(command, b"", NOBODY, 3) for command in (asked, f"{asked} -N")]
    return faults + [Fault(f"{asked} 2>{stream}", b"", "", 3) for stream in ("&-", "/dev/full")]


def unread():
    """Standard output isn't read any more."""
    reading, writing = os.pipe()
    os.close(reading)
    process = start("fcd play", output=writing)
    os.close(writing)
    return tell("`fcd play`, and its reader has gone", ended(process, LINE), NO_READER, 3)


def taken():
    """The port of a server is in use."""
    with socket.socket(socket.AF_INET, socket.SOCK_DGRAM) as other:
        other.bind(("127.0.0.1", PORT))
        return tell(f"`fcd serve --port {PORT}`, and the port is taken", ended(start(f"fcd serve --port {PORT}")), TAKEN, 3)


def serving(words, preload=""):
    """Runs a server that listens at its port, or has ended."""
    server = start(f"fcd serve --port {PORT} {words}", preload)
    until = time.monotonic() + LIMIT
    while f" 0100007F:{PORT:04X} " not in ports() and server.poll() is None and time.monotonic() < until:
        time.sleep(0.001)
    return server


def ports():
    with open("/proc/net/udp", encoding="ascii") as file:
        return file.read()


def answer():
    """Returns the response to a ping."""
    with socket.socket(socket.AF_INET, socket.SOCK_DGRAM) as client:
        client.settimeout(LIMIT)
        client.sendto(PING, ("127.0.0.1", PORT))
        try:
            return client.recv(2048)
        except TimeoutError:
            return b""


def without_threads(shim):
    """A server for which no thread can be started still responds."""
    server = serving("--limit 1", f"LD_PRELOAD={shim} THREADS=1")
    is_answered = answer() == RESET
    return tell(f"`fcd serve --port {PORT} --limit 1`, no threads, a ping", ended(server), NO_THREADS, 0, is_answered)


def asking(stream, told):
    """A client that got a response can't print."""
    server = serving("--limit 1")
    ran = ended(start(f"fcreq --port {PORT} get /r/1 {stream}"))
    is_well = ended(server).status == 0
    return tell(f"`fcreq --port {PORT} get /r/1 {stream}`, answered", ran, told, 3, is_well)


def untold():
    """A server that can't print its address, or at its end its statistics, still responds."""
    server = serving("--log info --limit 1 2>/dev/full")
    is_answered = answer() == RESET
    return tell(f"`fcd serve --port {PORT} --log info --limit 1 2>/dev/full`, a ping", ended(server), "", 0, is_answered)


def signalled(number):
    """A server gets a signal."""
    server = serving("--log info")
    is_answered = answer() == RESET
    server.send_signal(number)
    return tell(f"`fcd serve --port {PORT} --log info`, {number.name} behind a ping", ended(server), LISTENING, -number, is_answered)


def main():
    words = sys.argv[1:] or [""]
    with tempfile.TemporaryDirectory() as room:
        shim = f"{room}/shim.so"
        subprocess.run(["cc", "-shared", "-fPIC", "-O1", "-o", shim, f"{HERE}/shim.c"], check=True)
        print("| fault | told | status | s |\n| --- | --- | --- | --- |")
        well = [tried(fault) for fault in streams() + limits(shim) + files() + unheard() if any(it in named(fault) for it in words)]
        if words == [""]:
            well += [asking(">&-", NO_OUTPUT), asking("> /dev/full", FULL), unread(), taken(), untold(), without_threads(shim)]
            well += [signalled(signal.SIGTERM), signalled(signal.SIGINT)]
    return 0 if all(well) else 1


if __name__ == "__main__":
    sys.exit(main())
