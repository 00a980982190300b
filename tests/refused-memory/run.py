#!/usr/bin/env python3
"""Runs tests and programs with ample memory, and again with each memory request refused.

The tests are those of the assembler, the instructions, the tools and of each call that requests
memory. Run it at the top of the repository, after `rt test` in crates/bpftests and
crates/pooltests, and `rt run` in crates/fcd, crates/fcasm, crates/fcreplay and crates/fcvectors,
which build the executables:

    python3 tests/refused-memory/run.py [NAME..]

It needs a C compiler and UDP port 5697 at 127.0.0.1. It prints a line for each test and each
program whose name contains one of these words (all, if none is given), and ends with 1 if an
outcome is not one that refused memory may have:

- A test passes, or ends with the error that memory was refused.
- `fcasm`, `fcreplay` and `fcvectors` behave as with ample memory, or end with status 3.
- `fcd` answers a few datagrams: all of them right, or with 5.03 to an installation or a run without
  memory, after which the slot is unchanged; or it ends with status 3.
- A program that ends with status 3 reports why, and has printed a beginning of the permitted
  output. A server on a socket has then answered no datagram, or all.
- A program that hasn't ended after 20 s is stopped, and that isn't permitted.

The tests of plays and of replies, and the cases of plays and of events, are omitted: they judge
replies, which refused memory changes."""
import collections
import dataclasses
import os
import select
import socket
import struct
import subprocess
import sys
import tempfile
import time

HERE = os.path.dirname(os.path.realpath(__file__))
TESTS = ("crates/bpftests/out/bpftests_tests", "crates/pooltests/out/pooltests_tests")
FCASM = "crates/fcasm/out/fcasm"
FCD = "crates/fcd/out/fcd"
FCREPLAY = "crates/fcreplay/out/fcreplay"
FCVECTORS = "crates/fcvectors/out/fcvectors"
PORT = 5697

# The modules whose tests are run.
TRIED = ("asm_tests::", "isa_tests::", "memory_tests::", "tool_tests::")

# The cases that are executed: programs, and how they are judged.
CASES = ("programs", "calls")

# Two of them read the message of a failed read or write: if memory is refused first, that is
# reported instead.
LEFT_OUT = ("tool_tests::a_failed_reader_is_status_3", "tool_tests::a_failed_writer_is_status_3")

# The greatest duration of a run, in seconds.
LIMIT = 20

# How often each request of a program with more than one thread is refused: which worker gets a job
# differs from run to run.
TIMES = 10

# The message of a program that ends with status 3: there was no memory for its command line, for
# reading, or for anything else.
REFUSED = ("out of memory", "error: out of memory", "standard input: out of memory", "memory allocation failed")

# Its message if no thread could be started, after which it continues.
NO_WORKER = "no worker could be started: the receiving thread works all jobs off"

# The played lines: a program is installed in slot 0 and gets two requests.
PLAYED = b"""0 1 4103123370b1700130ff46434231000002000200000000000000b7000000450000009500000000000000
1 1 4101123471b1720130
2 1 4103123570b1700130ff46434231000002000200000000000000b7000000450000009500000000000000
3 1 4101123671b1720130
"""

# The receipts of the first installation and of the second: `version=1 cost=2 budget=2 vars=0`, `version=2 ..`.
FIRST = "76657273696f6e3d3120636f73743d32206275646765743d3220766172733d30"
SECOND = "76657273696f6e3d3220636f73743d32206275646765743d3220766172733d30"

# The permitted output then, by the refused request.
PRINTED = {
    "nothing changed": f"1 6141123370ff{FIRST}\n1 6145123471480000000000000001\n1 6144123570ff{SECOND}\n1 6145123671480000000000000002\n",
    "5.03 and the same ETag": f"1 6141123370ff{FIRST}\n1 6145123471480000000000000001\n1 61a3123570\n1 6145123671480000000000000001\n",
    "5.03 and no program": f"1 61a3123370\n1 6184123471\n1 6141123570ff{FIRST}\n1 6145123671480000000000000001\n",
}

# On a socket: a program that takes 60,764 steps, 38 (1 + 38 (1 + 41) + 2) + 2, is installed in slot
# 0 and gets a request. A worker runs it, if there is one.
EXIT = bytes.fromhex("b700000000000000" "9500000000000000")
CALLS = b"".join(struct.pack("<BBhi", 0x85, 0x10, 0, 38 - place + 1) for place in range(38)) + EXIT
ADDS = EXIT[:8] + struct.pack("<BBhi", 0x07, 0, 0, 1) * 39 + EXIT[8:]
DEAR = struct.pack("<4sHHII", b"FCB1", 0, 121, 65_536, 0) + CALLS + CALLS + ADDS
ASKED = [bytes.fromhex("4103123370b1700130ff") + DEAR, bytes.fromhex("4101123471b1720130")]

INSTALLED = "6141123370ff" + b"version=1 cost=60764 budget=65536 vars=0".hex() + "\n"

# The permitted responses then.
ANSWERED = {
    "nothing changed": f"{INSTALLED}6145123471480000000000000001\n",
    "5.03 and no program": "61a3123370\n6184123471\n",
}
ANSWERED_ONCE = {"nothing changed": INSTALLED, "5.03 and no program": "61a3123370\n"}


@dataclasses.dataclass
class Ran:
    """A run's status, None if it was stopped; its output, or its responses; and its messages."""

    status: int | None
    printed: str
    told: str


def contents(path):
    with open(path, "rb") as file:
        return file.read()


def outcome_of(server, given=None):
    """Returns the outcome of a process, which is stopped if it doesn't end."""
    try:
        printed, told = server.communicate(given, timeout=LIMIT)
        return Ran(server.returncode, printed.decode("latin-1"), told.decode(errors="replace").strip())
    except subprocess.TimeoutExpired:
        server.kill()
        server.communicate()
        return Ran(None, "", "")


def start(words, environment):
    return subprocess.Popen(words, stdin=subprocess.PIPE, stdout=subprocess.PIPE, stderr=subprocess.PIPE, env=environment, pass_fds=(9,))


def command(words, given):
    """Returns a run of a command with this input."""
    return lambda environment: outcome_of(start(words, environment), given)


def is_bound():
    """Returns whether a socket is at the port."""
    return f" 0100007F:{PORT:04X} ".encode() in contents("/proc/net/udp")


def answers(server, datagrams):
    """Returns the responses to these datagrams.

    Each is sent when the one before it was answered, the first as soon as the server is at its
    port."""
    told = []
    with socket.socket(socket.AF_INET, socket.SOCK_DGRAM) as client:
        while not is_bound() and server.poll() is None:
            time.sleep(0.001)
        for datagram in datagrams:
            client.sendto(datagram, ("127.0.0.1", PORT))
            told.append(answered(server, client))
    return "".join(f"{it.hex()}\n" for it in told if it)


def answered(server, client):
    """Returns the next response; None if the server ends without one, or if none arrives in
    time."""
    until, is_over = time.monotonic() + LIMIT, False
    while not is_over:
        is_over = server.poll() is not None or time.monotonic() > until
        ready, _, _ = select.select([client], [], [], 0 if is_over else 0.01)
        if ready:
            return client.recv(2048)
    return b""


def served(workers, datagrams):
    """Returns a run of a server that ends after these datagrams: its responses are its output."""
    words = [FCD, "serve", "--port", str(PORT), "--limit", str(len(datagrams)), "--workers", str(workers)]

    def run(environment):
        server = start(words, environment)
        told = answers(server, datagrams)
        ran = outcome_of(server)
        return dataclasses.replace(ran, printed=told)

    return run


def tried(run, shim, thread, refused):
    """Returns a run with that request of that thread refused, none for 0, and whether it reached
    that request."""
    with tempfile.TemporaryFile() as told:
        os.dup2(told.fileno(), 9, inheritable=True)
        ran = run({"LD_PRELOAD": shim, "THREAD": str(thread), "REFUSE": str(refused)} if refused else {})
        return ran, os.fstat(told.fileno()).st_size > 0


def of_test(ran, _ample):
    """Returns the outcome of a test, and whether it is permitted."""
    if ran.status == 0:
        return "passed", True
    said = (ran.told.splitlines() or [""])[0]
    return said, said.lower() in ("error: allocerror", "error: nomemory")


def of_command(ran, ample):
    """Returns the outcome of a command, which may only behave as with ample memory."""
    if (ran.status, ran.printed, ran.told) == (ample.status, ample.printed, ample.told):
        return "as with ample memory", True
    return of_failed(ran, ample.printed.startswith(ran.printed))


def of_play(ran, _ample):
    """Returns the outcome of `fcd play`."""
    return of_replies(ran, PRINTED) or of_failed(ran, any(it.startswith(ran.printed) for it in PRINTED.values()))


def of_one_answer(ran, _ample):
    """Returns the outcome of a server that gets one request."""
    return of_replies(ran, ANSWERED_ONCE) or of_failed(ran, ran.printed in ("", *ANSWERED_ONCE.values()))


def of_two_answers(ran, _ample):
    """Returns the outcome of a server that gets two requests."""
    return of_replies(ran, ANSWERED) or of_failed(ran, ran.printed in ("", *ANSWERED.values()))


def of_replies(ran, wanted):
    """Returns which of these replies a successful run gave; None if it failed, or gave others."""
    names = [name for name, printed in wanted.items() if (ran.status, ran.printed) == (0, printed)]
    if names and ran.told in ("", NO_WORKER):
        return names[0] + (ran.told and ", no worker"), True
    return None


def of_failed(ran, may_be_printed):
    """Returns the outcome of a run that may end with status 3 alone."""
    if ran.status == 3 and ran.told in REFUSED and may_be_printed:
        return "status 3", True
    return f"no end in {LIMIT} s" if ran.status is None else f"status {ran.status}, {ran.printed!r}, {ran.told!r}", False


def each_of_thread(run, judge, shim, times, thread, outcomes, wrong):
    """Refuses each request of a thread in order, this many times, and counts the outcomes.

    Returns the number of its requests."""
    ample, _ = tried(run, shim, 0, 0)
    requests = 0
    while True:
        each = [tried(run, shim, thread, requests + 1) for _ in range(times)]
        if not any(is_reached for _, is_reached in each):
            return requests
        requests += 1
        for outcome, may_be in (judge(ran, ample) for ran, is_reached in each if is_reached):
            outcomes[outcome] += 1
            wrong[outcome, thread, requests] += not may_be


def each_refused(name, run, judge, shim, times):
    """Refuses each request of each thread of a run in order, this many times. Returns whether each
    outcome is permitted."""
    outcomes, wrong, requests = collections.Counter(), collections.Counter(), []
    while not requests or requests[-1]:
        requests.append(each_of_thread(run, judge, shim, times, len(requests), outcomes, wrong))
    told = ", ".join(f"{count} {outcome}" for outcome, count in outcomes.items())
    made = " + ".join(map(str, requests[:-1] or [0])) + (f", {times} times each" if times > 1 else "")
    wrong = [f"{count} {outcome}, thread {thread}, request {number}" for (outcome, thread, number), count in wrong.items() if count]
    print(f"| {name} | {made} | {told or 'none asked for'} |{f' WRONG: {wrong}' if wrong else ''}", flush=True)
    return not wrong


def tests():
    """Returns the tests that are run: the executable and the name of each."""
    found = []
    for executable in TESTS:
        listed = subprocess.run([executable, "--list"], capture_output=True, text=True, check=True)
        names = [line.removesuffix(": test") for line in (listed.stdout + listed.stderr).splitlines() if line.endswith(": test")]
        found += [(executable, it) for it in names if it.startswith(TRIED) and it not in LEFT_OUT]
    return found


def programs():
    """Returns the programs: the name of each, how it is run, which function judges it, and how
    often."""
    text = contents("crates/fcasm/stdin")
    image = subprocess.run([FCASM, *contents("crates/fcasm/args").decode().split()], input=text, capture_output=True, check=True).stdout
    assembled = [FCASM, "image", "--vars", "0", "--budget", "2"]
    return [
        ("fcasm image", command(assembled, text), of_command, 1),
        ("fcasm image, a mistake", command(assembled, b"exit\nmovq r1, 1\n"), of_command, 1),
        ("fcasm list", command([FCASM, "list"], image), of_command, 1),
        ("fcasm check", command([FCASM, "check"], image), of_command, 1),
        ("fcreplay", command([FCREPLAY], contents("crates/fcreplay/stdin")), of_command, 1),
        *((f"fcvectors asm/{it}", command([FCVECTORS, f"crates/fcvectors/data/asm/{it}.case"], b""), of_command, 1) for it in CASES),
        ("fcd play", command([FCD, "play"], PLAYED), of_play, 1),
        ("fcd play --workers 1", command([FCD, "play", "--workers", "1"], PLAYED), of_play, TIMES),
        ("fcd play --workers 2", command([FCD, "play", "--workers", "2"], PLAYED), of_play, TIMES),
        ("fcd serve --workers 1 --limit 1", served(1, ASKED[:1]), of_one_answer, 1),
        ("fcd serve --workers 2 --limit 1", served(2, ASKED[:1]), of_one_answer, TIMES),
        ("fcd serve --workers 1 --limit 2", served(1, ASKED), of_two_answers, 1),
        ("fcd serve --workers 2 --limit 2", served(2, ASKED), of_two_answers, TIMES),
    ]


def main():
    names = sys.argv[1:] or [""]
    with tempfile.TemporaryDirectory() as room:
        shim = f"{room}/refuse.so"
        subprocess.run(["cc", "-shared", "-fPIC", "-O1", "-o", shim, f"{HERE}/refuse.c"], check=True)
        tried_ones = [(it, command([executable, it], b""), of_test, 1) for executable, it in tests()] + programs()
        print("| what was run | requests | what came of refusing each |\n| --- | --- | --- |")
        well = [each_refused(name, run, judge, shim, times) for name, run, judge, times in tried_ones if any(it in name for it in names)]
    return 0 if all(well) else 1


if __name__ == "__main__":
    sys.exit(main())
