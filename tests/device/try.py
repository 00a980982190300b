#!/usr/bin/env python3
"""Runs the commands of docs/DEVICE.md and compares their output with the page; then tries sensor
files and libcoap.

The sensor files are of each kind, for `fcd serve --readings`; `fcreq observe` observes libcoap's
server (Debian's libcoap3-bin).

Use: tests/device/try.py, at the top of the repository, whose fcd, fcreq and fcasm are built. Port
5683 has to be free.

A command is a line `$ COMMAND` in a ```console block, and the lines after it are its expected
output; all are run by one bash, in their order. A block marked `console libcoap` is omitted if this
machine has no coap-client-notls. `rt ci` doesn't run this. The status is 0 if all is right."""
import os
import re
import shutil
import signal
import socket
import subprocess
import sys
import tempfile
import time
from pathlib import Path

TOP = Path(__file__).resolve().parent.parent.parent
PAGE = TOP / "docs/DEVICE.md"
FCD, FCREQ = (TOP / f"crates/{it}/out/{it}" for it in ("fcd", "fcreq"))
# The version of an install, by the time of the start: each agrees with the page.
VERSION = re.compile(r"\bversion=\d{17}\b")
END = "try.py: the command has ended"

# version 2: replies its 64 readings
READER = bytes.fromhex("46434232000005000500000000000000bf41000000000000b7020000400000008500000005000000b7000000000000009500000000000000")


def row(name, right, told=""):
    """Prints a line for a row, and returns whether it is wrong."""
    print(f"{'right' if right else 'WRONG'}  {name}{'  ' + told if told and not right else ''}", flush=True)
    return not right


def free_port():
    with socket.socket(socket.AF_INET, socket.SOCK_DGRAM) as it:
        it.bind(("127.0.0.1", 0))
        return it.getsockname()[1]


def fcreq(*words, body=None):
    """Returns the status, the printed lines, and standard error of a client."""
    ran = subprocess.run([FCREQ, *map(str, words)], input=body, stdin=None if body is not None else subprocess.DEVNULL, capture_output=True, timeout=60)
    return ran.returncode, ran.stdout.decode().splitlines(), ran.stderr.decode().strip()


def until_it_answers(port):
    for _ in range(100):
        if fcreq("--port", port, "-f", "/dev/null", "get", "/.well-known/core")[0] != 3:
            return
        time.sleep(0.05)
    raise SystemExit("try.py: no server")


# ---- the page


def commands_of(page):
    """Returns the page's commands in their order, each with the lines that it has to print."""
    found = []
    for needs, block in re.findall(r"^```console( libcoap)?\n(.*?)^```$", page, re.M | re.S):
        if needs and not shutil.which("coap-client-notls"):
            print("no coap-client-notls here: its commands are left out")
            continue
        for line in block.splitlines():
            if line.startswith("$ "):
                found.append((line[2:], []))
            else:
                found[-1][1].append(line)
    return found


def run_page():
    """Runs the page's commands in a copy of the files that they need; returns how many are
    wrong."""
    wrong = 0
    text = PAGE.read_text(encoding="utf-8")
    whole = re.search(r"^```text\n(.*?)^```$", text, re.M | re.S)[1]
    wrong += row("examples/fan.s is the page's text", whole == (TOP / "examples/fan.s").read_text(encoding="utf-8"))
    with tempfile.TemporaryDirectory(prefix="device-") as room:
        for name in ("crates", "examples"):
            os.symlink(TOP / name, Path(room) / name)
        shell = subprocess.Popen(["bash"], cwd=room, stdin=subprocess.PIPE, stdout=subprocess.PIPE, text=True, start_new_session=True)
        try:
            for command, right in commands_of(text):
                print(command, f"echo; echo '{END}'", sep="\n", file=shell.stdin, flush=True)
                said = []
                for line in shell.stdout:
                    if line.startswith(END):
                        break
                    said.append(line.rstrip("\n"))
                said = said[:-1] if said and not said[-1] else said
                same = [VERSION.sub("version=0", it) for it in said] == [VERSION.sub("version=0", it) for it in right]
                wrong += row(command, same, f"{said}")
                if "fcd serve" in command:
                    until_it_answers(5683)
        finally:
            os.killpg(shell.pid, signal.SIGKILL)
            shell.wait()
    return wrong


# ---- files of each kind


def kinds_of_files(path):
    """Writes a file of each kind to the path, and yields its name and its expected reading."""
    yield "gone", bytes(56)
    path.write_bytes(b"abc")
    yield "short", b"abc" + bytes(53)
    path.write_bytes(bytes(range(1, 101)))
    yield "of 100 bytes", bytes(range(1, 57))
    (path.parent / "other").write_bytes(b"z" * 56)
    os.replace(path.parent / "other", path)
    yield "replaced", b"z" * 56
    path.unlink()
    path.mkdir()
    yield "a folder", bytes(56)
    path.rmdir()
    os.mkfifo(path)
    yield "a FIFO", bytes(56)
    path.unlink()
    path.symlink_to("/dev/zero")
    yield "without an end", bytes(56)
    path.unlink()
    path.symlink_to("/proc/self/mem")
    yield "unreadable", bytes(56)
    path.unlink()
    path.write_bytes(b"y" * 56)
    yield "there again", b"y" * 56


def told_of(path):
    """Returns the lines on standard error for the files of each kind.

    There is one at each change between complete, unread, a FIFO and short."""
    missing = "zeros stand for what is missing"
    return [
        f"readings {path}: No such file or directory (os error 2): {missing}",
        f"readings {path}: 3 bytes of 56: {missing}",
        f"readings {path}: whole again",
        f"readings {path}: Is a directory (os error 21): {missing}",
        f"readings {path}: a FIFO isn't read, since that waits for its writer: {missing}",
        f"readings {path}: whole again",
        f"readings {path}: Input/output error (os error 5): {missing}",
        f"readings {path}: whole again",
    ]


def read_files(workers):
    """Requests a server's readings while its file changes; returns how many responses are wrong."""
    wrong, port = 0, free_port()
    with tempfile.TemporaryDirectory(prefix="device-") as room:
        path = Path(room) / "sensors"
        server = subprocess.Popen([FCD, "serve", "--port", str(port), "--workers", str(workers), "--readings", path], stderr=subprocess.PIPE, text=True)
        try:
            until_it_answers(port)
            fcreq("--port", port, "put", "/p/0", body=READER)
            for name, right in kinds_of_files(path):
                time.sleep(0.01)  # another time
                began = time.monotonic()
                said = fcreq("--port", port, "-f", "/dev/null", "get", "/r/0")[1]
                read = bytes.fromhex(said[1])[8:] if len(said) == 2 else None
                wrong += row(f"{workers} workers, a file that is {name}", read == right and time.monotonic() - began < 1, f"{said}")
        finally:
            server.terminate()
            told = server.communicate()[1].splitlines()
    return wrong + row(f"{workers} workers, told at each change", told == told_of(path), f"{told}")


# ---- libcoap's server


def observe_libcoap():
    """Observes libcoap's clock, which changes each second; returns how many rows are wrong."""
    program = shutil.which("coap-server-notls") or shutil.which("coap-server")
    if not program:
        print("no coap-server here: it isn't observed")
        return 0
    port, wrong = free_port(), 0
    server = subprocess.Popen([program, "-A", "127.0.0.1", "-p", str(port), "-v", "7"], stdout=subprocess.PIPE, stderr=subprocess.STDOUT, text=True, errors="replace")
    try:
        until_it_answers(port)
        at = f"coap://127.0.0.1:{port}"
        status, lines, told = fcreq("--text", "--count", 4, "observe", f"{at}/time")
        wrong += row("libcoap: four lines of /time", status == 0 and len(lines) == 4 and len(set(lines)) >= 3 and all(it.startswith("2.05 ") for it in lines), f"{status} {lines} {told}")
        time.sleep(2.5)
        began = time.monotonic()
        status, lines, told = fcreq("--seconds", 3, "observe", f"{at}/time")
        wrong += row("libcoap: three seconds of /time", status == 0 and 3 <= len(lines) <= 6 and 3 <= time.monotonic() - began < 4, f"{status} {lines} {told}")
        status, lines, told = fcreq("--text", "observe", f"{at}/none")
        wrong += row("libcoap: nothing there", status == 1 and lines == ["4.04 Not Found"], f"{status} {lines} {told}")
        status, lines, told = fcreq("--text", "observe", f"{at}/")
        wrong += row("libcoap: what can't be observed", status == 1 and len(lines) == 1 and "no Observe" in told, f"{status} {lines} {told}")
    finally:
        server.terminate()
        log = server.communicate()[0]
    ended = sum("c:GET" in it and "Observe:1" in it for it in log.splitlines())
    wrong += row("libcoap: both observers of /time deregistered", ended == 2, f"{ended}")
    return wrong


def main():
    wrong = run_page()
    for workers in (1, 2):
        wrong += read_files(workers)
    wrong += observe_libcoap()
    print(f"{wrong} wrong")
    return bool(wrong)


if __name__ == "__main__":
    sys.exit(main())
