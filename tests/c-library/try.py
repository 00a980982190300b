#!/usr/bin/env python3
"""Tries the C library: installs it in a temporary folder, builds programs with it, and runs them.

The programs are those of examples/c-host and of this folder. Use, at the top of a checkout in which
`rt lib` has built crates/numzela:

    tests/c-library/try.py            about half a minute
    tests/c-library/try.py --long     1,000,000 hostile datagrams in place of 100,000, and no valgrind for them
    tests/c-library/try.py --bench    prints processor times as well

It needs gcc, ar and pkg-config. With clang it builds and runs everything a second time, with g++ it
compiles the header as C++, with valgrind it runs each program under it, and with libcoap's
coap-client-notls that client sends requests to the gateway. A missing program is reported, and its
part is omitted. The status is 0 if all went well. Expected values are those of numzela.h,
docs/PROTOCOL.md and docs/PROGRAMS.md."""
import os
import shutil
import socket
import struct
import subprocess
import sys
import tempfile
import time
from pathlib import Path

TOP = Path(__file__).resolve().parents[2]
HERE = Path(__file__).resolve().parent
EXAMPLES = TOP / "examples/c-host"
IMAGE_FILE = TOP / "examples/c/thermostat.img"
IMAGE = IMAGE_FILE.read_bytes()
STRICT = ["-O1", "-g", "-std=c11", "-Wall", "-Wextra", "-Werror", "-D_GNU_SOURCE"]
VALGRIND = ["valgrind", "-q", "--leak-check=full", "--error-exitcode=77"]
RESOURCE, PROGRAM = [(11, b"r"), (11, b"1")], [(11, b"p"), (11, b"1")]


def install(prefix):
    """Installs the library, and returns the words that pkg-config prints for it."""
    subprocess.run([str(TOP / "tools/install-c-library"), str(prefix)], cwd=TOP, check=True)
    found = dict(os.environ, PKG_CONFIG_PATH=f"{prefix}/lib/pkgconfig")
    return subprocess.run(["pkg-config", "--cflags", "--libs", "numzela"], env=found, check=True, capture_output=True, text=True).stdout.split()


def build(compiler, folder, words):
    """Builds each program."""
    for source in [EXAMPLES / "filter.c", EXAMPLES / "gateway.c", *HERE.glob("*.c")]:
        more = {"gateway": [str(EXAMPLES / "device.c")], "nomem": ["-Wl,--wrap=malloc,--wrap=free"]}.get(source.stem, [])
        subprocess.run([compiler, *STRICT, "-o", f"{folder}/{source.stem}", str(source), *more, *words], check=True)


def read_as_cpp(folder, words):
    """Compiles a C++ program that calls the library, and runs it."""
    source = Path(folder) / "program.cc"
    source.write_text('#include "numzela.h"\nint main() { numzela_server s = {}; numzela_config c = {};\n'
                      "return numzela_server_new(&s, &c) != NUMZELA_OK || (numzela_server_free(&s), s.held); }\n", encoding="utf-8")
    subprocess.run(["g++", "-std=c++11", "-Wall", "-Wextra", "-Werror", "-pedantic", "-o", f"{folder}/program", str(source), *words], check=True)
    subprocess.run([f"{folder}/program"], check=True)


def option(number, value, last):
    """Returns an option's bytes (RFC 7252, 3.1)."""
    def nibble(n):
        return (n, b"") if n < 13 else (13, bytes([n - 13])) if n < 269 else (14, struct.pack(">H", n - 269))
    (delta, more), (length, longer) = nibble(number - last), nibble(len(value))
    return bytes([delta << 4 | length]) + more + longer + value


def message(code, options, payload=b"", kind=0, message_id=7):
    """Returns the bytes of a message with a token of two bytes (RFC 7252, 3)."""
    written, last = b"", 0
    for number, value in options:
        written, last = written + option(number, value, last), number
    return bytes([0x42 | kind << 4, code]) + struct.pack(">H", message_id) + b"\1\2" + written + (b"\xff" + payload if payload else b"")


def seeds():
    """Returns the datagrams that are mutated: uploads, requests, observers, blocks, ETags, signals."""
    r, p = RESOURCE, PROGRAM
    found = [
        message(3, p, IMAGE), message(2, r, b"\x13"), message(1, r), message(1, [(6, b""), *r]), message(1, [(6, b""), *r], kind=1), message(1, [(6, b"\1"), *r]),
        message(1, [(11, b".well-known"), (11, b"core")]), message(4, p), message(1, p), message(1, [(4, b"abcd"), *r]), message(1, [*r, (15, b"x=1")]),
        message(3, [*p, (27, b"\x0a")], IMAGE[:64]), message(3, [*p, (27, b"\x1a")], IMAGE[64:128]), message(1, [*r, (23, b"\2")]),
        b"\x60\0\0\x09", b"\x70\0\0\x09", b"\x40\0\1\2", message(2, r, b"\x13", 1), message(2, r, b"A" * 1024),
    ]
    return b"".join(struct.pack("<H", len(it)) + it for it in found)


def run(folder, words, under=(), **how):
    """Runs a program, which has to succeed, and returns its output."""
    ran = subprocess.run([*under, f"{folder}/{words[0]}", *words[1:]], capture_output=True, timeout=600, **how)
    if ran.returncode:
        sys.exit(f"{' '.join([*under, *words])}: status {ran.returncode}\n{ran.stdout.decode()}{ran.stderr.decode()}")
    return ran.stdout.decode()


def run_all(folder, hostile, under=()):
    """Runs each program except the gateway."""
    print(run(folder, ["hostile", f"{folder}/seeds", str(hostile)], under).splitlines()[0])
    print(run(folder, ["nomem", str(IMAGE_FILE)], under).strip())
    run(folder, ["config"], under)
    run(folder, ["programs", str(IMAGE_FILE)], under)
    # The thermostat switches on below 20 degrees, and off at 21 and above (examples/c/thermostat.c).
    printed = run(folder, ["filter", str(IMAGE_FILE), str(IMAGE_FILE)], under, input=b"\x13\n\x15\n")
    if printed != "2.04 on\n2.04 on\n2.04 off\n2.04 off\n":
        sys.exit(f"filter: {printed}")


def ask(peer, message_id, words):
    """Sends a request until a response arrives, and returns the response's code."""
    for _ in range(30):
        try:
            peer.send(message(*words, message_id=message_id))
            return peer.recv(2000)[1]
        except (ConnectionRefusedError, socket.timeout):
            time.sleep(0.1)
    return sys.exit("the gateway doesn't answer")


def try_start(folder, under=()):
    """Starts the gateway with a program of two blocks in slot 1, and asks it; and with what is none."""
    port = 20000 + os.getpid() % 20000
    # 199 times `mov64 r0, 69`, which is 2.05, and `exit`; without variables, with a budget of 200.
    slots = struct.pack("<BBhi", 0xB7, 0, 0, 69) * 199 + b"\x95" + bytes(7)
    Path(f"{folder}/long.img").write_bytes(b"FCB1" + struct.pack("<HHII", 0, 200, 200, 0) + slots)
    served = subprocess.Popen([*under, f"{folder}/gateway", str(port), "1", f"{folder}/long.img"])
    with socket.socket(socket.AF_INET, socket.SOCK_DGRAM) as peer:
        peer.connect(("127.0.0.1", port))
        peer.settimeout(1)
        code = ask(peer, 1, (1, RESOURCE))
    if code != 69 or served.wait(timeout=20):
        sys.exit(f"gateway with a program: {code}, status {served.returncode}")
    if subprocess.run([f"{folder}/gateway", str(port), "1", f"{folder}/seeds"], capture_output=True).returncode != 1:
        sys.exit("the gateway starts with what is no image")


def try_gateway(folder, under=()):
    """Uploads to the gateway, sends requests, observes, and has it switch its relay."""
    port = 20000 + os.getpid() % 20000
    served = subprocess.Popen([*under, f"{folder}/gateway", str(port)], stdout=subprocess.PIPE)
    with socket.socket(socket.AF_INET, socket.SOCK_DGRAM) as peer:
        peer.connect(("127.0.0.1", port))
        peer.settimeout(1)
        asked = [(3, PROGRAM, IMAGE), (2, RESOURCE, b"\x13"), (1, RESOURCE), (2, RESOURCE, b"\x16"), (3, PROGRAM, b"no image"), (4, PROGRAM), (1, RESOURCE)]
        codes = [ask(peer, n, words) for n, words in enumerate(asked)]
    if shutil.which("coap-client-notls"):
        words = ["coap-client-notls", "-m", "put", "-b", "64", "-f", str(IMAGE_FILE), f"coap://127.0.0.1:{port}/p/2"]
        print("libcoap, by blocks:", subprocess.run(words, capture_output=True, text=True, timeout=20).stdout.strip())
    served.terminate()
    printed = served.communicate()[0].decode().splitlines()
    # 2.01, 2.04, 2.05, 2.04, 4.00, 2.02, 4.04
    if codes != [65, 68, 69, 68, 128, 66, 132] or served.returncode or printed != ["relay on", "relay off"]:
        sys.exit(f"gateway: {codes}, status {served.returncode}, {printed}")


def main():
    words, hostile = set(sys.argv[1:]), 100_000
    if words - {"--long", "--bench"}:
        sys.exit(__doc__)
    there = {it: shutil.which(it) for it in ("gcc", "ar", "pkg-config", "clang", "g++", "valgrind")}
    print("left out:", ", ".join(it for it in there if not there[it]) or "nothing")
    with tempfile.TemporaryDirectory() as folder:
        flags = install(Path(folder) / "prefix")
        Path(f"{folder}/seeds").write_bytes(seeds())
        for compiler in [it for it in ("clang", "gcc") if there[it]]:
            print(compiler)
            build(compiler, folder, flags)
            run_all(folder, 1_000_000 if "--long" in words else hostile)
            try_start(folder)
            try_gateway(folder)
        if there["valgrind"]:
            print("valgrind")
            run_all(folder, 1_000 if "--long" in words else 20_000, VALGRIND)
            try_start(folder, VALGRIND)
            try_gateway(folder, VALGRIND)
        if there["g++"]:
            read_as_cpp(folder, flags)
        if "--bench" in words:
            print(run(folder, ["bench", str(IMAGE_FILE)]))
    print("all as it should be")


main()
