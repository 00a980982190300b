#!/usr/bin/env python3
"""Makes the programs of this folder from C and from assembly, uploads both to a server, and sends
them requests.

It also runs the programs of loops/, and compares the results with those of the same C compiled for
this computer, by `cc`. Then it shows the refused programs.

Use: examples/c/try.py [CLANG], at the top of the repository, whose fcasm and fcd are built, or on
the path. CLANG is `clang` if not given. The status is 0 if no response was wrong, and no corrected
form was refused. tried.txt is its output with clang 14.0.6."""
import random
import re
import shutil
import socket
import struct
import subprocess
import sys
import tempfile
import time
from pathlib import Path

TOP = Path(__file__).resolve().parent.parent.parent
FLAGS = ["-target", "bpf", "-mcpu=v2", "-O2", "-g", "-mllvm", "-enable-tail-merge=0", "-I", str(TOP / "include")]
PROGRAMS = ["thermostat", "average", "access", "alarm", "thermistor"]
RUNS, WORDS = 300, 8  # for a program of loops/: the number of requests, and of words of variables

# method, query, payload, and the response: code and payload
ASKED = {
    "thermostat": [
        ("GET", "", b"", "2.05", b"off"),
        ("POST", "", b"\x13", "2.04", b"on"),  # 19 degrees, below 20
        ("POST", "", b"\x14", "2.04", b"on"),  # 20: as it was
        ("POST", "", b"\x15", "2.04", b"off"),  # 21
        ("POST", "target", b"\x17", "2.04", b"off"),  # 23 is the target
        ("POST", "", b"\x16", "2.04", b"on"),  # 22
        ("GET", "", b"", "2.05", b"on"),
        ("POST", "target", b"", "4.00", b""),
        ("POST", "tarGet", b"\x18", "2.04", b"off"),  # a reading, 24: above 23
        ("GET", "target", b"\x50", "2.05", b"off"),  # a GET changes nothing
    ],
    "average": [
        ("GET", "", b"", "4.04", b""),
        ("POST", "", b"7", "2.04", b""),
        ("GET", "", b"", "2.05", b"7"),
        ("POST", "", b"20", "2.04", b""),
        ("GET", "", b"", "2.05", b"13"),
        ("POST", "", b"9999", "2.04", b""),
        ("POST", "", b"0", "2.04", b""),
        ("GET", "", b"", "2.05", b"2506"),
        ("POST", "", b"100", "2.04", b""),  # 7 goes
        ("GET", "", b"", "2.05", b"2529"),
        ("POST", "", b"1/", "4.00", b""),
        ("POST", "", b":", "4.00", b""),
        ("POST", "", b"", "4.00", b""),
        ("POST", "", b"12345", "4.00", b""),
        *[("POST", "", b"0", "2.04", b"")] * 4,
        ("GET", "", b"", "2.05", b"0"),
    ],
    "access": [
        ("GET", "code=4711", b"", "4.04", b""),
        ("POST", "", b"47", "4.00", b""),
        ("POST", "", b"4711", "2.04", b""),
        ("GET", "code=4711", b"", "2.05", b"open"),
        ("GET", "code=4712", b"", "4.03", b""),
        ("GET", "code=47110", b"", "4.03", b""),
        ("GET", "Code=4711", b"", "4.03", b""),
        ("GET", "", b"", "4.03", b""),
        ("POST", "code=1234", b"0000", "4.03", b""),
        ("POST", "code=4711", b"80a0", "2.04", b""),
        ("GET", "code=4711", b"", "4.03", b""),
        ("GET", "code=80a0", b"", "2.05", b"open"),
    ],
    "alarm": [
        ("GET", "", b"", "2.05", b"normal"),
        ("POST", "limit", b"\x64\0", "2.04", b"normal"),  # 100
        ("POST", "", b"\x65\0", "2.04", b"raised"),  # 101
        ("POST", "", b"\x63\0", "2.04", b"raised"),  # 99, and no client sent ack
        ("POST", "ack", b"", "2.04", b"normal"),
        ("POST", "", b"\xff\0", "2.04", b"raised"),
        ("POST", "ack", b"", "2.04", b"acked"),  # it is still above
        ("POST", "", b"\xc8\0", "2.04", b"acked"),
        ("POST", "", b"\x64\0", "2.04", b"normal"),  # 100 isn't above 100
        ("POST", "", b"\x01", "4.00", b""),
        ("POST", "acl", b"\x65\x01", "2.04", b"raised"),  # a value, 357
        ("GET", "ack", b"", "2.05", b"raised"),  # a GET changes nothing
    ],
    "thermistor": [
        ("GET", "", b"", "2.05", b"\0\0"),
        ("POST", "", b"\0\0", "2.04", struct.pack("<h", 1250)),
        ("POST", "", struct.pack("<H", 256), "2.04", struct.pack("<h", 980)),
        ("POST", "", struct.pack("<H", 128), "2.04", struct.pack("<h", 1115)),  # halfway
        ("POST", "", struct.pack("<H", 13 * 256 + 128), "2.04", struct.pack("<h", -45)),
        ("POST", "", struct.pack("<H", 13 * 256 + 1), "2.04", struct.pack("<h", 0)),  # -90/256
        ("POST", "", struct.pack("<H", 4095), "2.04", struct.pack("<h", -399)),  # -210 and -190 * 255/256
        ("POST", "", struct.pack("<H", 4096), "4.00", b""),
        ("POST", "", b"\0", "4.00", b""),
        ("GET", "", b"", "2.05", struct.pack("<h", -399)),
    ],
}


def built(name):
    return shutil.which(name) or str(TOP / f"crates/{name}/out/{name}")


def run(*words, **more):
    """Runs a command, and returns its status and its output."""
    done = subprocess.run([str(it) for it in words], stdout=subprocess.PIPE, stderr=subprocess.STDOUT, **more)
    return done.returncode, done.stdout


def image_of(clang, source, image, *more, size=None, flags=FLAGS):
    """Compiles a source and makes an image of it, and returns the status and the output.

    The image has this many bytes of variables, or as many as the source says."""
    status, said = run(clang, *flags, *more, "-c", source, "-o", image.with_suffix(".o"))
    lines = said.decode(errors="replace").replace(str(source), source.name).splitlines()
    if status:
        return status, re.sub("0x[0-9a-f]+", "0x..", next(it for it in lines if "error" in it))
    status, said = run(TOP / "tools/elf2img", "--fcasm", built("fcasm"), *(["--vars", size] if size else []), image.with_suffix(".o"), image)
    return status, said.decode().strip().replace(str(image.parent) + "/", "")


class Client:
    """Sends confirmable requests, one after the other."""

    def __init__(self, port):
        self.socket, self.id = socket.socket(socket.AF_INET, socket.SOCK_DGRAM), 0
        self.socket.connect(("127.0.0.1", port))
        self.socket.settimeout(0.2)

    def ask(self, method, path, query, payload):
        """Returns the response's code and payload."""
        self.id += 1
        message = bytes([0x40, {"GET": 1, "POST": 2, "PUT": 3}[method], self.id >> 8, self.id & 255])
        last = 0
        for number, value in [*((11, it) for it in path.split("/")), *((15, it) for it in [query] if it)]:
            message += bytes([(number - last) << 4 | len(value)]) + value.encode()
            last = number
        message += b"\xff" + payload if payload else b""
        for _ in range(50):
            try:
                self.socket.send(message)
                answer = self.socket.recv(1280)
            except TimeoutError:
                continue
            except ConnectionRefusedError:  # the server has no socket yet
                time.sleep(0.1)
                continue
            assert answer[0] == 0x60 and answer[2:4] == message[2:4], answer.hex()
            return f"{answer[1] >> 5}.{answer[1] & 31:02}", answer[4:].partition(b"\xff")[2] if answer[1] >> 5 != 2 else payload_of(answer[4:])
        raise SystemExit("try.py: no answer")


def payload_of(rest):
    """Returns the bytes after the options, all of which are short."""
    while rest and rest[0] != 0xFF:
        rest = rest[1 + (rest[0] & 15) :]
    return rest[1:]


def requests():
    """Returns the requests of the runs: a method, 1 or 2, a payload, a query, variables and
    readings, in hex; always the same."""
    some = random.Random(1)
    bytes_of = [lambda: some.randrange(256), lambda: some.choice(b"0123456789"), lambda: some.choice(b"\0\1\2\3\4\7\xff")]
    for _ in range(RUNS):
        size, byte, word = some.choice([0, 1, 2, 3, 8, some.randrange(40), some.randrange(1025)]), some.choice(bytes_of), some.choice(bytes_of)
        parts = bytes(byte() for _ in range(size)), bytes(some.randrange(33, 127) for _ in range(some.randrange(9)))
        parts += bytes(word() for _ in range(8 * WORDS)), bytes(some.randrange(256) for _ in range(64))
        yield some.choice([1, 2]), *(it.hex() or "-" for it in parts)


def by_fcasm(image, method, payload, query, variables, readings):
    """Returns the results of a run in a line: code, reply, variables, notify flag."""
    given = zip(("--payload", "--query", "--vars", "--readings"), (payload, query, variables, readings))
    more = [word for name, hexes in given if hexes != "-" for word in (name, hexes)]
    status, said = run(built("fcasm"), "run", "--method", ["get", "post"][method - 1], *more, image)
    lines = dict(it.split() for it in said.decode().splitlines())
    return " ".join(lines.get(it, f"(status {status})") for it in ("code", "reply", "vars", "notice"))


def compare(source, image):
    """Runs an image, and its source compiled for this computer, and returns how often the results
    differ."""
    program, asked = image.with_suffix(""), list(requests())
    flags = ["-O1", "-w", "-fno-strict-aliasing", "-I", TOP / "include", f'-DPROGRAM="{source}"']
    status, said = run("cc", *flags, TOP / "examples/c/host.c", "-o", program)
    if status:
        raise SystemExit(f"{source}: {said.decode()}")
    answers = run(program, input="".join(" ".join(map(str, it)) + "\n" for it in asked).encode())[1].decode().splitlines()
    return sum(by_fcasm(image, *it) != answer for it, answer in zip(asked, answers)) + len(asked) - len(answers)


def shown(payload):
    """Returns a payload as text, or in hex if it isn't text."""
    return payload.decode() if all(32 <= it < 127 for it in payload) else payload.hex()


def main(words):
    clang, wrong, refused = words[0] if words else "clang", 0, [0, 0]
    print(run(clang, "--version")[1].decode().splitlines()[0])
    with tempfile.TemporaryDirectory(prefix="try-") as room:
        room, slots = Path(room), []
        for name in PROGRAMS:
            source, image = TOP / f"examples/c/{name}.c", room / f"{name}.img"
            status, said = image_of(clang, source, image)
            if status:
                raise SystemExit(f"{name}.c: {said}")
            print(f"\n{name}.c  {said}")
            slots.append((name, "c", image.read_bytes()))
            print(f"{name}.c  fcasm check: {run(built('fcasm'), 'check', input=image.read_bytes())[1].decode().strip()}")
            lines = (TOP / f"examples/c/{name}.s").read_text()
            status, made = run(built("fcasm"), "image", *lines.splitlines()[1].strip("; ").split(), input=lines.encode())
            print(f"{name}.s  fcasm check: {run(built('fcasm'), 'check', input=made)[1].decode().strip()}")
            slots.append((name, "s", made))
        with socket.socket(socket.AF_INET, socket.SOCK_DGRAM) as free:
            free.bind(("127.0.0.1", 0))
            port = free.getsockname()[1]
        server = subprocess.Popen([built("fcd"), "serve", "--port", str(port)])
        try:
            client = Client(port)
            count = 0
            for slot, (_, _, image) in enumerate(slots):
                code, _ = client.ask("PUT", f"p/{slot}", "", image)
                wrong += code != "2.01"
                count += 1
            for slot in range(0, len(slots), 2):
                name = slots[slot][0]
                print(f"\n{name}: /r/{slot} from C, /r/{slot + 1} from assembler")
                for method, query, payload, *right in ASKED[name]:
                    for here in (slot, slot + 1):
                        code, said = client.ask(method, f"r/{here}", query, payload)
                        count += 1
                        is_wrong = [code, said] != right
                        wrong += is_wrong
                        if here == slot or is_wrong:
                            asked = f"{method:4} /r/{here}{'?' + query if query else '':11} {repr(payload)[1:]:10}"
                            print(f"  {asked} {code} {shown(said)}{'  WRONG' if is_wrong else ''}".rstrip())
        finally:
            server.kill()
            server.wait()
        print(f"\nLoops, each asked {RUNS} times beside the same C compiled for this computer:")
        for source in sorted((TOP / "examples/c/loops").glob("*.c")):
            image = room / f"{source.stem}.img"
            status, said = image_of(clang, source, image, size=8 * WORDS)
            differ = RUNS if status else compare(source, image)
            wrong, count = wrong + differ, count + RUNS
            text = said.splitlines()[0].replace(f"{source.stem}.img: ", "").replace(f", {8 * WORDS} bytes of variables", "")
            print(f"  {source.stem:9} {text}{f'  {differ} WRONG' if differ else ''}")
        print("\nWhat is refused, and as it is mended:")
        plain = [it for it in FLAGS if it not in ("-mllvm", "-enable-tail-merge=0")]
        sources = [(TOP / "examples/c/refused/tails.c", plain, FLAGS)]
        sources += [(it, FLAGS, [*FLAGS, "-DMENDED"]) for it in sorted((TOP / "examples/c/refused").glob("*.c")) if it.stem != "tails"]
        for source, natural, mended in sources:
            for at, flags in enumerate((natural, mended)):
                status, said = image_of(clang, source, room / f"{source.stem}.img", "-w", size=32, flags=flags)
                text = said.splitlines()[0].replace(f"elf2img: {source.stem}.o: ", "").replace(f"{source.stem}.img: ", "")
                print(f"{source.stem if at == 0 else '':11} {text.replace(', 32 bytes of variables', '')}")
                refused[at] += status != 0
    print(f"\n{count} asked, {wrong} answered wrong; {len(sources)} natural forms, {refused[0]} refused; as many mended, {refused[1]} refused")
    return bool(wrong or refused[1])


if __name__ == "__main__":
    sys.exit(main(sys.argv[1:]))
