"""A CoAP client, images of programs and a server process, for the tries of `fcd serve --store`."""
import os
import signal
import socket
import struct
import subprocess
import time
from pathlib import Path

TOP = Path(__file__).resolve().parent.parent.parent
FCD = Path(os.environ.get("FCD", TOP / "crates/fcd/out/fcd"))

GET, POST, PUT, DELETE = 1, 2, 3, 4
CREATED, DELETED, CHANGED, CONTENT = 0x41, 0x42, 0x44, 0x45
NOT_FOUND, UNAVAILABLE = 0x84, 0xA3
URI_PATH, BLOCK1, ETAG = 11, 27, 4

# The instructions of crates/fcexamples/data/counter.s: a POST adds one to the count in the eight
# bytes of variables, and the response to each method is the count.
COUNT = bytes.fromhex(
    "7116000000000000" "bf27000000000000" "5506070002000000" "b701000000000000" "8500000003000000"
    "bf02000000000000" "0702000001000000" "b701000000000000" "8500000004000000" "8500000007000000" "bf71000000000000" "b702000008000000"
    "8500000005000000" "b700000000000000" "9500000000000000"
)

# Two nested loops in R8 and R9, of 4 times 1,000 iterations.
LOOPS = (
    bytes.fromhex("b708000000000000" "b709000000000000" "0709000001000000" "a509feff") + (1_000).to_bytes(4, "little")
    + bytes.fromhex("0708000001000000" "a508fbff") + (4).to_bytes(4, "little")
)


def image(code, budget, version=1, vars_size=8):
    """Returns the image of these instructions: the magic, the sizes, the budget, and four zeros."""
    return b"FCB%d" % version + struct.pack("<HHII", vars_size, len(code) // 8, budget, 0) + code


def counter(budget=15):
    """Returns the image of the counter, whose runs take up to 15 steps."""
    return image(COUNT, budget)


def slow_counter(budget=8_028):
    """Returns the image of a counter whose runs take up to 1 + 4 * (3 + 2 * 1,000) + 15 steps.

    These are above 6,000, so its runs go to workers."""
    return image(LOOPS + COUNT, budget, version=2)


def long_counter(slots=512):
    """Returns the image of a counter after as many `mov64 r0, 0` as give it `slots` slots."""
    return image(bytes.fromhex("b700000000000000") * (slots - len(COUNT) // 8) + COUNT, slots)


def option(delta, value):
    """Returns an option with its number's delta (RFC 7252, 3.1)."""
    if delta < 13:
        return bytes([delta << 4 | len(value)]) + value
    return bytes([0xD0 | len(value), delta - 13]) + value


def options_of(path, block):
    """Returns a request's options: the path, and Block1 if there is a block (RFC 7959, 2.2)."""
    parts = path.split("/")
    told = b"".join(option(URI_PATH if at == 0 else 0, part.encode()) for at, part in enumerate(parts))
    return told if block is None else told + option(BLOCK1 - URI_PATH, block.to_bytes((block.bit_length() + 7) // 8, "big"))


class Response:
    """The code, the payload, and the ETag as a number, of a message."""

    def __init__(self, message):
        self.code, self.payload, self.etag = message[1], b"", None
        at, number = 4 + (message[0] & 15), 0
        while at < len(message) and message[at] != 0xFF:
            delta, size = message[at] >> 4, message[at] & 15
            at += 1
            if delta == 13:
                delta, at = 13 + message[at], at + 1
            number += delta
            if number == ETAG:
                self.etag = int.from_bytes(message[at : at + size], "big")
            at += size
        self.payload = message[at + 1 :]

    def receipt(self):
        """Returns the version and the budget in a receipt."""
        fields = dict(part.split("=") for part in self.payload.decode().split())
        return int(fields["version"]), int(fields["budget"])

    def count(self):
        """Returns the count in the payload: eight bytes, the least first."""
        return int.from_bytes(self.payload, "little")


class Client:
    """One endpoint. `is_down` says whether no response can come any more."""

    def __init__(self, port, is_down=lambda: False):
        self.socket = socket.socket(socket.AF_INET, socket.SOCK_DGRAM)
        self.socket.connect(("127.0.0.1", port))
        self.is_down = is_down
        self.id = int.from_bytes(os.urandom(2), "big")

    def close(self):
        self.socket.close()

    def ask(self, method, path, payload=b"", block=None, wait=5.0):
        """Sends a confirmable request, and returns its response or `None`."""
        self.id = (self.id + 1) % 65536
        token = self.id.to_bytes(2, "big")
        message = bytes([0x42, method]) + token + token + options_of(path, block)
        message += b"\xff" + payload if payload else b""
        end, sent = time.monotonic() + wait, False
        while True:
            was_down = self.is_down()
            try:
                if not sent:
                    self.socket.send(message)
                    sent = True
                self.socket.settimeout(0.02)
                got = self.socket.recv(2048)
                if got[4:6] == token:
                    return Response(got)
            except OSError as error:
                if not isinstance(error, socket.timeout):
                    time.sleep(0.005)  # no process has the port yet, or any more
                    sent = False
                if was_down or time.monotonic() > end:
                    return None

    def put(self, slot, program):
        """Uploads a program in blocks of 1,024 bytes, and returns the last response or `None`."""
        starts, got = range(0, len(program), 1024), None
        for at in starts:
            more = at + 1024 < len(program)
            block = (at // 1024 << 4 | more << 3 | 6) if len(starts) > 1 else None
            got = self.ask(PUT, f"p/{slot}", program[at : at + 1024], block)
            if got is None:
                return None
        return got


def free_port():
    """Returns a port of this host without a listener."""
    with socket.socket(socket.AF_INET, socket.SOCK_DGRAM) as it:
        it.bind(("127.0.0.1", 0))
        return it.getsockname()[1]


class Server:
    """A process of `fcd serve` with these options. Its standard error is read when it has ended."""

    def __init__(self, *words, **how):
        self.port = free_port()
        limit = () if "--exchanges" in words else ("--exchanges", 16384)
        words = [FCD, "serve", "--port", self.port, *limit, *words]
        self.begun = time.monotonic()
        self.it = subprocess.Popen([str(word) for word in words], stderr=subprocess.PIPE, **how)

    def __enter__(self):
        return self

    def __exit__(self, *_):
        self.kill()

    def client(self):
        return Client(self.port, lambda: self.it.poll() is not None)

    def is_up(self, wait=20.0):
        """Waits for the response to a GET, and returns whether there is one; sets `seconds`."""
        client, end = self.client(), time.monotonic() + wait
        while time.monotonic() < end and self.it.poll() is None:
            if client.ask(GET, "p/0", wait=0.5):
                self.seconds = time.monotonic() - self.begun
                client.close()
                return True
        client.close()
        return False

    def kill(self, number=signal.SIGKILL):
        """Sends the signal and waits for the end."""
        if self.it.poll() is None:
            self.it.send_signal(number)
        self.it.wait()
        self.it.stderr.close()

    def told(self):
        """Kills the server, and returns the lines of its standard error."""
        self.it.kill()
        return self.it.communicate()[1].decode()

    def refusal(self, wait=20.0):
        """Waits for the end of a server that doesn't start; returns its status and its lines."""
        try:
            _, told = self.it.communicate(timeout=wait)
        except subprocess.TimeoutExpired:
            self.it.kill()
            _, told = self.it.communicate()
            return None, told.decode()
        return self.it.returncode, told.decode()
