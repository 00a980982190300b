#!/usr/bin/env python3
"""Observes a server with libcoap's client, and reports its notifications.

Run it at the top of the repository, after `rt run` in crates/fcd, which builds the server;
libcoap's client is that of Debian's package libcoap3-bin:

    python3 tests/socket/observe.py [--workers W]

It starts `fcd serve`, and installs two counters: both reply with the number of POSTs, and only that
of slot 1 calls `notify` in a POST. The client has to be notified of each POST of slot 1, and of
nothing of slot 2 after the first response. After a cancellation there may be no notification, and a
DELETE has to be notified as the end of the resource. The script ends with 1 if there is any other
notification."""
import argparse
import os
import subprocess
import sys
import tempfile
import time

FCD = "crates/fcd/out/fcd"
CLIENT = "coap-client-notls"
PORT = 5698

# r6 = var_get(0) + 1; var_put(0, r6); reply_byte(48 + r6); and, in slot 1 alone, notify(). A GET
# discards its variables.
COUNT = ("b701000000000000" "8500000003000000" "0700000001000000" "bf06000000000000" "bf62000000000000" "b701000000000000"
         "8500000004000000" "bf61000000000000" "0701000030000000" "8500000006000000")
NOTIFY = "8500000007000000"
END = "b700000000000000" "9500000000000000"


def image(code):
    """Returns an image of these instructions, with eight bytes of variables."""
    slots = bytes.fromhex(code)
    count = len(slots) // 8
    return b"FCB1" + (8).to_bytes(2, "little") + count.to_bytes(2, "little") + count.to_bytes(4, "little") + bytes(4) + slots


def ask(method, path, body=None):
    """Returns the client's output for one request."""
    words = [CLIENT, "-m", method]
    with tempfile.NamedTemporaryFile() as file:
        if body is not None:
            file.write(body)
            file.flush()
            words += ["-f", file.name]
        run = subprocess.run(words + [f"coap://127.0.0.1:{PORT}{path}"], capture_output=True, text=True, timeout=20)
    return (run.stdout + run.stderr).strip()


def observe(path, seconds):
    """Observes for this long, and then cancels."""
    words = [CLIENT, "-w", "-s", str(seconds), f"coap://127.0.0.1:{PORT}{path}"]
    return subprocess.Popen(words, stdout=subprocess.PIPE, stderr=subprocess.STDOUT, text=True)


def heard(observer):
    return observer.communicate(timeout=30)[0].split()


def told(what, got, wanted):
    print(f"{what}: {' '.join(got) or '-'}", flush=True)
    return got == wanted


def rounds():
    """Returns the notifications, and whether they are right."""
    print("PUT /p/1:", ask("put", "/p/1", image(COUNT + NOTIFY + END)))
    print("PUT /p/2:", ask("put", "/p/2", image(COUNT + END)), flush=True)
    observer = observe("/r/1", 4)
    time.sleep(1)
    for _ in range(3):
        ask("post", "/r/1")
        time.sleep(0.3)
    yield told("slot 1, with three POSTs", heard(observer), ["1", "2", "3", "4"])
    ask("post", "/r/1")
    observer = observe("/r/2", 3)
    time.sleep(1)
    ask("post", "/r/2")
    yield told("slot 2, whose program gives no notice, with one POST", heard(observer), ["1"])
    observer = observe("/r/1", 3)
    time.sleep(1)
    ask("delete", "/p/1")
    yield told("slot 1, with a DELETE", heard(observer), ["5", "4.04"])


def main():
    parser = argparse.ArgumentParser(description=__doc__.splitlines()[0])
    parser.add_argument("--workers", default="2")
    options = parser.parse_args()
    os.environ.setdefault("LC_ALL", "C")
    server = subprocess.Popen([FCD, "serve", "--port", str(PORT), "--workers", options.workers])
    try:
        time.sleep(0.5)
        return 0 if all(list(rounds())) else 1
    finally:
        server.terminate()
        server.wait()


if __name__ == "__main__":
    sys.exit(main())
