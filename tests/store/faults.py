"""Tries a server with a store whose file isn't its own, or whose clock or disk fails."""
import os
import resource
import shutil
import signal
import sqlite3
import subprocess
from pathlib import Path

from client import CHANGED, CONTENT, CREATED, DELETE, DELETED, GET, POST, UNAVAILABLE, Server, counter, image, long_counter

DAMAGED = "it is no database of SQLite, or a damaged one"
FOREIGN = "it is a database, but none that `fcd serve` has made"
CANNOT_OPEN = "it can't be opened to be read and written"
BUSY = "another process has it open"
NO_STATE = "/p/9: its serial, its version or the size of its variables is wrong"
TABLE = "CREATE TABLE slot (number INTEGER PRIMARY KEY, serial INTEGER NOT NULL, version INTEGER, image BLOB, vars BLOB) STRICT"
ZEROS = bytes(8)

# A row, and the reason why a start refuses it: no reason for the first two.
ROWS = (
    ("a program", (9, 7, 7, counter(), (5).to_bytes(8, "little")), None),
    ("an empty slot", (9, 7, None, None, None), None),
    ("slot 99", (99, 7, None, None, None), "its row 99 is the state of no slot: slots have the numbers 0 to 63"),
    ("slot -1", (-1, 7, None, None, None), "its row -1 is the state of no slot: slots have the numbers 0 to 63"),
    ("a negative serial", (9, -7, None, None, None), "its row 9 is the state of no slot: its serial is below 0"),
    ("a version above the serial", (9, 7, 8, counter(), ZEROS), "its row 9 is the state of no slot: its version is below 0, or above its serial"),
    (
        "a program without variables", (9, 7, 7, counter(), None),
        "its row 9 is the state of no slot: it has no version, no image or no variables, but not all three are missing",
    ),
    ("version 0", (9, 7, 0, counter(), ZEROS), NO_STATE),
    ("variables of another size", (9, 7, 7, counter(), bytes(16)), NO_STATE),
    ("an image above its budget", (9, 7, 7, counter(14), ZEROS), "/p/9: its image isn't accepted: V16 slot 0"),
    ("an empty image", (9, 7, 7, b"", b""), "/p/9: its image isn't accepted: V01 slot 0"),
    ("an image that reads R2 after a call", (9, 7, 7, image(bytes.fromhex("8500000007000000" "bf20000000000000" "9500000000000000"), 3, 1, 0), b""), "/p/9: its image isn't accepted: V20 slot 1"),
)

# a log with one page at least has its header of 32 bytes and the page's header of 24
FRAME = 32 + 24


class Tries:
    """Rows of tries in a folder; `wrong` counts the wrong ones."""

    def __init__(self, folder):
        self.folder, self.wrong = Path(folder), 0

    def path(self, name):
        return self.folder / (name.replace(" ", "-") + ".db")

    def row(self, name, right, told=""):
        """Prints a line for a row."""
        self.wrong += not right
        print(f"{'right' if right else 'WRONG'}  {name}{'' if right or told == '' else f'  {told}'}", flush=True)

    def refused(self, name, path, reason, **how):
        """A row: a start is refused for this reason, and the file is as before.

        Its log is as before too, or is new and has a header alone."""
        log = Path(f"{path}-wal")
        before = contents(path), contents(log)
        with Server("--store", path, **how) as server:
            status, told = server.refusal()
        same = contents(path) == before[0] and (contents(log) == before[1] or not before[1] and log.stat().st_size < FRAME)
        wanted = f"error: store {path}: {reason}\n"
        self.row(name, (status, told) == (3, wanted) and same, (status, told, same))

    def used(self, name, path, judge, *words, **how):
        """A row: a start with this file succeeds, and `judge` finds nothing wrong."""
        with Server("--store", path, *words, **how) as server:
            if not server.is_up():
                self.row(name, False, server.refusal())
                return
            client = server.client()
            wrong = judge(client, server)
            self.row(name, not wrong, wrong)
            client.close()


def contents(path):
    """Returns the bytes of a file, or none if it is missing."""
    return Path(path).read_bytes() if Path(path).is_file() else b""


def is_code(got, code):
    """Returns whether a response has this code; no response has none."""
    return got is not None and got.code == code


def count_of(client, slot):
    """Returns the count that a GET is answered with, or `None` if its code isn't 2.05."""
    got = client.ask(GET, f"r/{slot}")
    return got.count() if is_code(got, CONTENT) else None


def upload(client, *slots):
    """Returns what is wrong with uploads to empty slots."""
    return [slot for slot in slots if not is_code(client.put(slot, counter()), CREATED)]


def make(path, slots=(1,), posts=1, **how):
    """Makes a store with counters in these slots, each after some POSTs; returns the last ETags."""
    with Server("--store", path, **how) as server:
        assert server.is_up(), server.refusal()
        client = server.client()
        assert not upload(client, *slots)
        for slot in slots:
            for _ in range(posts):
                assert is_code(client.ask(POST, f"r/{slot}"), CHANGED)
        etags = [client.ask(GET, f"r/{slot}").etag for slot in slots]
        client.close()
    return etags


def try_files(tries):
    """Files that no server has made."""
    path = tries.path("random bytes")
    path.write_bytes(os.urandom(5000))
    tries.refused("random bytes", path, DAMAGED)
    path = tries.path("a text")
    path.write_text("just some text here\n")
    tries.refused("a text of 20 bytes", path, DAMAGED)
    path = tries.path("another program's database")
    with sqlite3.connect(path) as other:
        other.execute("CREATE TABLE t (a)")
        other.execute("INSERT INTO t VALUES (1)")
    other.close()
    tries.refused("another program's database", path, FOREIGN)
    path = tries.path("an empty file")
    path.touch()
    tries.used("an empty file is a new store", path, lambda client, _: upload(client, 1))
    tries.used("its program is there at the next start", path, lambda client, _: count_of(client, 1) != 0)
    tries.refused("a folder that isn't there", tries.folder / "no" / "such.db", CANNOT_OPEN)
    tries.refused("a folder", tries.folder, CANNOT_OPEN)
    path = tries.path("a second name")
    make(path)
    os.link(path, tries.path("another name"))
    tries.refused("a file with two names", path, CANNOT_OPEN)


def try_rights(tries):
    """A file that the server's user may read and not write."""
    path = tries.path("read only")
    make(path)
    for it in (path, Path(f"{path}-wal")):
        it.chmod(0o444)
    how = {"user": 65534, "group": 65534, "extra_groups": []} if os.getuid() == 0 else {}
    if how:
        tries.folder.chmod(0o755)
    tries.refused("a read-only file", path, CANNOT_OPEN, **how)


def try_rows(tries):
    """Rows that `sqlite3` wrote into a new file with this table."""
    for name, row, reason in ROWS:
        path = tries.path(name)
        with sqlite3.connect(path) as other:
            other.execute(TABLE)
            other.execute("INSERT INTO slot VALUES (?, ?, ?, ?, ?)", row)
        other.close()
        if reason:
            tries.refused(f"a row of {name}", path, reason)
        else:
            wanted = 5 if row[2] else None
            tries.used(f"a row of {name}", path, lambda client, _: count_of(client, 9) != wanted)
    path = tries.path("a changed row")
    make(path)
    with sqlite3.connect(path) as other:
        other.execute("UPDATE slot SET vars = x'0202020202020202'")
    other.close()
    tries.refused("a row that sqlite3 changed in a store", path, DAMAGED)


def try_others(tries):
    """Other processes that have the file open, and readers."""
    path = tries.path("held")
    make(path, posts=2)

    def second(client, _):
        tries.refused("another server has it", path, BUSY)
        try:
            sqlite3.connect(f"file:{path}?mode=ro", uri=True, timeout=0).execute("SELECT number FROM slot").fetchall()
            return "sqlite3 can read it"
        except sqlite3.OperationalError as error:
            return str(error) != "database is locked"

    tries.used("sqlite3 can't read it while the server runs", path, second)
    copy = tries.path("copy")
    for end in ("", "-wal"):
        shutil.copy(f"{path}{end}", f"{copy}{end}")
    other = sqlite3.connect(copy)
    rows = other.execute("SELECT number, length(image), vars FROM slot ORDER BY number").fetchall()
    other.close()
    wanted = [(0, None, None), (1, len(counter()), (2).to_bytes(8, "little"))]
    tries.row("sqlite3 reads a copy of both files: slot 1, and the start's serial with slot 0", rows == wanted, rows)
    other = sqlite3.connect(path)
    rows = other.execute("SELECT number, length(image), vars FROM slot").fetchall()
    other.close()
    tries.row("sqlite3 reads it after the server's end", len(rows) == 2, rows)
    tries.used("a start after that", path, lambda client, _: count_of(client, 1) != 2)


def try_logs(tries):
    """A changed byte in FILE-wal, and a lost FILE-wal: changes are lost, and serials still rise."""
    for name in ("a changed byte in FILE-wal", "FILE-wal is lost"):
        path = tries.path(name)
        etag = make(path, posts=5)[0]
        log = Path(f"{path}-wal")
        if name == "FILE-wal is lost":
            log.unlink()
        else:
            told = bytearray(log.read_bytes())
            told[len(told) // 2] ^= 1
            log.write_bytes(told)

        def judge(client, _):
            client.put(1, counter())
            got = client.ask(GET, "r/1")
            return not is_code(got, CONTENT) or got.etag <= etag

        tries.used(f"{name}: serials rise", path, judge)
    path = tries.path("an older copy")
    make(path)
    copies = [(it, it.read_bytes()) for it in (path, Path(f"{path}-wal"))]
    with Server("--store", path) as server:
        server.is_up()
        client = server.client()
        for _ in range(5):
            client.ask(POST, "r/1")
        etag = client.ask(GET, "r/1").etag
        client.close()
    for it, told in copies:
        it.write_bytes(told)

    def restored(client, _):
        got = client.ask(GET, "r/1")
        return not is_code(got, CONTENT) or got.count() != 1 or got.etag <= etag

    tries.used("a restored backup: its state, and serials rise", path, restored)


def try_clock(tries, shim):
    """Clocks that are set back: serials rise at each start over a store that has the last saves."""

    def set_back(days):
        return {"env": {**os.environ, "LD_PRELOAD": str(shim), "BACK": str(days * 86_400)}}

    path = tries.path("clock set back")
    etags = make(path, posts=3)
    behind = make(tries.path("a new store with the clock set back"), posts=3, **set_back(3))
    tries.row("a new store with the clock set back by 3 days has lower serials", behind < etags, (behind, etags))

    def risen(client, _):
        got = client.ask(GET, "r/1")
        etags.append(got.etag if is_code(got, CONTENT) else 0)
        return etags[-1] <= etags[-2] and etags

    for days in (1, 2, 3):
        tries.used(f"the clock is set back by {days} days: serials rise, without a change", path, risen, **set_back(days))


def is_refusing(client, count):
    """Returns what is wrong with a server whose saves are refused: slot 1 has this count."""
    asked = (client.ask(POST, "r/1"), client.put(1, counter()), client.put(2, counter()), client.ask(DELETE, "p/1"))
    codes = [got.code if got else None for got in asked]
    found = count_of(client, 1), client.ask(GET, "p/2").code
    return [] if codes == [UNAVAILABLE] * 4 and found == (count, 0x84) else [codes, found]


def is_refusing_start(server):
    """Returns what is wrong with a start whose saves are refused: slots 1 and 2 have counters."""
    if not server.is_up():
        return server.refusal()
    client = server.client()
    found = count_of(client, 1), count_of(client, 2)
    codes = [got.code if got else None for got in (client.ask(POST, "r/1"), client.ask(DELETE, "p/2"))]
    client.close()
    return [] if found == (1, 0) and codes == [UNAVAILABLE] * 2 else [found, codes]


def try_disks(tries, shim):
    """Disks that are full, and that can't sync."""
    path, word = tries.path("full disk"), tries.folder / "fail"
    how = {"env": {**os.environ, "LD_PRELOAD": str(shim), "FAIL": str(word)}}

    def full(client, server):
        wrong = upload(client, 1)
        word.write_text("full")
        wrong += is_refusing(client, 0)
        word.unlink()
        got = client.ask(POST, "r/1")
        return wrong + ([] if is_code(got, CHANGED) and got.count() == 1 and not upload(client, 2) else ["no change with room again"])

    tries.used("a full disk refuses changes, and then takes them again", path, full, **how)
    tries.used("the same file at the next start", path, lambda client, _: (count_of(client, 1), count_of(client, 2)) != (1, 0))
    word.write_text("full")
    with Server("--store", path, **how) as server:
        wrong = is_refusing_start(server)
        told = server.told()
    word.unlink()
    wanted = f"store {path}: the serial of the start isn't saved\n"
    tries.row("a start on a full disk says so, and answers GETs", not wrong and told == wanted, (wrong, told))
    path = tries.path("file limit")

    def limited(client, server):
        wrong = upload(client, 1)
        size = max(os.path.getsize(path), os.path.getsize(f"{path}-wal"))
        resource.prlimit(server.it.pid, resource.RLIMIT_FSIZE, (size + 20_000, resource.RLIM_INFINITY))
        count = 0
        while count < 1000 and is_code(client.ask(POST, "r/1"), CHANGED):
            count += 1
        wrong += is_refusing(client, count)
        resource.prlimit(server.it.pid, resource.RLIMIT_FSIZE, (resource.RLIM_INFINITY, resource.RLIM_INFINITY))
        got = client.ask(POST, "r/1")
        return wrong + ([] if is_code(got, CHANGED) and got.count() == count + 1 else ["no change without the limit"])

    ignore = {"preexec_fn": lambda: signal.signal(signal.SIGXFSZ, signal.SIG_IGN)}
    tries.used("a limit of the file's size refuses changes, and then takes them again", path, limited, **ignore)
    path, counts = tries.path("failed sync"), []

    def unsynced(client, _):
        wrong = upload(client, 1)
        client.ask(POST, "r/1")
        word.write_text("sync")
        wrong += is_refusing(client, 1)
        word.unlink()
        return wrong + is_refusing(client, 1)

    tries.used("a failed sync refuses each change until the next start", path, unsynced, **how)

    def after(client, _):
        counts.append(count_of(client, 1))
        got = client.ask(POST, "r/1")
        return counts[0] not in (1, 2) or not is_code(got, CHANGED)

    tries.used("the next start has the last answered change, or the refused one", path, after)


def shim_in(folder):
    """Compiles the shim, and returns its path, or `None` without a C compiler."""
    compiler, made = shutil.which("cc"), Path(folder) / "shim.so"
    if compiler is None:
        return None
    source = Path(__file__).resolve().parent / "shim.c"
    subprocess.run([compiler, "-shared", "-fPIC", "-O1", "-o", str(made), str(source), "-ldl"], check=True)
    return made


def faults(folder):
    """Makes the tries of files and disks, and returns how many rows are wrong."""
    tries = Tries(folder)
    try_files(tries)
    try_rights(tries)
    try_rows(tries)
    try_others(tries)
    try_logs(tries)
    shim = shim_in(folder)
    if shim is None:
        print("skipped  clocks that are set back and disks that fail: there is no C compiler")
    else:
        try_clock(tries, shim)
        try_disks(tries, shim)
    return tries.wrong
