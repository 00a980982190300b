"""Measures a server with a store: its start, one client's requests, eight clients' POSTs."""
import statistics
import threading
import time
from pathlib import Path

from client import CHANGED, CONTENT, CREATED, GET, POST, Server, counter, long_counter


def start_times(folder, say):
    """Prints the time from a start to the first response: of a new file, and of 64 programs."""
    path = Path(folder) / "starts.db"
    with Server("--store", path) as server:
        assert server.is_up()
        say(f"start, a new file: {server.seconds * 1000:.0f} ms")
        client = server.client()
        assert all(client.put(slot, long_counter()).code == CREATED for slot in range(64))
    taken = []
    for _ in range(9):
        with Server("--store", path) as server:
            assert server.is_up()
            taken.append(server.seconds)
    say(f"start, 64 programs of {len(long_counter())} bytes: {statistics.median(taken) * 1000:.0f} ms, at most {max(taken) * 1000:.0f} ms")
    with Server() as server:
        assert server.is_up()
        say(f"start, without a store: {server.seconds * 1000:.0f} ms")


def median(ask, count):
    """Returns the median time of that many calls, in microseconds."""
    taken = []
    for at in range(count):
        begun = time.perf_counter()
        got = ask(at)
        taken.append(time.perf_counter() - begun)
        assert got is not None and got.code in (CHANGED, CONTENT, CREATED), got and hex(got.code)
    return statistics.median(taken) * 1e6


def request_times(folder, say):
    """Prints the median times of one client's requests, with a store and without."""
    for name, words in (("without a store", ()), ("with a store", ("--store", Path(folder) / "requests.db"))):
        with Server(*words) as server:
            assert server.is_up()
            client = server.client()
            client.put(1, counter())
            post = median(lambda _: client.ask(POST, "r/1"), 300)
            get = median(lambda _: client.ask(GET, "r/1"), 1000)
            put = median(lambda at: client.put(2 + at % 60, counter()), 100)
            say(f"{name}: POST {post:.0f} us, GET {get:.0f} us, PUT of {len(counter())} bytes {put:.0f} us")


def gets_until(client, slot, end):
    """Sends a GET of a slot each 2 ms until that time, and returns the times, in microseconds."""
    taken = []
    while time.monotonic() < end:
        begun = time.perf_counter()
        assert client.ask(GET, f"r/{slot}").code == CONTENT
        taken.append((time.perf_counter() - begun) * 1e6)
        time.sleep(0.002)
    return sorted(taken)


def spread(gets):
    """Returns the median of sorted times, the one that 99 of 100 don't pass, and the longest, in words."""
    return f"median {gets[len(gets) // 2]:.0f} us, 99 of 100 {gets[len(gets) * 99 // 100]:.0f} us, longest {gets[-1]:.0f} us"


def posts_of_eight(folder, seconds, say):
    """Prints how many POSTs eight clients have answered a second, and the times of GETs meanwhile.

    The POSTs are of slots 0 to 7, or all of slots 0, 8 .. 56, which share a shard. The GETs are of
    slot 57, whose shard is that of slot 1. Another client sends GETs of slot 56, whose shard is
    that of slot 0."""
    for workers, step in ((1, 1), (2, 1), (8, 1), (2, 8), (8, 8)):
        slots = range(0, 8 * step, step)
        path = Path(folder) / f"posts-{workers}-{step}.db"
        with Server("--store", path, "--workers", workers, "--exchanges", 65536) as server:
            assert server.is_up()
            client = server.client()
            for slot in sorted({*slots, 56, 57}):
                assert client.put(slot, counter()).code == CREATED
            counts, end = {slot: 0 for slot in slots}, time.monotonic() + seconds

            def post(slot):
                own = server.client()
                while time.monotonic() < end and own.ask(POST, f"r/{slot}").code == CHANGED:
                    counts[slot] += 1

            of_shard_0 = []
            threads = [threading.Thread(target=post, args=(slot,)) for slot in slots]
            threads.append(threading.Thread(target=lambda: of_shard_0.extend(gets_until(server.client(), 56, end))))
            for it in threads:
                it.start()
            gets = gets_until(client, 57, end)
            for it in threads:
                it.join()
            say(
                f"{workers} workers, POSTs of slots {slots[0]}, {slots[1]} .. {slots[-1]}: {sum(counts.values()) / seconds:.0f} a second; "
                f"GETs of slot 57 meanwhile: {spread(gets)}; of slot 56: {spread(of_shard_0)}"
            )


def times(folder, seconds, say):
    """Makes the measurements; nothing can be wrong with them but a response."""
    start_times(folder, say)
    request_times(folder, say)
    posts_of_eight(folder, seconds, say)
    return 0
