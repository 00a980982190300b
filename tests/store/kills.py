"""Kills a server with a store while clients change its slots, and judges each slot after a start.

Each of eight clients has eight slots of its own, and one request under way: a PUT of a counter, a
POST that counts, or a DELETE. The judge remembers what was answered, and the change that was under
way when the server was killed. After the next start each slot has to be as its last answered change
left it, or as the change under way leaves it. Each serial that is sent has to be greater than every
serial that was sent before the start."""
import random
import threading
import time
from pathlib import Path

from client import CHANGED, CONTENT, CREATED, DELETE, DELETED, GET, NOT_FOUND, POST, Server, counter, slow_counter

SLOTS, CLIENTS = 64, 8
CHEAP_COST, SLOW_COST = 15, 8_028


class Slot:
    """The last answered state of a slot, and what the change under way leaves.

    A state is `None`, or the version, the budget and the count of a counter. `top` is the greatest
    serial that is known of the slot. The version of an upload under way is unknown: `None`."""

    def __init__(self):
        self.top, self.state, self.under_way = 0, None, []

    def judge(self, receipt, response, top):
        """Returns what is wrong with a start's receipt and response, and takes their state.

        The serial has to be greater than `top`, the greatest serial of all slots."""
        if receipt is None or response is None:
            return "no response"
        if receipt.code == NOT_FOUND:
            return self.take(None, None)
        if receipt.code != CONTENT or response.code != CONTENT:
            return f"codes {receipt.code:02x} and {response.code:02x}"
        if response.etag <= top:
            return f"serial {response.etag} after {top}"
        version, budget = receipt.receipt()
        return self.take((version, budget, response.count()), response.etag)

    def take(self, found, serial):
        """Returns what is wrong with a state, if anything; takes a right state and its serial."""
        changed = any(self.fits(found, it) for it in self.under_way) and found != self.state
        if not changed and found != self.state:
            return f"found {found}, not {self.state} or {self.under_way}"
        self.state, self.top, self.under_way = found, serial or self.top + changed, []
        return None

    def fits(self, found, wanted):
        """Returns whether a state is this one. An unknown version has to be above each serial."""
        if found is None or wanted is None or wanted[0] is not None:
            return found == wanted
        return found[0] > self.top and found[1:] == wanted[1:]

    def answered(self, state):
        """Takes the state of an answered change, which raised the serial."""
        self.state, self.under_way = state, []
        self.top = max(self.top + 1, state[0] if state else 0)


class Work:
    """What the clients of one server do until it is killed."""

    def __init__(self, slots, server, seed):
        self.slots, self.server, self.counts, self.wrong = slots, server, {"answered": 0, "under way": 0}, []
        self.threads = [threading.Thread(target=self.run, args=(first, seed + first)) for first in range(CLIENTS)]
        for it in self.threads:
            it.start()

    def run(self, first, seed):
        chance, client = random.Random(seed), self.server.client()
        while self.server.it.poll() is None and not self.wrong:
            number = chance.randrange(first, SLOTS, CLIENTS)
            if not self.change(client, chance, number):
                break
        client.close()

    def change(self, client, chance, number):
        """Makes a change of a slot, and returns whether it was answered."""
        slot, kind = self.slots[number], chance.random()
        if slot.state is None or kind < 0.15:
            slow = chance.random() < 0.4
            budget = chance.randrange(SLOW_COST if slow else CHEAP_COST, 60_000)
            slot.under_way = [(None, budget, 0)]
            got = client.put(number, slow_counter(budget) if slow else counter(budget))
            wanted = CHANGED if slot.state else CREATED
            state = None if got is None or got.code != wanted else got.receipt() + (0,)
            right = state is not None and self.is_install(slot, state, budget)
        elif kind < 0.25:
            slot.under_way, state = [None], None
            got = client.ask(DELETE, f"p/{number}")
            right = got is not None and got.code == DELETED
        else:
            version, budget, count = slot.state
            state = (version, budget, count + 1)
            slot.under_way = [state]
            got = client.ask(POST, f"r/{number}")
            right = got is not None and got.code == CHANGED and got.count() == count + 1
        if got is None:
            self.counts["under way"] += 1
            return False
        if not right:
            self.wrong.append(f"slot {number}: {got.code:02x} {got.payload!r} after {slot.state}")
            return False
        self.counts["answered"] += 1
        slot.answered(state)
        return True

    def is_install(self, slot, state, budget):
        return state[1] == budget and state[0] > slot.top

    def end(self):
        for it in self.threads:
            it.join()


def judge_start(server, slots):
    """Returns what is wrong with the slots after a start."""
    client, wrong, top = server.client(), [], max(slot.top for slot in slots)
    for number, slot in enumerate(slots):
        fault = slot.judge(client.ask(GET, f"p/{number}"), client.ask(GET, f"r/{number}"), top)
        wrong += [f"slot {number}: {fault}"] if fault else []
    client.close()
    return wrong


def kill_rounds(folder, workers, rounds, seed, say):
    """Kills and starts a server that many times, and returns what is wrong."""
    chance, slots = random.Random(seed), [Slot() for _ in range(SLOTS)]
    words = ("--store", Path(folder) / f"kills-{workers}.db", "--workers", workers)
    totals, early, slowest, wrong = {"answered": 0, "under way": 0}, 0, 0.0, []
    for at in range(rounds):
        if chance.random() < 0.2:  # a start is killed too, in its first 30 ms
            with Server(*words):
                time.sleep(chance.random() * 0.03)
            early += 1
        with Server(*words) as server:
            if not server.is_up():
                return [f"round {at}: no start: {server.refusal()}"]
            slowest = max(slowest, server.seconds)
            wrong = judge_start(server, slots)
            work = Work(slots, server, chance.random())
            time.sleep(chance.random() * (0.01 if chance.random() < 0.15 else 0.6))
            server.it.kill()
            work.end()
        wrong += work.wrong
        totals = {name: totals[name] + work.counts[name] for name in totals}
        if wrong:
            break
    say(f"{at + 1} rounds, {early} more kills in starts, {totals['answered']} changes answered, {totals['under way']} under way, slowest start {slowest:.3f} s")
    return wrong


def first_starts(folder, rounds, say):
    """Kills first starts in their first 30 ms; returns those after which no start succeeds."""
    wrong = []
    for at in range(rounds):
        path = Path(folder) / f"first-{at}.db"
        with Server("--store", path):
            time.sleep(at % 30 / 1000)
        with Server("--store", path) as server:
            if not server.is_up():
                wrong.append(f"after {at % 30} ms: {server.refusal()}")
    say(f"{rounds} first starts killed")
    return wrong
