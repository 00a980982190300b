#!/usr/bin/env python3
"""Tries `fcd serve --store`: kills, files of other origin, disks that fail, and its times.

Run it at the top of the repository, after `rt run` in crates/fcd, which builds the program:

    python3 tests/store/try.py [WORD..] [--rounds N] [--seed N] [--folder FOLDER]

The words are `kills`, `starts`, `faults` and `times`; the named tries are made, or all. `kills` has
200 rounds with 1 worker, with 2 and with 8, unless `--rounds` says otherwise. The stores are in a
new folder within FOLDER, by default that of temporary files; name a folder on the disk that you
want to try. The try of a read-only file uses another user if root runs the script. Each wrong row
is printed with its result, and then the status is 1."""
import argparse
import sys
import tempfile

sys.dont_write_bytecode = True

from faults import faults
from kills import first_starts, kill_rounds
from times import times

WORDS = ("kills", "starts", "faults", "times")


def told(name, wrong):
    """Prints what is wrong with a try, and returns how much it is."""
    print(f"{'WRONG' if wrong else 'right'}  {name}", *wrong[:10], sep="\n    ", flush=True)
    return len(wrong)


def main():
    parser = argparse.ArgumentParser(description="Tries fcd serve --store.")
    parser.add_argument("words", nargs="*", metavar="WORD", help=", ".join(WORDS))
    parser.add_argument("--rounds", type=int, default=200, help="rounds of `kills` and of `starts`")
    parser.add_argument("--seconds", type=float, default=5, help="seconds of each measurement of `times`")
    parser.add_argument("--seed", type=int, default=1, help="the seed of `kills`")
    parser.add_argument("--folder", help="where the stores are")
    asked = parser.parse_args()
    words, failed = asked.words or WORDS, 0
    if set(words) - set(WORDS):
        parser.error(f"the words are {', '.join(WORDS)}")
    say = lambda text: print(f"       {text}", flush=True)
    with tempfile.TemporaryDirectory(dir=asked.folder) as folder:
        if "kills" in words:
            for workers in (1, 2, 8):
                failed += told(f"kills, {workers} workers", kill_rounds(folder, workers, asked.rounds, asked.seed, say))
        if "starts" in words:
            failed += told("starts", first_starts(folder, min(asked.rounds, 60), say))
        failed += faults(folder) if "faults" in words else 0
        failed += times(folder, asked.seconds, say) if "times" in words else 0
    print(f"{failed} wrong")
    return int(failed > 0)


if __name__ == "__main__":
    sys.exit(main())
