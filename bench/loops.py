#!/usr/bin/env python3
"""Measures a step of a run, in comparison with a loop in C that makes its checks at each step
(bench/checked.c).

Run it at the top of the repository, after `rt run` in crates/fcasm and crates/fcd; it needs
valgrind, gcc and clang:

    python3 bench/loops.py

Most programs are a loop of 1,024 iterations, or fewer if its body is long, inside another as often
as the budget allows. `fcd play` runs each once for each of 400 GETs, and the loop in C as often.
The output has a step's machine instructions, by callgrind over 20 GETs, and its nanoseconds of user
time, without those of a program of two steps. The time is the least of eleven rounds, in which all
programs alternate on one processor."""
import math
import os
import re
import subprocess
import sys
import tempfile
from pathlib import Path

FCASM = "crates/fcasm/out/fcasm"
FCD = "crates/fcd/out/fcd"
BUDGET = 65_536
RUNS = 400
COUNTED = 20
ROUNDS = 11

ARITHMETIC = "\n".join(f"{name}{width} r{1 + k % 5}, {1 + k % 31}" for width in (64, 32) for k, name in
                       enumerate(("add", "sub", "mul", "or", "and", "lsh", "rsh", "xor", "arsh")))
MEMORY = "\n".join(f"ldx{size} r1, r8, {80 + k}\nstx{size} r10, {-64 + k}, r1\nldx{size} r1, r10, {-64 + k}\nst{size} r10, {-128 + k}, 7"
                   for k, size in zip((0, 8, 16, 24), ("b", "h", "w", "dw")))
NONE_TAKEN = "\n".join(f"j{name}{width} r7, {imm}, 0" for width in ("", "32") for name, imm in
                       (("eq", 6), ("gt", 9), ("ge", 9), ("set", 8), ("ne", 5), ("lt", 3), ("le", 3), ("slt", 3), ("sle", 3)))
ALL_TAKEN = "\n".join(f"j{name}{width} r7, {imm}, 0" for width in ("", "32") for name, imm in
                      (("eq", 5), ("gt", 3), ("ge", 5), ("set", 4), ("ne", 6), ("lt", 9), ("le", 5), ("slt", 9), ("sle", 5)))

# the output for a program, the body of its inner loop, and that loop's iterations
PROGRAMS = [
    ("a loop with nothing in it: `add64`, `jlt`", "", 1024),
    ("a loop of `payload_byte` and a sum", "mov64 r1, r6\ncall 2\nadd64 r7, r0", 1024),
    ("a loop whose flag is set, over the rest of its body", "jne r7, 1024, 1\nmov64 r1, 0", 1024),
    ("`add64` of an immediate, 108 in a body", "\n".join(["add64 r1, 1"] * 108), 500),
    ("arithmetic, 108 in a body: nine operations at both widths", "\n".join([ARITHMETIC] * 6), 500),
    ("loads and stores of four sizes, 96 in a body", "\n".join([MEMORY] * 6), 500),
    ("conditional jumps, 108 in a body, none taken", "\n".join([NONE_TAKEN] * 6), 500),
    ("the same, all taken", "\n".join([ALL_TAKEN] * 6), 500),
    ("turns written out: `add64` of an immediate, and a `jlt` that is taken to the next slot", "\n".join(["add64 r1, 1\njlt r1, 1000000, 0"] * 54), 500),
]

# Calls of a function, which is after the loop.
CALLING = "mov64 r6, 0\ninner:\n" + "callf leaf\n" * 20 + "add64 r6, 1\njlt r6, 1000, inner\nmov64 r0, 0\nexit\nleaf:\nmov64 r0, 0\nexit\n"


def text_of(body, turns):
    """Returns the source of a program with a body in a loop of this many iterations, inside one of
    as many as the budget allows."""
    steps = 3 + turns * (2 + len(body.splitlines()))
    return (f"mov64 r8, r1\nmov64 r1, 0\nmov64 r2, 0\nmov64 r4, 0\nmov64 r5, 0\nmov64 r7, 5\nmov64 r9, 0\nouter:\nmov64 r6, 0\ninner:\n{body}\nadd64 r6, 1\n"
            f"jlt r6, {turns}, inner\nadd64 r9, 1\njlt r9, {(BUDGET - 20) // steps}, outer\nmov64 r0, 0\nexit\n")


def image_of(text):
    """Returns the image of a source, and the steps of a run."""
    lines = "\n".join(line for line in text.splitlines() if line)
    done = subprocess.run([FCASM, "image", "--format", "2", "--vars", "0", "--budget", str(BUDGET)], input=lines.encode(), capture_output=True)
    told = subprocess.run([FCASM, "run"], input=done.stdout, capture_output=True).stdout.decode()
    if "\nsteps " not in told:
        sys.exit(done.stderr.decode() + told)
    return done.stdout, int(told.split("\nsteps ")[1].split()[0])


def played(image, runs=RUNS):
    """Returns the lines of `fcd play` that install an image in slot 0, by blocks of 1,024 bytes,
    and run it by GETs.

    No GET finds another's exchange."""
    lines = []
    for number in range((len(image) + 1023) // 1024):
        more = 8 if len(image) > 1024 * (number + 1) else 0
        block = number << 4 | more | 6
        option = bytes([0xD1, 3, block]) if block < 256 else bytes([0xD2, 3]) + block.to_bytes(2, "big")
        head = bytes([0x40, 3]) + number.to_bytes(2, "big") + b"\xb1p\x010" + option + b"\xff"
        lines.append(f"0 1 {(head + image[1024 * number:1024 * (number + 1)]).hex()}\n")
    return "".join(lines + [f"{247_000 * (1 + k)} 1 4001{256 + k:04x}b1720130\n" for k in range(runs)])


def check(image, steps, loops):
    """Checks that each GET is answered 2.05, and that the loops in C take as many steps."""
    said = subprocess.run([FCD, "play"], input=played(image).encode(), capture_output=True).stdout.decode()
    counts = [int(subprocess.run([loop, "1"], input=image, capture_output=True).stdout) for loop in loops]
    if said.count("\n1 6045") != RUNS or set(counts) != {steps}:
        sys.exit(f"{said.count(chr(10) + '1 6045')} GETs are answered 2.05, and the steps are {counts} and not {steps}")


def user_time(words, data):
    """Returns the seconds of user time of a command with this input."""
    with tempfile.TemporaryFile() as given:
        given.write(data)
        given.seek(0)
        process = subprocess.Popen(words, stdin=given, stdout=subprocess.DEVNULL)
        _, status, used = os.wait4(process.pid, 0)
        process.returncode = status
    if status:
        sys.exit(f"{words[0]} ended with {status}")
    return used.ru_utime


def counted(words, data):
    """Returns the machine instructions of a command with this input."""
    words = ["valgrind", "--tool=callgrind", "--callgrind-out-file=/dev/null", *words]
    return int(re.search(rb"Collected : (\d+)", subprocess.run(words, input=data, capture_output=True).stderr)[1])


def least(commands):
    """Returns the least user time of each of some commands, which alternate."""
    rounds = [[user_time(words, data) for words, data in commands] for _ in range(ROUNDS)]
    return [min(times) for times in zip(*rounds)]


def commands_of(image, loops, runs):
    """Returns the commands that run an image this often: `fcd play`, and each loop in C."""
    return [([FCD, "play"], played(image, runs).encode())] + [([loop, str(runs)], image) for loop in loops]


def main():
    with tempfile.TemporaryDirectory() as room:
        loops = [str(Path(room) / name) for name in ("gcc", "clang")]
        for compiler, loop in zip(("gcc", "clang"), loops):
            subprocess.run([compiler, "-O2", "-o", loop, "bench/checked.c"], check=True)
        small, _ = image_of("mov64 r0, 0\nexit\n")
        os.sched_setaffinity(0, {max(os.sched_getaffinity(0))})
        print("| A run | Steps | Instructions | C, gcc | C, clang | Nanoseconds | C, gcc | C, clang |\n|---|---|---|---|---|---|---|---|")
        ratios = []
        for told, text in [(told, text_of(body, turns)) for told, body, turns in PROGRAMS] + [("`callf`, `mov64 r0, 0`, `exit`", CALLING)]:
            image, steps = image_of(text)
            check(image, steps, loops)
            counts = [counted(words, data) for it in (image, small) for words, data in commands_of(it, loops, COUNTED)]
            times = least([command for it in (image, small) for command in commands_of(it, loops, RUNS)])
            each = [(long - short) / COUNTED / (steps - 2) for long, short in zip(counts[:3], counts[3:])]
            spent = [(long - short) / RUNS / (steps - 2) * 1e9 for long, short in zip(times[:3], times[3:])]
            ratios.append(spent[0] / min(spent[1:]))
            print(f"| {told} | {steps:,} | " + " | ".join([f"{it:.1f}" for it in each] + [f"{it:.2f}" for it in spent]) + " |", flush=True)
        print(f"\nOf the time of the faster loop in C: {math.prod(ratios) ** (1 / len(ratios)):.2f} in the geometric mean, {max(ratios):.2f} in the worst.")
    return 0


if __name__ == "__main__":
    sys.exit(main())
