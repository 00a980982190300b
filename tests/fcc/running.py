"""Runs of a program: as an image by fcasm, and as the same C compiled for this computer."""
import subprocess
from pathlib import Path

TOP = Path(__file__).resolve().parent.parent.parent
FCASM, FCC = TOP / "crates/fcasm/out/fcasm", TOP / "tools/fcc"


def run(*words, **more):
    return subprocess.run([str(it) for it in words], capture_output=True, text=True, **more)


def native(source, program):
    """Compiles the program for this computer; returns whether that succeeded."""
    return run("cc", "-O1", "-w", "-fwrapv", "-fno-strict-aliasing", "-I", TOP / "include", f'-DPROGRAM="{source}"', TOP / "examples/c/host.c", "-o", program).returncode == 0


def line(method, *more):
    """Returns a request as a line of host.c."""
    return f"{method} " + " ".join(it.hex() or "-" for it in more) + "\n"


def by_image(image, method, payload, query, variables, readings):
    """Returns an image's result, as a line of host.c."""
    words = [word for name, it in (("payload", payload), ("query", query), ("vars", variables), ("readings", readings)) if it for word in (f"--{name}", it.hex())]
    said = run(FCASM, "run", "--method", ["get", "post"][method - 1], *words, image).stdout
    lines = dict(it.split(" ", 1) for it in said.splitlines() if " " in it)
    return " ".join(lines.get(it, "?") for it in ("code", "reply", "vars", "notice"))
