#!/usr/bin/env python3
"""Compares the engine with its twin, which has no proof: the same answers first, then the time.

    python3 bench/run.py            build both, compare the answers, time them, count instructions where valgrind is installed
    python3 bench/run.py --check    build both and compare the answers alone
"""

import re
import shutil
import subprocess
import sys
from pathlib import Path

TOP = Path(__file__).resolve().parent.parent
TWIN = TOP / "bench" / "twin"
COMPARE = TWIN / "target" / "release" / "compare"

# How many runs more the second of two counts has.
MORE = 10


def run(words: list[str], folder: Path) -> None:
    """Runs a command, and ends where it fails."""
    done = subprocess.run(words, cwd=folder, check=False)
    if done.returncode:
        sys.exit(f"{' '.join(words)}: status {done.returncode}")


def build() -> None:
    """The engine as a static library, proved, and the program that links it with the twin."""
    log = TWIN / "target" / "rt-lib.log"
    log.parent.mkdir(parents=True, exist_ok=True)
    with log.open("w") as out:
        done = subprocess.run(["rt", "lib"], cwd=TOP / "crates" / "ffi", stdout=out, stderr=subprocess.STDOUT, check=False)
    if done.returncode:
        sys.exit(f"rt lib failed in crates/ffi: see {log}")
    run(["cargo", "build", "--release", "--quiet", "--offline"], TWIN)


def machine() -> None:
    """The processor, and how busy it is."""
    text = Path("/proc/cpuinfo").read_text()
    models = re.findall(r"^model name\s*: (.*)$", text, re.MULTILINE)
    load = Path("/proc/loadavg").read_text().split()[0]
    print(f"{len(models)} processors, {models[0] if models else 'unknown'}; load {load} as this begins")


def instructions(side: str, work: str, problem: str, scale: int) -> int:
    """Instructions of one run: the difference of many runs and one."""
    counts = []
    for times in (1, 1 + MORE):
        words = [str(COMPARE), "run", side, work, problem, str(scale), str(times)]
        tool = ["valgrind", "--tool=callgrind", "--callgrind-out-file=/dev/null"]
        done = subprocess.run(tool + words, capture_output=True, text=True, check=True)
        found = re.search(r"Collected : (\d+)", done.stderr)
        if not found:
            sys.exit(f"no count in: {done.stderr}")
        counts.append(int(found[1]))
    return (counts[1] - counts[0]) // MORE


def count() -> None:
    """A table of instructions."""
    if not shutil.which("valgrind"):
        print("\nvalgrind is not installed: instructions are not counted")
        return
    print("\nInstructions\n")
    print("| work | problem | scale | engine | twin | ratio |")
    print("|---|---|---|---|---|---|")
    for problem in ("small", "camera hall", "chain", "wide", "blocks"):
        for scale in (1, 4):
            row("solve", problem, scale)
    for work in ("read", "write"):
        row(work, "camera hall", 1)


def row(work: str, problem: str, scale: int) -> None:
    engine = instructions("engine", work, problem, scale)
    twin = instructions("twin", work, problem, scale)
    print(f"| {work} | {problem} | {scale} | {engine:,} | {twin:,} | {engine / max(twin, 1):.1f} |", flush=True)


def main(arguments: list[str]) -> int:
    if arguments not in ([], ["--check"]):
        print("usage: run.py [--check]", file=sys.stderr)
        return 2
    build()
    run([str(COMPARE), "check"], TWIN)
    if not arguments:
        machine()
        run([str(COMPARE), "time"], TWIN)
        count()
    return 0


if __name__ == "__main__":
    sys.exit(main(sys.argv[1:]))
