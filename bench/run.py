#!/usr/bin/env python3
"""Measures the speed of `run` against an interpreter in C with the same checks (karma.c, built with -O2).

Both run each executable that the sources in this folder assemble to for 100,000,000 steps, in turn, five times; the best
time of each counts. The script fails where the two print different endings, steps, registers or flags, or where `run` takes
less than 0.7 of the steps a second that the C program takes.

    python3 bench/run.py
"""

import os
import pathlib
import subprocess
import sys
import tempfile
import time

HERE = pathlib.Path(__file__).resolve().parent
CRATES = HERE.parent / "crates"
PROGRAMS = ["integers", "memory", "calls", "doubles"]
STEPS = 100_000_000
ROUNDS = 5
WANTED = 0.7


def build(name, words):
    """Proves and builds a program with one run of it; answers the path of the built file."""
    done = subprocess.run(["rt", "run", "--", *words], cwd=CRATES / name, stdout=subprocess.DEVNULL, stderr=subprocess.PIPE)
    if done.returncode != 0:
        sys.exit(f"{name}: not built\n{done.stderr.decode()}")
    return str(CRATES / name / "out" / name)


def memory_of(child):
    """The greatest memory of a running process so far in KiB, or 0 where it has just ended."""
    try:
        status = pathlib.Path(f"/proc/{child.pid}/status").read_text()
    except OSError:
        return 0
    return max((int(line.split()[1]) for line in status.splitlines() if line.startswith("VmHWM")), default=0)


def timed(words):
    """Runs a command; answers what it prints, its seconds and its greatest memory in KiB."""
    with tempfile.TemporaryFile() as output:
        start = time.perf_counter()
        child = subprocess.Popen(words, stdout=output)
        time.sleep(0.2)
        memory = memory_of(child)
        status = child.wait()
        seconds = time.perf_counter() - start
        output.seek(0)
        if status != 0:
            sys.exit(f"{words[0]} failed with status {status}")
        return output.read(), seconds, memory


def measure(name, executable, proved, c):
    """Measures one executable on both; answers whether the wanted ratio is reached."""
    best = {proved: 1e9, c: 1e9}
    memory = {proved: 0, c: 0}
    for _ in range(ROUNDS):
        printed = set()
        for program in (proved, c):
            output, seconds, kib = timed([program, executable, str(STEPS)])
            printed.add(output)
            best[program] = min(best[program], seconds)
            memory[program] = max(memory[program], kib)
        if len(printed) != 1:
            sys.exit(f"{name}: the two print different things")
    ratio = best[c] / best[proved]
    print(
        f"{name:10}{STEPS / best[proved] / 1e6:10.0f}{STEPS / best[c] / 1e6:10.0f}{ratio:8.2f}"
        f"{memory[proved]:12}{memory[c]:12}"
    )
    return ratio >= WANTED


def main():
    with tempfile.TemporaryDirectory() as folder:
        c = os.path.join(folder, "karma")
        subprocess.run(["cc", "-O2", "-Wall", "-Wextra", "-o", c, str(HERE / "karma.c")], check=True)
        executables = {}
        for name in PROGRAMS:
            executables[name] = os.path.join(folder, name + ".karmaexec")
            build("assemble", [str(HERE / f"{name}.karma"), executables[name]])
        proved = build("speed", [executables["integers"], "1"])
        print(f"{'':10}{'million steps a second':>20}{'':>8}{'most memory in KiB':>22}")
        print(f"{'':10}{'run':>10}{'C':>10}{'ratio':>8}{'run':>12}{'C':>12}")
        reached = [measure(name, executables[name], proved, c) for name in PROGRAMS]
    if not all(reached):
        sys.exit(f"the ratio is less than {WANTED}")


if __name__ == "__main__":
    main()
