#!/usr/bin/env python3
"""What reductions, a scan, groups and distinct values cost, beside C by hand (bench/folds.c), in the same run.

bench/folds.py [--runs R] [--rows N] [--turns T] [--seconds S] [--only WORD]
It builds crates/bench_folds where it has to, and bench/folds.c with clang or gcc -O3 for the same processor. Reductions and
the scan are of one column of 20,000 int16, as often as takes S seconds; groups (the exact sum of int16 by a text key) and
distinct values are of N rows in blocks of 20,000, T times with 5 and with 1,000 keys and twice with 1,000,000. Each program
also runs with no turns, and that time is taken off. Printed are the least processor nanoseconds a row of R runs of each program in turn, and their ratio;
for groups also the most memory above that of the blocks. Both keep what they free, and both must print the same.
"""
import argparse
import os
import pathlib
import shutil
import subprocess
import sys

HERE = pathlib.Path(__file__).resolve().parent
CRATE = HERE.parent / "crates" / "bench_folds"
KEEPS = {"MALLOC_MMAP_THRESHOLD_": str(1 << 30), "MALLOC_TRIM_THRESHOLD_": str(1 << 30)}
COLUMN = ("min", "max", "any", "nnz", "sum", "native", "cumsum")
KEYS = (5, 1_000, 1_000_000)


def build():
    ours = CRATE / "out" / "bench_folds"
    if not ours.exists():
        print("proving and building bench_folds, once (some minutes)", file=sys.stderr)
        subprocess.run(["rt", "run"], cwd=CRATE, check=True, stdout=subprocess.DEVNULL)
    out = HERE / "out"
    out.mkdir(exist_ok=True)
    compiler = shutil.which("clang") or shutil.which("gcc")
    if compiler is None:
        sys.exit("neither clang nor gcc is installed")
    by_hand = out / "folds"
    subprocess.run([compiler, "-O3", "-w", "-march=x86-64-v2", str(HERE / "folds.c"), "-o", str(by_hand)], check=True)
    return ours, by_hand


def measured(program, words):
    """Seconds of the processor, the most memory in bytes, and what was printed."""
    read, write = os.pipe()
    child = os.fork()
    if child == 0:
        os.dup2(write, 1)
        os.close(read)
        os.execve(str(program), [str(program), *map(str, words)], {**os.environ, **KEEPS})
    os.close(write)
    with os.fdopen(read) as pipe:
        printed = pipe.read().strip()
    _, status, usage = os.wait4(child, 0)
    if status:
        sys.exit(f"{program} {words}: status {status}")
    return usage.ru_utime + usage.ru_stime, usage.ru_maxrss * 1024, printed


def least(programs, name, rows, turns, keys, runs):
    """For each program the least nanoseconds a row and turn, the memory of its turns, and what it printed."""
    found = {}
    for _ in range(runs):
        for program in programs:
            none, held, _ = measured(program, (name, rows, 0, keys))
            taken, most, printed = measured(program, (name, rows, turns, keys))
            a_row = (taken - none) / turns / rows * 1e9
            before = found.get(program, (a_row, 0, ""))
            found[program] = (min(a_row, before[0]), most - held, printed)
    return [found[program] for program in programs]


def line(name, mine, theirs, memory):
    if mine[2] != theirs[2]:
        print(f"{name}: {mine[2]} and by hand {theirs[2]}", file=sys.stderr)
    held = f" {mine[1] / 1e6:10.1f} {theirs[1] / 1e6:10.1f}" if memory else ""
    print(f"{name:20} {mine[0]:8.2f} {theirs[0]:8.2f} {mine[0] / max(theirs[0], 1e-3):7.2f}{held}", flush=True)


def main():
    parser = argparse.ArgumentParser()
    parser.add_argument("--runs", type=int, default=5)
    parser.add_argument("--rows", type=int, default=10_000_000)
    parser.add_argument("--turns", type=int, default=10)
    parser.add_argument("--seconds", type=float, default=0.2)
    parser.add_argument("--only", default="")
    args = parser.parse_args()
    programs = build()
    print(f"{'':20} {'ours':>8} {'C':>8} {'ratio':>7} {'MB ours':>10} {'MB C':>10}")
    for name in COLUMN:
        if args.only in name:
            once, _, _ = measured(programs[1], (name, 20_000, 1_000, 0))
            turns = max(1_000, int(1_000 * args.seconds / max(once, 1e-3)))
            line(name, *least(programs, name, 20_000, turns, 0, args.runs), False)
    for name in ("groups", "distinct"):
        for keys in KEYS:
            if args.only in name:
                turns = args.turns if keys < 1_000_000 else 2
                line(f"{name} {keys}", *least(programs, name, args.rows, turns, keys, args.runs), True)


if __name__ == "__main__":
    main()
