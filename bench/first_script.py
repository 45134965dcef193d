#!/usr/bin/env python3
"""The first script beside csv's own reader on the same file, by processor time, in one run.

bench/first_script.py [--rows N] [--seed K] [--runs R] [--before PROGRAM]
It makes bench/out/N-K/a.csv as bench/sum_int16.py does, and runs tallrun on examples/first/first.m, bench_cut's `csv` (which counts
records), its `cut` with blocks of 20,000 records, and PROGRAM, an earlier tallrun, R times in turn. It prints the least processor
time of each, the time a row, and its ratio to csv. The programs have to be built first: rt run in crates/tallrun and
crates/bench_cut.
"""
import argparse
import os
import pathlib
import subprocess
import sys

from sum_int16 import make_data

CRATES = pathlib.Path(__file__).resolve().parent.parent / "crates"


def run(folder, words):
    """Seconds of the processor, and what was printed."""
    child = subprocess.Popen([str(word) for word in words], cwd=folder, stdout=subprocess.PIPE, text=True)
    printed = child.stdout.read().strip()
    _, status, used = os.wait4(child.pid, 0)
    if status != 0:
        sys.exit(f"{words} ended with status {status}")
    return used.ru_utime + used.ru_stime, printed


def main():
    parser = argparse.ArgumentParser()
    parser.add_argument("--rows", type=int, default=10_000_000)
    parser.add_argument("--seed", type=int, default=1)
    parser.add_argument("--runs", type=int, default=7)
    parser.add_argument("--before", type=pathlib.Path)
    args = parser.parse_args()
    cut = CRATES / "bench_cut" / "out" / "bench_cut"
    ours = CRATES / "tallrun" / "out" / "tallrun"
    for program in (cut, ours):
        if not program.exists():
            sys.exit(f"build {program} first: rt run in its crate")
    folder = make_data(args.rows, args.seed)
    words = {"csv": [cut, "csv", "a.csv"], "cutter, blocks of 20,000": [cut, "cut", "a.csv", 20_000], "tallrun": [ours, "first.m"]}
    if args.before:
        words["tallrun before"] = [args.before.resolve(), "first.m"]
    best = {}
    for _ in range(args.runs):
        for name, line in words.items():
            taken = run(folder, line)
            best[name] = min(taken, best.get(name, taken))
    if args.before and best["tallrun"][1] != best["tallrun before"][1]:
        sys.exit(f"the answers differ: {best}")
    for name, (seconds, _) in best.items():
        print(f"{name:26} {seconds:7.3f} s {seconds / args.rows * 1e9:7.1f} ns a row   {seconds / best['csv'][0]:.2f} of csv")


main()
