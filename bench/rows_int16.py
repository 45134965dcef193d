#!/usr/bin/env python3
"""What `x .* 3 + 1` costs over a column of int16: two calls of map_scalar beside the same by hand in C, in one run.

bench/rows_int16.py [--rows N] [--turns T] [--runs R]
It builds crates/bench_rows where it has to and bench/rows_int16.c with clang or gcc, runs each program R times in turn
with T turns and with none, and prints the least processor time a row and turn. By hand it is one loop into one array, and
two loops into two arrays. Each is run twice over: with the allocator as it is, which gives large freed blocks back to the
system, so that each turn meets its pages anew, and with an allocator that keeps them.
"""
import argparse
import os
import pathlib
import resource
import shutil
import subprocess
import sys

HERE = pathlib.Path(__file__).resolve().parent
CRATE = HERE.parent / "crates" / "bench_rows"
KEEPS = {"MALLOC_MMAP_THRESHOLD_": str(1 << 30), "MALLOC_TRIM_THRESHOLD_": str(1 << 30)}


def build():
    """The programs, each with the words that come after the rows and turns."""
    ours = CRATE / "out" / "bench_rows"
    if not ours.exists():
        print("proving and building bench_rows, once (some minutes)", file=sys.stderr)
        subprocess.run(["rt", "run", "--", "0", "0"], cwd=CRATE, check=True, stdout=subprocess.DEVNULL)
    by_hand = HERE / "out" / "rows_int16"
    by_hand.parent.mkdir(exist_ok=True)
    compiler = shutil.which("clang") or shutil.which("gcc")
    if compiler is None:
        sys.exit("neither clang nor gcc is installed")
    subprocess.run([compiler, "-O3", "-march=x86-64-v2", str(HERE / "rows_int16.c"), "-o", str(by_hand)], check=True)
    return [("map_scalar, twice", ours, []), ("C, one loop", by_hand, []), ("C, two loops", by_hand, ["two"])]


def processor_seconds(program, words, settings):
    """Seconds of the processor, the system's own included, and what was printed."""
    before = resource.getrusage(resource.RUSAGE_CHILDREN)
    done = subprocess.run([str(program), *words], env={**os.environ, **settings}, check=True, capture_output=True, text=True)
    after = resource.getrusage(resource.RUSAGE_CHILDREN)
    return after.ru_utime + after.ru_stime - before.ru_utime - before.ru_stime, done.stdout.strip()


def main():
    parser = argparse.ArgumentParser()
    parser.add_argument("--rows", type=int, default=1_000_000)
    parser.add_argument("--turns", type=int, default=300)
    parser.add_argument("--runs", type=int, default=7)
    args = parser.parse_args()
    programs = build()
    for title, settings in (("the allocator as it is", {}), ("an allocator that keeps what was freed", KEEPS)):
        best = {}
        printed = set()
        for _ in range(args.runs):
            for name, program, more in programs:
                none, _ = processor_seconds(program, [str(args.rows), "0", *more], settings)
                all_turns, found = processor_seconds(program, [str(args.rows), str(args.turns), *more], settings)
                printed.add(found)
                a_row = (all_turns - none) / args.turns / args.rows * 1e9
                best[name] = min(best.get(name, a_row), a_row)
        if len(printed) != 1:
            sys.exit(f"the programs differ: {printed}")
        print(f"{args.rows} rows, {title}")
        ours = best[programs[0][0]]
        for name, a_row in best.items():
            print(f"  {name:20} {a_row:6.2f} ns a row   ours / this {ours / a_row:5.2f}")


main()
