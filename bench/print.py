#!/usr/bin/env python3
"""What a printed row costs: a column of numbers by `print_value` beside the same text by hand in C, in one run.

bench/print.py [--rows N] [--turns T] [--runs R]
It builds crates/bench_print where it has to and bench/print_digits.c with clang or gcc, runs each program R times in turn with T
turns and with none, and prints the least processor time a row and turn. C writes into a buffer of the right size, and
`print_value` into one that grows in the first turn.
"""
import argparse
import pathlib
import resource
import shutil
import subprocess
import sys

HERE = pathlib.Path(__file__).resolve().parent
CRATE = HERE.parent / "crates" / "bench_print"


def build():
    """The programs, each with the words that come after the rows and turns."""
    ours = CRATE / "out" / "bench_print"
    if not ours.exists():
        print("proving and building bench_print, once (some minutes)", file=sys.stderr)
        subprocess.run(["rt", "run", "--", "0", "0"], cwd=CRATE, check=True, stdout=subprocess.DEVNULL)
    by_hand = HERE / "out" / "print_digits"
    by_hand.parent.mkdir(exist_ok=True)
    compiler = shutil.which("clang") or shutil.which("gcc")
    if compiler is None:
        sys.exit("neither clang nor gcc is installed")
    subprocess.run([compiler, "-O3", "-march=x86-64-v2", str(HERE / "print_digits.c"), "-o", str(by_hand)], check=True)
    return [("C", by_hand, []), ("int32", ours, ["int32"]), ("double", ours, ["double"])]


def processor_seconds(program, words):
    """Seconds of the processor, the system's own included, and what was printed."""
    before = resource.getrusage(resource.RUSAGE_CHILDREN)
    done = subprocess.run([str(program), *words], check=True, capture_output=True, text=True)
    after = resource.getrusage(resource.RUSAGE_CHILDREN)
    return after.ru_utime + after.ru_stime - before.ru_utime - before.ru_stime, int(done.stdout)


def main():
    parser = argparse.ArgumentParser()
    parser.add_argument("--rows", type=int, default=10_000_000)
    parser.add_argument("--turns", type=int, default=3)
    parser.add_argument("--runs", type=int, default=5)
    args = parser.parse_args()
    best = {}
    lengths = {}
    for _ in range(args.runs):
        for name, program, more in build():
            none, _ = processor_seconds(program, [str(args.rows), "0", *more])
            for turns in (1, args.turns):
                seconds, lengths[name] = processor_seconds(program, [str(args.rows), str(turns), *more])
                a_row = (seconds - none) / turns / args.rows * 1e9
                best[name, turns] = min(best.get((name, turns), a_row), a_row)
    # the class's name is one letter longer
    if not lengths["C"] == lengths["int32"] == lengths["double"] - 1:
        sys.exit(f"the texts differ: {lengths}")
    print(f"{args.rows} rows, {lengths['C']} bytes")
    for (name, turns), a_row in sorted(best.items(), key=lambda entry: entry[0][1]):
        print(f"  {turns} turns  {name:8} {a_row:6.2f} ns a row   this / C {a_row / best['C', turns]:5.2f}")


main()
