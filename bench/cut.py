#!/usr/bin/env python3
"""Finding blocks of records, and finding and reading them, beside csv's own reader and beside reading the file alone, over
short rows and over wide quoted rows, in the same run.

bench/cut.py [--rows N] [--wide W] [--seed K] [--runs R] [--blocks B ..] [--before PROGRAM]
It makes bench/out/cut-N-W-K/short.csv (N rows of one number) and wide.csv (W rows of 20 quoted fields, of which some
have commas, doubled quotes or line feeds; the same for the same seed). All readers count the records of both files, R
times in turn, with blocks of B rows (1,000 and 20,000 where none is given): `finding` finds blocks and reads no field;
`cutter` finds and reads each block; `at once` finds some blocks of 20,000 rows together and reads them at once. PROGRAM is
an earlier build of bench_cut whose words are NAME B, to be timed in the same run. For each it prints the least processor
time, and its ratio to csv.
"""
import argparse
import os
import pathlib
import random
import subprocess
import sys

HERE = pathlib.Path(__file__).resolve().parent
CRATE = HERE.parent / "crates" / "bench_cut"
PROGRAM = CRATE / "out" / "bench_cut"
WORDS = ["north", "south", 'a ""quoted"" word', "left, right", "two\nlines", "", "a longer text of one field", "42"]


def write_rows(path, rows, row):
    part = path.with_suffix(".part")
    with open(part, "w", encoding="ascii") as out:
        for start in range(0, rows, 10_000):
            out.write("".join(row() for _ in range(min(10_000, rows - start))))
    part.rename(path)


def make_data(rows, wide, seed):
    folder = HERE / "out" / f"cut-{rows}-{wide}-{seed}"
    folder.mkdir(parents=True, exist_ok=True)
    chosen = random.Random(seed)
    short_row = lambda: f"{chosen.randrange(-32768, 32768)}\n"
    wide_row = lambda: ",".join(f'"{word}"' for word in chosen.choices(WORDS, k=20)) + "\n"
    for name, count, row in [("short.csv", rows, short_row), ("wide.csv", wide, wide_row)]:
        if not (folder / name).exists():
            write_rows(folder / name, count, row)
    return folder


def run(folder, words):
    """Seconds of the processor, and the count that was printed."""
    child = subprocess.Popen([str(word) for word in words], cwd=folder, stdout=subprocess.PIPE, text=True)
    printed = child.stdout.read().strip()
    _, status, used = os.wait4(child.pid, 0)
    if status != 0:
        sys.exit(f"{words} ended with status {status}")
    return used.ru_utime + used.ru_stime, printed


def readers_of(name, blocks, before):
    """The words of each reader, and whether it counts records."""
    readers = {"file alone": ([PROGRAM, "read", name], False), "csv": ([PROGRAM, "csv", name], True)}
    for block in blocks:
        readers[f"finding, {block}"] = ([PROGRAM, "find", name, block], True)
        readers[f"cutter, {block}"] = ([PROGRAM, "cut", name, block], True)
        readers[f"at once, {block}"] = ([PROGRAM, "parse", name, block, max(1, 20_000 // block)], True)
        if before:
            readers[f"cutter before, {block}"] = ([before, name, block], True)
    return readers


def main():
    parser = argparse.ArgumentParser()
    parser.add_argument("--rows", type=int, default=10_000_000)
    parser.add_argument("--wide", type=int, default=300_000)
    parser.add_argument("--seed", type=int, default=1)
    parser.add_argument("--runs", type=int, default=7)
    parser.add_argument("--blocks", type=int, nargs="+", default=[1_000, 20_000])
    parser.add_argument("--before", type=pathlib.Path)
    args = parser.parse_args()
    if not PROGRAM.exists():
        sys.exit("build the program first: cd crates/bench_cut && rt run")
    folder = make_data(args.rows, args.wide, args.seed)
    for name, rows in [("short.csv", args.rows), ("wide.csv", args.wide)]:
        size = (folder / name).stat().st_size
        print(f"{name}: {rows} rows, {size / 1e6:.1f} MB")
        readers = readers_of(name, args.blocks, args.before and args.before.resolve())
        best = {}
        for _ in range(args.runs):
            for reader, (words, _) in readers.items():
                taken = run(folder, words)
                best[reader] = min(taken, best.get(reader, taken))
        if len({best[reader][1] for reader, (_, counts) in readers.items() if counts}) != 1:
            sys.exit(f"the counts differ: {best}")
        for reader, (seconds, _) in best.items():
            print(f"  {reader:22} {seconds:7.3f} s {seconds / rows * 1e9:8.1f} ns a row {seconds / size * 1e9:6.2f} ns a byte "
                  f"  {seconds / best['csv'][0]:.2f} of csv")


main()
