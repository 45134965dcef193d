#!/usr/bin/env python3
"""The time of parsing at half the greatest length of a script and at all of it, for several shapes, in the same run.

bench/parse.py [--turns T] [--runs R]
It makes bench/out/parse/SHAPE-SIZE.m, each of a number of bytes just below 524,288 or 1,048,576, and runs bench_parse over
both, R times in turn, with T turns and with none. For each shape it prints what was found, the least processor time a turn
at both sizes, and the ratio of the two, which is 2 where the time grows with the length.
"""
import argparse
import os
import pathlib
import resource
import subprocess
import sys

HERE = pathlib.Path(__file__).resolve().parent
CRATE = HERE.parent / "crates" / "bench_parse"
PROGRAM = CRATE / "out" / "bench_parse"
SIZES = (524_288, 1_048_576)


def rows(before, row, behind, size):
    """A text of at most so many bytes: what stands before, rows by their number from 1, and what stands behind."""
    parts, length, number = [before], len(before) + len(behind), 1
    while length + len(row(number)) <= size:
        parts.append(row(number))
        length += len(parts[-1])
        number += 1
    return "".join(parts) + behind


SHAPES = {
    "short statements": lambda size: rows("", lambda n: f"x{n} = y + {n};\n", "", size),
    "one list of texts": lambda size: rows("x = {", lambda n: f"'text {n}', ", "'last'}", size),
    "one list of targets": lambda size: rows("[", lambda n: f"x{n}, ", "x] = gather(y)", size),
    "one call": lambda size: rows("x = f(", lambda n: f"{n}, ", "1)", size),
    "functions": lambda size: rows("", lambda n: f"function f{n}(data, ~, out)\n  add(out, 'k', data);\nend\n", "", size),
    "steps of one function": lambda size: rows("function f(a, b, c)\n", lambda n: f"  if a < {n}, x = b; else, x = c; end;\n", "end\n", size),
    "one run of signs": lambda size: rows("x = ", lambda n: "-", "1", size),
    "one sum": lambda size: rows("x = ", lambda n: f"{n} + ", "1", size),
    "comments": lambda size: rows("", lambda n: f"% comment {n}\n", "x = 1", size),
    "texts": lambda size: rows("", lambda n: f"x = 'it''s {n}';\n", "", size),
}


def processor_seconds(path, turns):
    """Seconds of the processor, and what was printed."""
    before = resource.getrusage(resource.RUSAGE_CHILDREN)
    done = subprocess.run([str(PROGRAM), str(path), str(turns)], check=True, capture_output=True, text=True)
    after = resource.getrusage(resource.RUSAGE_CHILDREN)
    return after.ru_utime + after.ru_stime - before.ru_utime - before.ru_stime, done.stdout.strip()


def main():
    parser = argparse.ArgumentParser()
    parser.add_argument("--turns", type=int, default=10)
    parser.add_argument("--runs", type=int, default=5)
    args = parser.parse_args()
    if not PROGRAM.exists():
        sys.exit("build the program first: cd crates/bench_parse && rt run")
    folder = HERE / "out" / "parse"
    folder.mkdir(parents=True, exist_ok=True)
    for name, shape in SHAPES.items():
        paths = []
        for size in SIZES:
            path = folder / f"{name.replace(' ', '_')}-{size}.m"
            path.write_text(shape(size), encoding="ascii")
            paths.append(path)
        best, found = {}, {}
        for _ in range(args.runs):
            for path in paths:
                none, _ = processor_seconds(path, 0)
                turns, found[path] = processor_seconds(path, args.turns)
                best[path] = min((turns - none) / args.turns, best.get(path, float("inf")))
        half, whole = (best[path] for path in paths)
        speed = os.path.getsize(paths[1]) / 1e6 / whole
        print(f"{name:22} {half * 1e3:9.1f} ms {whole * 1e3:9.1f} ms {speed:7.1f} MB/s   ratio {whole / half:.2f}   {found[paths[1]]}", flush=True)


main()
