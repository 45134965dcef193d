#!/usr/bin/env python3
"""The time of a graph of 50,000 and of 100,000 nodes, in the same run.

bench/graph.py [--runs R]
It runs bench_graph with 25,000 and with 50,000 pairs of nodes, each a constant of its own and a sum, R times in turn, and with
none. It prints the least processor time of both sizes without that of an empty graph, the time of a node, and the ratio of the
two, which is 2 where the time grows with the number of nodes.
"""
import argparse
import pathlib
import resource
import subprocess
import sys

HERE = pathlib.Path(__file__).resolve().parent
PROGRAM = HERE.parent / "crates" / "bench_graph" / "out" / "bench_graph"
PAIRS = (25_000, 50_000)


def processor_seconds(pairs):
    """Seconds of the processor, and what was printed."""
    before = resource.getrusage(resource.RUSAGE_CHILDREN)
    done = subprocess.run([str(PROGRAM), str(pairs)], check=True, capture_output=True, text=True)
    after = resource.getrusage(resource.RUSAGE_CHILDREN)
    return after.ru_utime + after.ru_stime - before.ru_utime - before.ru_stime, done.stdout.strip()


def main():
    parser = argparse.ArgumentParser()
    parser.add_argument("--runs", type=int, default=7)
    args = parser.parse_args()
    if not PROGRAM.exists():
        sys.exit("build the program first: cd crates/bench_graph && rt run")
    least = {}
    printed = {}
    for _ in range(args.runs):
        for pairs in (0, *PAIRS):
            seconds, printed[pairs] = processor_seconds(pairs)
            least[pairs] = min(seconds, least.get(pairs, seconds))
    times = [least[pairs] - least[0] for pairs in PAIRS]
    for pairs, seconds in zip(PAIRS, times):
        print(f"{printed[pairs]}: {seconds * 1000:.1f} ms, {seconds / (2 * pairs) * 1e9:.0f} ns a node")
    print(f"ratio {times[1] / times[0]:.2f}")


if __name__ == "__main__":
    main()
