#!/usr/bin/env python3
"""The board beside a queue of places under std's Mutex, written by hand in Rust, in the same run.

bench/board.py [--runs R] [--seconds S]
For places with 0, 1 and 100 microseconds of work, and for 1, 2 and 4 workers, it takes the least time of R runs of each
program, in turn, and prints places a second, the processors' time a place, and the ratios. The steps of a microsecond
are found first. It needs rustc, and as many free processors as workers. On a loaded machine the clock says little of
several workers; then the processors' time tells: where it does not rise with the workers, nothing is spent on sharing.
"""
import argparse
import os
import pathlib
import subprocess
import sys
import time

HERE = pathlib.Path(__file__).resolve().parent
CRATE = HERE.parent / "crates" / "bench_board"
BOARD = CRATE / "out" / "bench_board"
QUEUE = HERE / "out" / "board_queue"


def seconds(program, places, steps, workers):
    """Seconds on the clock, seconds of the processors, and what was printed."""
    begun = time.perf_counter()
    words = [str(program), *map(str, (places, steps, workers, 1))]
    child = subprocess.Popen(words, stdout=subprocess.PIPE, text=True)
    printed = child.stdout.read().strip()
    _, status, used = os.wait4(child.pid, 0)
    if status != 0:
        sys.exit(f"{words} ended with status {status}")
    return time.perf_counter() - begun, used.ru_utime + used.ru_stime, printed


def steps_of_a_microsecond():
    best = min(seconds(QUEUE, 1, 100_000_000, 1)[1] for _ in range(3))
    return round(100_000_000 / best / 1e6)


def main():
    parser = argparse.ArgumentParser()
    parser.add_argument("--runs", type=int, default=5)
    parser.add_argument("--seconds", type=float, default=0.5)
    args = parser.parse_args()
    if not BOARD.exists():
        sys.exit("build the program first: cd crates/bench_board && rt run")
    QUEUE.parent.mkdir(exist_ok=True)
    subprocess.run(["rustc", "-O", "-C", "target-cpu=x86-64-v2", "-o", str(QUEUE), str(HERE / "board_queue.rs")], check=True)
    micro = steps_of_a_microsecond()
    print(f"{micro} steps a microsecond; load {os.getloadavg()[0]:.1f} on {os.cpu_count()} processors")
    for micros, places in [(0, 1_000_000), (1, 200_000), (100, int(args.seconds * 1e4))]:
        alone = {}
        for workers in (1, 2, 4):
            clock, processors, printed = {}, {}, set()
            for _ in range(args.runs):
                for name, program in (("board", BOARD), ("queue", QUEUE)):
                    wall, used, text = seconds(program, places, micros * micro, workers)
                    printed.add(text)
                    clock[name] = min(wall, clock.get(name, wall))
                    processors[name] = min(used, processors.get(name, used))
            if len(printed) != 1:
                sys.exit(f"the sums differ: {printed}")
            line = f"  {micros:3} us, {workers} workers:"
            for name in clock:
                first = alone.setdefault(name, (clock[name], processors[name]))
                line += (f"  {name} {places / clock[name]:11,.0f} places/s, {first[0] / clock[name]:.2f} times one,"
                         f" {processors[name] / places * 1e6:8.3f} us of processors a place, {first[1] / processors[name]:.2f} of one;")
            print(f"{line}  board over queue {clock['queue'] / clock['board']:.2f}, by processors {processors['queue'] / processors['board']:.2f}")


if __name__ == "__main__":
    main()
