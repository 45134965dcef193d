#!/usr/bin/env python3
"""The native sum of one int16 column: tallrun beside mawk, in the same run.

bench/sum_int16.py [--rows N] [--seed K] [--runs R]
It makes bench/out/N-K/a.csv (a header `x`, then N rows, the same for the same seed), runs both programs R times in
turn, and prints for each the best time, MB/s and the most memory held, and then the ratio. mawk adds in floating point
and doesn't saturate, so the two answers differ; only the times are compared.
"""
import argparse
import pathlib
import random
import shutil
import subprocess
import sys
import threading
import time

HERE = pathlib.Path(__file__).resolve().parent
TOP = HERE.parent
SCRIPT = TOP / "examples" / "first" / "first.m"


def make_data(rows, seed):
    folder = HERE / "out" / f"{rows}-{seed}"
    data = folder / "a.csv"
    if not data.exists():
        folder.mkdir(parents=True, exist_ok=True)
        numbers = random.Random(seed)
        with open(data.with_suffix(".part"), "w", encoding="ascii") as out:
            out.write("x\n")
            for start in range(0, rows, 100_000):
                count = min(100_000, rows - start)
                out.write("".join(f"{numbers.randrange(-32768, 32768)}\n" for _ in range(count)))
        data.with_suffix(".part").rename(data)
        shutil.copy(SCRIPT, folder / "first.m")
    return folder


def watch(child, peaks):
    """Notes the most memory that a process held, until it ends."""
    while True:
        try:
            with open(f"/proc/{child.pid}/status", encoding="ascii") as status:
                held = [int(line.split()[1]) for line in status if line.startswith("VmHWM")]
        except OSError:
            return
        if not held:
            return
        peaks.append(held[0] / 1024)
        time.sleep(0.002)


def run(folder, command):
    """Seconds by the clock, peak memory in MB, and what was printed."""
    start = time.monotonic()
    with subprocess.Popen(command, cwd=folder, stdout=subprocess.PIPE, text=True) as child:
        peaks = []
        watcher = threading.Thread(target=watch, args=(child, peaks))
        watcher.start()
        printed = child.stdout.read().strip()
        child.wait()
        seconds = time.monotonic() - start
        watcher.join()
    if child.returncode != 0:
        sys.exit(f"{command[0]} ended with status {child.returncode}")
    return seconds, max(peaks, default=0.0), printed


def main():
    parser = argparse.ArgumentParser()
    parser.add_argument("--rows", type=int, default=1_000_000)
    parser.add_argument("--seed", type=int, default=1)
    parser.add_argument("--runs", type=int, default=3)
    args = parser.parse_args()
    folder = make_data(args.rows, args.seed)
    size = (folder / "a.csv").stat().st_size / 1e6
    # The launcher builds the program where it has to; what is timed is the program itself.
    run(folder, [str(TOP / "tallrun"), "first.m"])
    commands = [("tallrun", [str(TOP / "crates" / "tallrun" / "out" / "tallrun"), "first.m"])]
    if shutil.which("mawk"):
        commands.append(("mawk", ["mawk", "{s+=$1} END {print s}", "a.csv"]))
    else:
        print("mawk is not installed: tallrun alone")
    best = {}
    for _ in range(args.runs):
        for name, command in commands:
            seconds, memory, printed = run(folder, command)
            if name not in best or seconds < best[name][0]:
                best[name] = (seconds, memory, printed)
    print(f"{args.rows} rows, {size:.1f} MB")
    for name, (seconds, memory, printed) in best.items():
        print(f"{name:8} {seconds:8.3f} s {size / seconds:8.1f} MB/s {seconds / args.rows * 1e9:7.1f} ns/row "
              f"{memory:7.1f} MB peak   {printed}")
    if len(best) == 2:
        print(f"mawk takes {best['mawk'][0] / best['tallrun'][0]:.2f} times as long as tallrun")


if __name__ == "__main__":
    main()
