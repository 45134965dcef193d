#!/usr/bin/env python3
"""Runs a command of the gate, and tells how many processor minutes each crate took.

    bench/gate.py [--log FILE] rt ci [NAME ..]

Once a second it reads the processor time of each checker that runs, and adds up what it last read of each. A checker
that ends within its first second is missed. What was kept from an earlier run costs nothing and doesn't show. With --log
the readings go to a file, and `bench/gate.py --read FILE` makes the table again.
"""
import argparse
import collections
import os
import pathlib
import re
import subprocess
import sys
import time

TICKS = os.sysconf("SC_CLK_TCK")
CRATE = re.compile(r"--crate-name[ =](\S+)")


def descendants(first):
    """The numbers of all processes that the first one started, and of those that they started."""
    children = collections.defaultdict(list)
    for folder in pathlib.Path("/proc").iterdir():
        if folder.name.isdigit():
            try:
                children[(folder / "stat").read_text().rsplit(")", 1)[1].split()[1]].append(folder.name)
            except OSError:
                continue
    found, todo = set(), [str(first)]
    while todo:
        for child in children[todo.pop()]:
            found.add(child)
            todo.append(child)
    return found


def processes(first):
    """Each checker that runs below a process: its number with its start, its crate, its part and its processor seconds."""
    below = descendants(first)
    for folder in pathlib.Path("/proc").iterdir():
        if folder.name not in below:
            continue
        try:
            words = (folder / "cmdline").read_bytes().replace(b"\0", b" ").decode(errors="replace")
            fields = (folder / "stat").read_text().rsplit(")", 1)[1].split()
            place = os.readlink(folder / "cwd")
        except OSError:
            continue
        crate = CRATE.search(words)
        if crate is None or "rattle" not in words.split(" ")[0]:
            continue
        spent = sum(int(fields[i]) for i in (11, 12, 13, 14)) / TICKS
        yield f"{folder.name}.{fields[19]}", crate.group(1), part_of(words, place), spent


def part_of(words, place):
    if "/rt-edit-" in place:
        return "edits"
    return "tests" if " --test" in words else "proofs"


def watch(command, log):
    """Runs the command and returns its status with the greatest reading of each checker."""
    readings = {}
    child = subprocess.Popen(command)
    while child.poll() is None:
        for name, crate, part, spent in processes(child.pid):
            readings[name] = (crate, part, spent)
            if log is not None:
                log.write(f"{name} {crate} {part} {spent:.2f}\n")
        time.sleep(1)
    return child.returncode, readings


def read(path):
    readings = {}
    for line in pathlib.Path(path).read_text().splitlines():
        name, crate, part, spent = line.split()
        readings[name] = (crate, part, float(spent))
    return readings


def table(readings):
    minutes = collections.defaultdict(lambda: collections.Counter())
    for crate, part, spent in readings.values():
        minutes[crate][part] += spent / 60
    print(f"| {'Crate':18} | Proofs | Tests | Edits |  All |")
    print("|---|---|---|---|---|")
    whole = collections.Counter()
    for crate, parts in sorted(minutes.items(), key=lambda item: -sum(item[1].values())):
        row = [parts["proofs"], parts["tests"], parts["edits"], sum(parts.values())]
        whole.update(dict(zip("abcd", row)))
        print(f"| {crate:18} | {row[0]:6.1f} | {row[1]:5.1f} | {row[2]:5.1f} | {row[3]:4.1f} |")
    print(f"| {'all':18} | {whole['a']:6.1f} | {whole['b']:5.1f} | {whole['c']:5.1f} | {whole['d']:4.1f} |")


def main():
    parser = argparse.ArgumentParser(description=__doc__, formatter_class=argparse.RawDescriptionHelpFormatter)
    parser.add_argument("--log")
    parser.add_argument("--read")
    parser.add_argument("command", nargs=argparse.REMAINDER)
    words = parser.parse_args()
    if words.read:
        table(read(words.read))
        return 0
    log = open(words.log, "w", buffering=1, encoding="utf-8") if words.log else None
    status, readings = watch(words.command, log)
    table(readings)
    return status


if __name__ == "__main__":
    sys.exit(main())
