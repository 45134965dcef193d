#!/usr/bin/env python3
"""Runs a program over the suite of scripts: tests/run.py PROGRAM [--only WORD] [--jobs N]

Each folder tests/scripts/NAME and examples/NAME is one case. It has some of these files, and the data files that its
script reads:

    script.m   the script; in examples it has the folder's name
    length     a number: blanks are put behind the script until it has this many bytes
    words      the words after the program's name, one a line; the script's name alone where there is no such file
    stdout     the bytes that the program has to write; none where there is no such file
    stderr     the same, for the standard error
    status     the status with which it has to end; 0 where there is no such file
    vary       the case is run once with each number in place of READSIZE in the script, and with each number of workers,
               or of those in this file where it isn't empty; the answer may not change
    full       empty: the standard output is a device that takes no byte
    make.py    a program that writes data files; it is run first

tests/pending names the cases, one a line, that the program can't pass yet; each is run all the same, and one that passes
fails the suite until its name is taken off the list.

A case runs in a copy of its folder, without the files of this list but the script. It passes where the bytes of both
outputs and the status are the expected ones. Each difference is printed; the last line counts the cases, and the status is
1 where one failed.
"""

import argparse
import concurrent.futures
import pathlib
import shutil
import subprocess
import sys
import tempfile

ROOT = pathlib.Path(__file__).resolve().parents[1]
SUITE = [ROOT / "tests" / "scripts", ROOT / "examples"]
NOT_DATA = {"length", "words", "stdout", "stderr", "status", "vary", "full"}
FULL = "/dev/full"
READ_SIZES = ["1", "2", "3", "7", "20000"]
WORKERS = ["1", "2", "4", "8"]
PENDING = pathlib.Path(__file__).resolve().parent / "pending"
SECONDS = 60


class Case:
    """A folder of the suite: what is run, and what has to come of it."""

    def __init__(self, folder):
        self.folder = folder
        self.script = next((path.name for path in folder.glob("*.m")), "script.m")
        self.words = self.lines("words", [self.script])
        self.stdout = self.content("stdout")
        self.stderr = self.content("stderr")
        self.status = int(self.content("status") or b"0")
        self.length = int(self.content("length") or b"0")
        self.varies = (folder / "vary").exists()
        self.workers = self.content("vary").decode().split() or WORKERS
        self.full = (folder / "full").exists()

    def content(self, name):
        path = self.folder / name
        return path.read_bytes() if path.exists() else b""

    def lines(self, name, otherwise):
        path = self.folder / name
        if not path.exists():
            return otherwise
        text = path.read_text()
        return text.removesuffix("\n").split("\n") if text else []

    def variants(self):
        """Pairs of a number for READSIZE, or None, and the words."""
        if not self.varies:
            return [(None, self.words)]
        sizes = READ_SIZES if b"READSIZE" in self.content(self.script) else [None]
        workers = [[]] + [["--workers", n] for n in self.workers]
        return [(size, some + self.words) for size in sizes for some in workers]


def run_once(program, case, size, words):
    """Runs one variant in a copy of the folder; answers the differences."""
    with tempfile.TemporaryDirectory() as place:
        for source in case.folder.iterdir():
            if source.is_file() and source.name not in NOT_DATA:
                shutil.copyfile(source, pathlib.Path(place) / source.name)
        script = pathlib.Path(place) / case.script
        if (case.folder / "make.py").exists():
            subprocess.run([sys.executable, "make.py"], cwd=place, check=True, timeout=SECONDS)
        if script.exists():
            text = script.read_bytes() if size is None else script.read_bytes().replace(b"READSIZE", size.encode())
            script.write_bytes(text.ljust(case.length))
        try:
            done = run_program([program, *words], place, case.full)
        except subprocess.TimeoutExpired:
            return [f"no end within {SECONDS} seconds"]
    return [f"{name}: expected {expected!r}, came {came!r}" for name, expected, came in [
        ("stdout", case.stdout, done.stdout or b""),
        ("stderr", case.stderr, done.stderr),
        ("status", case.status, done.returncode),
    ] if expected != came]


def run_program(words, place, full):
    """Runs the program in a folder; its outputs are kept, but for a standard output that takes no byte."""
    with open(FULL, "wb") as sink:
        return subprocess.run(words, cwd=place, stdin=subprocess.DEVNULL, stdout=sink if full else subprocess.PIPE,
                              stderr=subprocess.PIPE, timeout=SECONDS)


def run_case(program, folder, pending):
    """Answers the case's outcome and the lines that tell the differences, where these are not what is expected today."""
    outcome, lines = compare(program, folder)
    if folder.name not in pending:
        return outcome, lines
    if outcome == "passed":
        return "failed", [f"{folder.name}: passes, and stands in tests/pending"]
    return "pending", []


def compare(program, folder):
    """Answers how a case ends, passed or failed, and the lines that tell the differences."""
    case = Case(folder)
    for size, words in case.variants():
        differences = run_once(program, case, size, words)
        if differences:
            with_size = "" if size is None else f" with {size} for READSIZE"
            head = f"{folder.name}: {' '.join(words)}{with_size}"
            return "failed", [head] + ["    " + line for line in differences]
    return "passed", []


def main():
    parser = argparse.ArgumentParser(description="Runs a program over the suite of scripts.")
    parser.add_argument("program", help="the program, as a path")
    parser.add_argument("--only", default="", metavar="WORD", help="only the cases whose name has this word in it")
    parser.add_argument("--jobs", type=int, default=1, metavar="N", help="how many cases run at one time")
    options = parser.parse_args()
    program = shutil.which(options.program)
    if program is None:
        parser.error(f"no program {options.program}")
    program = str(pathlib.Path(program).resolve())
    folders = sorted(path for root in SUITE for path in root.iterdir() if path.is_dir() and options.only in path.name)
    pending = set(PENDING.read_text().split()) if PENDING.exists() else set()
    counts = {"passed": 0, "failed": 0, "pending": 0}
    with concurrent.futures.ThreadPoolExecutor(max(1, options.jobs)) as pool:
        for outcome, lines in pool.map(lambda folder: run_case(program, folder, pending), folders):
            counts[outcome] += 1
            for line in lines:
                print(line)
    print(f"{counts['passed']} passed, {counts['failed']} failed, {counts['pending']} pending")
    return 1 if counts["failed"] else 0


if __name__ == "__main__":
    sys.exit(main())
