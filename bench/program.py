#!/usr/bin/env python3
"""The whole program on jobs that people run, beside mawk, Miller, datamash, pandas and Octave, in one run.

bench/program.py [--rows N] [--seed K] [--runs R] [--jobs WORD,..] [--workers W] [--peers WORD,..]
It makes files of N rows in bench/out/program-N-K (the same for the same seed), and runs each job R times in turn by tallrun and by
each peer that is installed and can do it. The answers, as lists of whole numbers, have to be equal. For each job and program it
prints the least seconds by the clock, the seconds of the processor in that run, the time a row, and the most memory held; then the
ratio of tallrun to the quickest peer, and to bench_cut's `csv`, which only counts the records of the same file. tallrun and
bench_cut have to be built first: rt run in crates/tallrun and crates/bench_cut.
"""
import argparse
import os
import pathlib
import random
import re
import shutil
import subprocess
import sys
import threading
import time

from sum_int16 import watch

HERE = pathlib.Path(__file__).resolve().parent
CRATES = HERE.parent / "crates"
TALLRUN = CRATES / "tallrun" / "out" / "tallrun"
CSV = CRATES / "bench_cut" / "out" / "bench_cut"
PANDAS = "/usr/bin/python3"

SOURCE = "ds = tabularTextDatastore('{file}', 'TextscanFormats', {{{formats}}});\nT = tall(ds);\n"
PAIRS = ("pairs.csv", "'%d16', '%d32'")


def keyed(count):
    return f"keys_{count}.csv", "'%d32', '%d16'"


# For each job: the file and the formats of its variables, tallrun's statements, and the program of each peer, in which FILE stands
# for the file's name. A peer without a program can't do the job, or not in one pass of its own.
JOBS = {
    "rows": (
        PAIRS,
        "rows = gather(height(T))",
        {
            "mawk": "END { print NR - 1 }",
            "mlr": "count",
            "datamash": "count 1",
            "pandas": "print(len(t))",
            "octave": "disp(rows(t))",
        },
    ),
    "both sums": (
        PAIRS,
        "[first, second] = gather(sum(T.x), sum(T.y))",
        {
            "mawk": 'NR > 1 { a += $1; b += $2 } END { printf "%.0f %.0f\\n", a, b }',
            "mlr": "stats1 -a sum -f x,y",
            "datamash": "sum 1 sum 2",
            "pandas": "print(t.x.sum(), t.y.sum())",
            "octave": "printf('%d %d\\n', sum(t))",
        },
    ),
    "two sums under a filter": (
        PAIRS,
        "U = T(T.x > 0, :);\n[first, second] = gather(sum(U.x), sum(U.y))",
        {
            "mawk": 'NR > 1 && $1 > 0 { a += $1; b += $2 } END { printf "%.0f %.0f\\n", a, b }',
            "mlr": "filter '$x > 0' then stats1 -a sum -f x,y",
            "pandas": "u = t[t.x > 0]; print(u.x.sum(), u.y.sum())",
            "octave": "printf('%d %d\\n', sum(t(t(:, 1) > 0, :)))",
        },
    ),
    "ten operators": (
        PAIRS,
        "x = T.x;\ny = double(T.y);\nz = double(x);\n"
        "[a, b, c, d, e, f, g, h, k, l] = gather(sum(x + 1), sum(z - y), sum(z .* 2), sum(abs(y)), nnz(z > y), "
        "nnz(x == 5), sum(x .* 3), nnz(x > 5 & z < y), sum(mod(x, 7)), sum(-y))",
        {
            "mawk": "NR > 1 { x = $1; y = $2; p = x + 1; a += p > 32767 ? 32767 : p; b += x - y; c += x * 2; d += y < 0 ? -y : y; "
            "e += x > y; f += x == 5; q = x * 3; g += q > 32767 ? 32767 : q < -32768 ? -32768 : q; h += x > 5 && x < y; "
            "m = x % 7; k += m < 0 ? m + 7 : m; l -= y } "
            'END { printf "%.0f %.0f %.0f %.0f %.0f %.0f %.0f %.0f %.0f %.0f\\n", a, b, c, d, e, f, g, h, k, l }',
            "pandas": "x = t.x; y = t.y; print((x + 1).clip(-32768, 32767).sum(), (x - y).sum(), (x * 2).sum(), y.abs().sum(), "
            "(x > y).sum(), (x == 5).sum(), (x * 3).clip(-32768, 32767).sum(), ((x > 5) & (x < y)).sum(), (x % 7).sum(), (-y).sum())",
            "octave": "x = t(:, 1); y = t(:, 2); printf('%d\\n', sum(min(x + 1, 32767)), sum(x - y), sum(x * 2), sum(abs(y)), "
            "sum(x > y), sum(x == 5), sum(max(min(x * 3, 32767), -32768)), sum(x > 5 & x < y), sum(mod(x, 7)), sum(-y))",
        },
    ),
    "sum(x - max(x))": (
        PAIRS,
        "x = double(T.x);\nd = gather(sum(x - max(x)))",
        {
            "mawk": 'FNR == 1 { next } NR == FNR { if (NR == 2 || $1 > m) m = $1; next } { s += $1 - m } END { printf "%.0f\\n", s }',
            "pandas": "print((t.x - t.x.max()).sum())",
            "octave": "x = t(:, 1); printf('%d\\n', sum(x - max(x)))",
        },
    ),
    "last rows of cumsum": (
        PAIRS,
        "last = gather(tail(cumsum(double(T.x)), 3))",
        {
            "mawk": 'NR > 1 { s += $1; a = b; b = c; c = s } END { printf "%.0f %.0f %.0f\\n", a, b, c }',
            "mlr": "step -a rsum -f x then tail -n 3 then cut -f x_rsum",
            "pandas": "print(*t.x.cumsum().tail(3))",
            "octave": "s = cumsum(t(:, 1)); printf('%d\\n', s(end - 2 : end))",
        },
    ),
    "unique": (
        PAIRS,
        "u = unique(T.x);\n[n, first] = gather(numel(u), head(u, 2))",
        {
            "mawk": "NR > 1 && !($1 in seen) { seen[$1]; n++; v = $1 + 0; if (n == 1 || v < a) { b = a; a = v } "
            'else if (n == 2 || v < b) b = v } END { printf "%.0f %.0f %.0f\\n", n, a, b }',
            "pandas": "u = sorted(t.x.unique()); print(len(u), *u[:2])",
            "octave": "u = unique(t(:, 1)); printf('%d\\n', numel(u), u(1 : 2))",
        },
    ),
    "quoted, CR LF, missing": (
        ("quoted.csv", "'%q', '%f', '%d16'"),
        "[n, first, second] = gather(nnz(isnan(T.x)), sum(T.x(~isnan(T.x))), sum(T.y))",
        {
            "mlr": "put -q 'begin { @n = 0; @a = 0; @b = 0 } if ($x == \"NA\") { @n += 1 } else { @a += $x } @b += $y; end { emit (@n, @a, @b) }'",
            "pandas": "print(t.x.isna().sum(), int(t.x.sum()), t.y.sum())",
        },
    ),
}
for keys in (5, 1_000, 1_000_000):
    JOBS[f"sum by {keys} keys"] = (
        keyed(keys),
        "G = groupsummary(T, 'k', 'sum', 'x');\n[groups, s, low, high] = gather(height(G), sum(G.sum_x), min(G.sum_x), max(G.sum_x))",
        {
            "mawk": "NR > 1 { s[$1] += $2 } END { for (k in s) { n++; t += s[k]; if (n == 1 || s[k] < a) a = s[k]; "
            'if (n == 1 || s[k] > b) b = s[k] } printf "%.0f %.0f %.0f %.0f\\n", n, t, a, b }',
            "mlr": "stats1 -a sum -f x -g k then stats1 -a count,sum,min,max -f x_sum",
            "pandas": "s = t.groupby('k').x.sum(); print(len(s), s.sum(), s.min(), s.max())",
            "octave": "s = accumarray(t(:, 1) + 1, t(:, 2)); u = accumarray(t(:, 1) + 1, 1); s = s(u > 0); "
            "printf('%d\\n', numel(s), sum(s), min(s), max(s))",
        },
    )


def write_file(path, header, line, rows, end="\n"):
    if path.exists():
        return
    part = path.with_suffix(".part")
    with open(part, "w", encoding="ascii", newline="") as out:
        out.write(header + end)
        for start in range(0, rows, 100_000):
            out.write("".join([line() + end for _ in range(min(100_000, rows - start))]))
    part.rename(path)


def make_data(rows, seed):
    folder = HERE / "out" / f"program-{rows}-{seed}"
    folder.mkdir(parents=True, exist_ok=True)
    pick = random.Random(seed).randrange
    write_file(folder / "pairs.csv", "x,y", lambda: f"{pick(-32768, 32768)},{pick(-100_000, 100_000)}", rows)
    for keys in (5, 1_000, 1_000_000):
        write_file(folder / f"keys_{keys}.csv", "k,x", lambda keys=keys: f"{pick(keys)},{pick(-32768, 32768)}", rows)
    quoted = lambda: f'"no, {pick(1000)}",{pick(100_000) if pick(10) else "NA"},{pick(-32768, 32768)}'
    write_file(folder / "quoted.csv", "name,x,y", quoted, rows, "\r\n")
    return folder


def commands(name, folder, workers):
    (file, formats), statements, peers = JOBS[name]
    source = SOURCE.format(file=file, formats=formats)
    if file == "quoted.csv":
        source = source.replace(");\nT", ", 'TreatAsMissing', 'NA');\nT")
    script = f"job_{list(JOBS).index(name)}.m"
    (folder / script).write_text(source + statements + "\n")
    found = {"tallrun": [TALLRUN, "--workers", str(workers), script], "csv": [CSV, "csv", file]}
    for peer, program in peers.items():
        if peer == "mawk":
            files = [file, file] if "NR == FNR" in program else [file]
            found[peer] = ["mawk", "-F,", program, *files]
        elif peer == "mlr":
            found[peer] = ["sh", "-c", f"exec mlr --icsv --ojson {program} {file}"]
        elif peer == "datamash":
            found[peer] = ["sh", "-c", f"exec datamash -t, --header-in {program} < {file}"]
        elif peer == "pandas":
            found[peer] = [PANDAS, "-c", f"import pandas\nt = pandas.read_csv('{file}')\n{program}"]
        else:
            found[peer] = ["octave-cli", "--quiet", "--norc", "--eval", f"t = dlmread('{file}', ',', 1, 0); {program}"]
    return found


def is_installed(peer):
    if peer == "pandas":
        return subprocess.run([PANDAS, "-c", "import pandas"], stderr=subprocess.DEVNULL, check=False).returncode == 0
    return shutil.which("octave-cli" if peer == "octave" else peer) is not None


def run(folder, words):
    """Seconds by the clock and of the processor, the most memory in MB, and the whole numbers that were printed."""
    start = time.monotonic()
    child = subprocess.Popen([str(word) for word in words], cwd=folder, stdout=subprocess.PIPE, text=True)
    peaks = [0]
    watcher = threading.Thread(target=watch, args=(child, peaks))
    watcher.start()
    printed = child.stdout.read()
    _, status, used = os.wait4(child.pid, 0)
    taken = time.monotonic() - start
    watcher.join()
    if status != 0:
        sys.exit(f"{words} ended with status {status}")
    numbers = [int(float(word)) for word in re.findall(r"(?<![\w.])-?\d+(?:\.\d+)?(?:e\+\d+)?(?!\w)", printed)]
    return taken, used.ru_utime + used.ru_stime, max(peaks), numbers


def measure(name, folder, args, peers):
    best, answers = {}, {}
    words = {who: line for who, line in commands(name, folder, args.workers).items() if who in peers}
    for _ in range(args.runs):
        for who, line in words.items():
            taken, used, memory, answers[who] = run(folder, line)
            if who not in best or taken < best[who][0]:
                best[who] = (taken, used, memory)
    print(f"{name}: {answers['tallrun']}")
    for who, (taken, used, memory) in best.items():
        same = who == "csv" or answers[who] == answers["tallrun"]
        note = "" if same else f"   another answer: {answers[who]}"
        print(f"  {who:9} {taken:7.2f} s {used:7.2f} s of the processor {taken / args.rows * 1e9:8.1f} ns a row {memory:8.1f} MB{note}")
    others = [best[who][0] for who in best if who not in ("tallrun", "csv")]
    ratio = f"{best['tallrun'][0] / min(others):.2f} of the quickest peer, " if others else ""
    print(f"  tallrun / {ratio}{best['tallrun'][0] / best['csv'][0]:.2f} of csv", flush=True)
    return all(who == "csv" or answers[who] == answers["tallrun"] for who in best)


def main():
    parser = argparse.ArgumentParser()
    parser.add_argument("--rows", type=int, default=10_000_000)
    parser.add_argument("--seed", type=int, default=1)
    parser.add_argument("--runs", type=int, default=3)
    parser.add_argument("--workers", type=int, default=1)
    parser.add_argument("--jobs", default="")
    parser.add_argument("--peers", default="mawk,mlr,datamash,pandas,octave")
    args = parser.parse_args()
    for program in (TALLRUN, CSV):
        if not program.exists():
            sys.exit(f"build {program} first: rt run in its crate")
    folder = make_data(args.rows, args.seed)
    peers = {"tallrun", "csv"} | {peer for peer in args.peers.split(",") if peer and is_installed(peer)}
    wanted = [name for name in JOBS if not args.jobs or name in args.jobs.split(",")]
    if not all([measure(name, folder, args, peers) for name in wanted]):
        sys.exit("answers differ")


if __name__ == "__main__":
    main()
