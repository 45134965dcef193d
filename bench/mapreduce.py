#!/usr/bin/env python3
"""mapreduce beside mawk and pandas: words counted by key, and a sum that takes a turn for each value.

bench/mapreduce.py [--rows N] [--turns N] [--seed K] [--runs R] [--workers W]
`counts` groups each block of 20,000 rows by one of 1,000 keys and adds a pair for each key of the block; the reduce function sums each
key's counts. `turns` adds a pair for each row, all of one key, and takes one turn of a loop for each value: `s = s + getnext(values)`.
`pairs` adds the same pairs, and takes none of them. The answers, as lists of whole numbers, have to be equal. For each job and program
it prints the least seconds by the clock, the seconds of the processor in that run, the time a row, and the most memory held; then
the nanoseconds of a turn, from the difference of the last two jobs. tallrun has to be built first: rt run in crates/tallrun.
"""
import argparse
import pathlib
import random
import sys

from program import HERE, PANDAS, TALLRUN, is_installed, run, write_file

SOURCE = "ds = tabularTextDatastore('{file}', 'TextscanFormats', {{'%d32', '%d16'}}, 'ReadSize', 20000);\nr = mapreduce(ds, @m, @q);\n"
KEYS = 1_000

COUNTS = """n = numel(r.Key)
[total, least, most] = gather(sum(r.Value), min(r.Value), max(r.Value))
function m(data, ~, store)
  G = groupsummary(data, 'k');
  for i = 1:height(G)
    add(store, G.k(i), G.GroupCount(i));
  end
end
function q(key, values, out)
  s = 0;
  while hasnext(values)
    s = s + getnext(values);
  end
  add(out, key, s);
end
"""
ADDS = """s = r.Value
function m(data, ~, store)
  x = double(data.x);
  for i = 1:numel(x)
    add(store, 1, x(i));
  end
end
"""
TURNS = (
    ADDS
    + """function q(key, values, out)
  s = 0;
  while hasnext(values)
    s = s + getnext(values);
  end
  add(out, key, s);
end
"""
)
PAIRS = (
    ADDS
    + """function q(key, values, out)
  add(out, key, getnext(values));
end
"""
)

# For each job: tallrun's statements and functions, and the program of each peer, in which FILE stands for the file's name.
JOBS = {
    "counts": (
        COUNTS,
        {
            "mawk": "NR > 1 { c[$1]++ } END { for (k in c) { n++; t += c[k]; if (n == 1 || c[k] < a) a = c[k]; "
            'if (n == 1 || c[k] > b) b = c[k] } printf "%.0f %.0f %.0f %.0f\\n", n, t, a, b }',
            "pandas": "c = t.k.value_counts(); print(len(c), c.sum(), c.min(), c.max())",
        },
    ),
    "turns": (
        TURNS,
        {
            "mawk": 'NR > 1 { s += $2 } END { printf "%.0f\\n", s }',
            "pandas": "print(t.x.sum())",
        },
    ),
    "pairs": (
        PAIRS,
        {
            "mawk": 'NR == 2 { s = $2 } END { printf "%.0f\\n", s }',
            "pandas": "print(t.x[0])",
        },
    ),
}


def make_data(rows, seed):
    folder = HERE / "out" / f"mapreduce-{rows}-{seed}"
    folder.mkdir(parents=True, exist_ok=True)
    pick = random.Random(seed).randrange
    write_file(folder / "keys.csv", "k,x", lambda: f"{pick(KEYS)},{pick(-32768, 32768)}", rows)
    return folder


def measure(name, rows, args):
    folder = make_data(rows, args.seed)
    statements, peers = JOBS[name]
    script = f"{name}.m"
    (folder / script).write_text(SOURCE.format(file="keys.csv") + statements)
    words = {"tallrun": [TALLRUN, "--workers", str(args.workers), script]}
    if is_installed("mawk"):
        words["mawk"] = ["mawk", "-F,", peers["mawk"], "keys.csv"]
    if is_installed("pandas"):
        words["pandas"] = [PANDAS, "-c", f"import pandas\nt = pandas.read_csv('keys.csv')\n{peers['pandas']}"]
    best, answers = {}, {}
    for _ in range(args.runs):
        for who, line in words.items():
            taken, used, memory, answers[who] = run(folder, line)
            if who not in best or taken < best[who][0]:
                best[who] = (taken, used, memory)
    print(f"{name}, {rows} rows: {answers['tallrun']}")
    for who, (taken, used, memory) in best.items():
        note = "" if answers[who] == answers["tallrun"] else f"   another answer: {answers[who]}"
        print(f"  {who:8} {taken:7.2f} s {used:7.2f} s of the processor {used / rows * 1e9:8.1f} ns a row {memory:8.1f} MB{note}")
    others = [best[who][0] for who in best if who != "tallrun"]
    if others:
        print(f"  tallrun / {best['tallrun'][0] / min(others):.2f} of the quickest peer", flush=True)
    return best["tallrun"][1], all(answer == answers["tallrun"] for answer in answers.values())


def main():
    parser = argparse.ArgumentParser()
    parser.add_argument("--rows", type=int, default=10_000_000)
    parser.add_argument("--turns", type=int, default=2_000_000)
    parser.add_argument("--seed", type=int, default=1)
    parser.add_argument("--runs", type=int, default=3)
    parser.add_argument("--workers", type=int, default=1)
    args = parser.parse_args()
    if not pathlib.Path(TALLRUN).exists():
        sys.exit(f"build {TALLRUN} first: rt run in its crate")
    _, same = measure("counts", args.rows, args)
    with_turns, all_turned = measure("turns", args.turns, args)
    without, all_paired = measure("pairs", args.turns, args)
    print(f"a turn with a value: {(with_turns - without) / args.turns * 1e9:.0f} ns; a pair: {without / args.turns * 1e9:.0f} ns")
    if not (same and all_turned and all_paired):
        sys.exit("answers differ")


main()
