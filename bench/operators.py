#!/usr/bin/env python3
"""What each operator over rows costs in each class, beside the same loop by hand in C, in one run.

bench/operators.py [--rows N] [--runs R] [--seconds S] [--only WORD]
It builds crates/bench_rows where it has to, writes a C program with one loop for each case (bench/out/operators.c) and
builds it with clang or gcc -O3 for the same processor. A case is an operator, a class and what the column meets: a second
column of the class, a double scalar, or nothing. Each program runs so many turns over N rows that it takes S seconds, and
none; printed are the least processor nanoseconds a row of R runs of each program in turn, and their ratio, and then a table of
ours with the ratio in brackets. Both allocate
the result of each turn, and both must print the same last cell.

By hand, an integer is computed in a wider machine integer and moved to the nearer end; a double is C's double, and the loop
ends at the first row that is above 2^53 or no whole number; a logical is a byte.
"""
import argparse
import os
import pathlib
import resource
import shutil
import subprocess
import sys

HERE = pathlib.Path(__file__).resolve().parent
CRATE = HERE.parent / "crates" / "bench_rows"
KEEPS = {"MALLOC_MMAP_THRESHOLD_": str(1 << 30), "MALLOC_TRIM_THRESHOLD_": str(1 << 30)}
SIGNED = {"int8": ("int8_t", "int32_t"), "int16": ("int16_t", "int32_t"), "int32": ("int32_t", "int64_t")}
UNSIGNED = {"uint8": ("uint8_t", "int32_t"), "uint16": ("uint16_t", "int64_t"), "uint32": ("uint32_t", "int64_t")}
NARROW = {**SIGNED, **UNSIGNED}
WIDE = {"int64": "int64_t", "uint64": "uint64_t"}
INTEGERS = [*NARROW, *WIDE]
NUMBERS = [*INTEGERS, "logical", "double"]
COMPARED = {"eq": "a == b", "lt": "a < b", "le": "a <= b"}
BITS = {"bitand": "&", "bitor": "|", "bitxor": "^"}
HEAD = r"""
#include <math.h>
#include <stdint.h>
#include <stdio.h>
#include <stdlib.h>
#include <string.h>
#define LIMIT 9007199254740992.0
typedef uint8_t logical_t;
typedef double double_t_;
#define NEAREST(T, low, high, v) ((T)((v) < (low) ? (low) : (v) > (high) ? (high) : (v)))
static inline int64_t add64(int64_t a, int64_t b) { int64_t r; return __builtin_add_overflow(a, b, &r) ? (b < 0 ? INT64_MIN : INT64_MAX) : r; }
static inline int64_t sub64(int64_t a, int64_t b) { int64_t r; return __builtin_sub_overflow(a, b, &r) ? (b < 0 ? INT64_MAX : INT64_MIN) : r; }
static inline int64_t mul64(int64_t a, int64_t b) { int64_t r; return __builtin_mul_overflow(a, b, &r) ? ((a < 0) != (b < 0) ? INT64_MIN : INT64_MAX) : r; }
static inline uint64_t addu64(uint64_t a, uint64_t b) { uint64_t r = a + b; return r < a ? UINT64_MAX : r; }
static inline uint64_t subu64(uint64_t a, uint64_t b) { return a < b ? 0 : a - b; }
static inline uint64_t mulu64(uint64_t a, uint64_t b) { uint64_t r; return __builtin_mul_overflow(a, b, &r) ? UINT64_MAX : r; }
#define ROUNDED(W) static inline W rounded_##W(W a, W b) { W q = a / b, r = a % b; W m = r < 0 ? -r : r, n = b < 0 ? -b : b; return n - m <= m ? ((a < 0) != (b < 0) ? q - 1 : q + 1) : q; }
ROUNDED(int32_t) ROUNDED(int64_t) ROUNDED(__int128)
static inline uint64_t roundedu64(uint64_t a, uint64_t b) { uint64_t q = a / b, r = a % b; return b - r <= r ? q + 1 : q; }
#define FLOORED(W) static inline W floored_##W(W a, W b) { if (b == 0) return a; W r = a % b; return r != 0 && (r < 0) != (b < 0) ? r + b : r; }
FLOORED(int32_t) FLOORED(int64_t)
static inline double floored(double a, double b) { if (b == 0) return a; double r = fmod(a, b); return r != 0 && (r < 0) != (b < 0) ? r + b : r; }
"""
LOOP = """
__attribute__((noinline)) static long {name}(const {a} *restrict x, const {b} *restrict y, {r} *restrict z, size_t n, {s} scalar) {{
  for (size_t i = 0; i < n; i++) {{ {w} a = x[i]; {w} b = {second}; {body} }}
  return -1;
}}
"""


def ends(name):
    bits = int(name.lstrip("uint"))
    if name.startswith("u"):
        return ("0", f"UINT{bits}_MAX")
    return (f"INT{bits}_MIN", f"INT{bits}_MAX")


def integer_body(op, name):
    """The result's type, the type that is computed in, and the expression."""
    low, high = ends(name)
    of_zero = f"a > 0 ? {high} : a < 0 ? {low} : 0"
    if name in NARROW:
        own, wide = NARROW[name]
        low, high = f"({wide}){low}", f"({wide}){high}"
        of_zero = f"a > 0 ? {high} : a < 0 ? {low} : 0"
        table = {"add": "a + b", "sub": "a - b", "mul": "a * b", "div": f"b == 0 ? ({of_zero}) : rounded_{wide}(a, b)", "mod": f"floored_{wide}(a, b)",
                 "idivide": f"b == 0 ? ({of_zero}) : a / b", "neg": "-a", "plus": "a", "abs": "a < 0 ? -a : a"}
        if op in table:
            return own, wide, f"{{ {wide} v = {table[op]}; z[i] = NEAREST({own}, {low}, {high}, v); }}"
    else:
        own = wide = WIDE[name]
        u = "u" if name[0] == "u" else ""
        table = {"add": f"add{u}64(a, b)", "sub": f"sub{u}64(a, b)", "mul": f"mul{u}64(a, b)", "plus": "a",
                 "neg": "0" if u else "a == INT64_MIN ? INT64_MAX : -a", "abs": "a" if u else "a == INT64_MIN ? INT64_MAX : a < 0 ? -a : a",
                 "div": f"b == 0 ? ({of_zero}) : " + ("roundedu64(a, b)" if u else "b == -1 ? sub64(0, a) : rounded_int64_t(a, b)"),
                 "idivide": f"b == 0 ? ({of_zero}) : " + ("a / b" if u else "b == -1 ? sub64(0, a) : a / b"),
                 "mod": "b == 0 ? a : a % b" if u else "b == -1 ? 0 : floored_int64_t(a, b)"}
        if op in table:
            return own, wide, f"z[i] = {table[op]};"
    if op in BITS:
        return own, own, f"z[i] = a {BITS[op]} b;"
    return None


def shared_body(op, name, own):
    """Operators whose result has another class than an integer's own."""
    double = name == "double"
    looked = "if (a != a || b != b) return i; " if double else ""
    alone = "if (a != a) return i; " if double else ""
    if op in COMPARED:
        return "logical_t", own, f"z[i] = {COMPARED[op]};"
    table = {"and": looked + "z[i] = (a != 0) & (b != 0);", "or": looked + "z[i] = (a != 0) | (b != 0);",
             "not": alone + "z[i] = a == 0;", "logical": alone + "z[i] = a != 0;", "isnan": "z[i] = a != a;"}
    if op in table:
        return "logical_t", own, table[op]
    if op == "int16":
        if double:
            return "int16_t", own, "z[i] = a != a ? 0 : NEAREST(int16_t, INT16_MIN, INT16_MAX, a);"
        if name == "logical":
            return "int16_t", own, "z[i] = a;"
        low = "a" if name[0] == "u" else "a < INT16_MIN ? INT16_MIN : a"
        return "int16_t", own, f"z[i] = a > INT16_MAX ? INT16_MAX : {low};"
    if op == "double":
        limit = "if (a > (1LL << 53) || a < -(1LL << 53)) return i; " if name == "int64" else "if (a > (1ULL << 53)) return i; " if name == "uint64" else ""
        return "double", own, limit + "z[i] = a;"
    return None


def double_body(op):
    kept = "if (fabs(v) > LIMIT) return i; z[i] = v;"
    table = {"add": "double v = a + b; " + kept, "sub": "double v = a - b; " + kept, "mul": "double v = a * b; " + kept,
             "div": "double v = a / b; if (v != trunc(v) && v == v || isinf(v)) return i; z[i] = v;", "mod": "z[i] = floored(a, b);",
             "neg": "z[i] = -a;", "plus": "z[i] = a;", "abs": "z[i] = fabs(a);"}
    return ("double", "double", table[op]) if op in table else None


def body_of(op, name):
    own = NARROW[name][0] if name in NARROW else WIDE.get(name, "logical_t" if name == "logical" else "double")
    found = integer_body(op, name) if name in INTEGERS else double_body(op)
    return own, found or shared_body(op, name, own)


def cases():
    """(operator, class, other), where other is `-`, `column` or a double scalar."""
    for op in ("neg", "plus", "abs", "not", "int16", "double", "logical", "isnan"):
        for name in NUMBERS:
            yield op, name, "-"
    for op in ("add", "sub", "mul", "div", "mod", "idivide", *BITS, *COMPARED, "and", "or"):
        for name in NUMBERS:
            if name not in INTEGERS and (op == "idivide" or op in BITS):
                continue
            yield op, name, "column"
            if not (name == "logical" and op == "div"):
                yield op, name, "2"
    for op in ("add", "sub", "mul", "lt", "bitand", "and"):
        yield op, "int16", "100000"


def program(listed):
    """The C program."""
    text = [HEAD]
    table = []
    for place, (op, name, other) in enumerate(listed):
        own, (result, wide, body) = body_of(op, name)
        outside = other == "100000"
        if outside and op in ("add", "sub", "mul"):
            wide, body = "int64_t", body.replace("int32_t", "int64_t")
        elif outside and op == "bitand":
            wide = "int32_t"
            body = "z[i] = (int16_t)(a & (b > INT16_MAX ? INT16_MAX : b));"
        elif outside and op in ("lt", "and"):
            wide = "int32_t"
        if name not in INTEGERS and wide == "double" or wide == "double":
            scalar = "double"
        else:
            scalar = wide
        second = {"-": "0", "column": "y[i]"}.get(other, "scalar")
        text.append(LOOP.format(name=f"loop_{place}", a=own, b=own, r=result, s=scalar, w=wide, second=second, body=body))
        value = other if other not in ("-", "column") else "0"
        text.append(f"""
static long run_{place}(size_t n, size_t turns, double *found) {{
  volatile double told = {value};
  {scalar} scalar = told;
  {own} *x = malloc(n * sizeof *x), *y = malloc(n * sizeof *y);
  for (size_t i = 0; i < n; i++) {{ int first = (int)(i % 16) * 2 - 16, second = (int)(i % 2) + 1; {filled(name, own)} }}
  long bad = -1;
  for (size_t t = 0; t < turns && bad < 0; t++) {{
    {result} *z = malloc(n * sizeof *z);
    bad = loop_{place}(x, y, z, n, scalar);
    *found = n ? (double)z[n - 1] : 0;
    free(z);
  }}
  return bad;
}}
""")
        table.append(f'  {{"{op} {name} {other}", run_{place}}},')
    text.append("static struct { const char *name; long (*run)(size_t, size_t, double *); } all[] = {\n" + "\n".join(table) + "\n};\n")
    text.append(r"""
int main(int count, char **words) {
  size_t rows = strtoull(words[1], 0, 10), turns = strtoull(words[2], 0, 10);
  char name[100];
  snprintf(name, sizeof name, "%s %s %s", words[3], words[4], words[5]);
  for (size_t i = 0; i < sizeof all / sizeof *all; i++)
    if (strcmp(all[i].name, name) == 0) {
      double found = 0;
      long bad = all[i].run(rows, turns, &found);
      if (bad < 0) printf("%.0f\n", found); else printf("no result\n");
      return 0;
    }
  return 2;
}
""")
    return "".join(text)


def filled(name, own):
    if name == "logical":
        return "x[i] = first > 0; y[i] = second > 0;"
    if name.startswith("u"):
        return "x[i] = first < 0 ? 0 : first; y[i] = second;"
    return "x[i] = first; y[i] = second;"


def build(listed):
    ours = CRATE / "out" / "bench_rows"
    if not ours.exists():
        print("proving and building bench_rows, once (some minutes)", file=sys.stderr)
        subprocess.run(["rt", "run", "--", "0", "0"], cwd=CRATE, check=True, stdout=subprocess.DEVNULL)
    out = HERE / "out"
    out.mkdir(exist_ok=True)
    (out / "operators.c").write_text(program(listed))
    compiler = shutil.which("clang") or shutil.which("gcc")
    if compiler is None:
        sys.exit("neither clang nor gcc is installed")
    subprocess.run([compiler, "-O3", "-w", "-march=x86-64-v2", str(out / "operators.c"), "-o", str(out / "operators"), "-lm"], check=True)
    return ours, out / "operators"


def processor_seconds(program_file, words):
    before = resource.getrusage(resource.RUSAGE_CHILDREN)
    done = subprocess.run([str(program_file), *words], env={**os.environ, **KEEPS}, check=True, capture_output=True, text=True)
    after = resource.getrusage(resource.RUSAGE_CHILDREN)
    return after.ru_utime + after.ru_stime - before.ru_utime - before.ru_stime, done.stdout.strip()


def least(program_file, rows, case, runs, seconds):
    """The least nanoseconds a row, and what was printed."""
    none, _ = processor_seconds(program_file, [str(rows), "0", *case])
    once, printed = processor_seconds(program_file, [str(rows), "50", *case])
    turns = max(50, min(100_000, int(50 * seconds / max(once - none, 1e-3))))
    best = None
    for _ in range(runs):
        none, _ = processor_seconds(program_file, [str(rows), "0", *case])
        taken, printed = processor_seconds(program_file, [str(rows), str(turns), *case])
        a_row = (taken - none) / turns / rows * 1e9
        best = a_row if best is None else min(best, a_row)
    return best, printed


def main():
    parser = argparse.ArgumentParser()
    parser.add_argument("--rows", type=int, default=20_000)
    parser.add_argument("--runs", type=int, default=3)
    parser.add_argument("--seconds", type=float, default=0.1)
    parser.add_argument("--only", default="")
    args = parser.parse_args()
    listed = [case for case in cases() if args.only in " ".join(case)]
    ours, by_hand = build(listed)
    rows = {}
    for case in listed:
        mine, printed = least(ours, args.rows, case, args.runs, args.seconds)
        theirs, expected = least(by_hand, args.rows, case, args.runs, args.seconds)
        if printed != expected:
            print(f"{' '.join(case)}: {printed} and by hand {expected}", file=sys.stderr)
        rows[case] = (mine, theirs)
        print(f"{' '.join(case):26} {mine:7.2f} {theirs:7.2f} {mine / max(theirs, 1e-3):7.2f}", flush=True)
    print()
    print("| Operator | " + " | ".join(NUMBERS) + " |")
    print("|---|" + "---|" * len(NUMBERS))
    for op, other in dict.fromkeys((op, other) for op, _, other in listed):
        cells = []
        for name in NUMBERS:
            pair = rows.get((op, name, other))
            cells.append("" if pair is None else f"{pair[0]:.2f} ({pair[0] / max(pair[1], 1e-3):.1f})")
        print(f"| {op} {'' if other == '-' else other} | " + " | ".join(cells) + " |")


main()
