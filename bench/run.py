#!/usr/bin/env python3
"""Times `valex check` on generated programs of growing sizes.

    bench/run.py [--sizes 3750,7500,15000,30000] [--repeat 3] [--program P] [--parser P] [--folder F]

Each size is a number of functions; bench/generate.py writes the program. In the same run, on the same files, it times
`powerpc-linux-gnu-objdump -d` of the image, and a bare parse of the dumps: a program that is given their names and reads each into
a tree (--parser). By default it is crates/bare_parse, over the kit's serde_json, or Python's json where that is not built. Each time
is the least processor time (user and system) of the runs of one command, and the memory is the largest resident set of its runs.
Prints a table in Markdown, and then each aim with what was reached:

- at the largest size, check takes at most 0.75 of the time of objdump -d, and twice that of a bare parse;
- from one size to the next, twice the input takes at most 2.2 times the time;
- the peak of memory is at most 12 times the bytes of all inputs.

Ends with 1 where a check does not say yes. Generated files are kept in --folder, and used again where they stand there."""
import argparse
import pathlib
import re
import shutil
import subprocess
import sys
import tempfile

import generate

ROOT = pathlib.Path(__file__).resolve().parent.parent
PROGRAM = ROOT / "crates" / "report_cmd" / "out" / "report_cmd"
PARSER = ROOT / "crates" / "bare_parse" / "out" / "bare_parse"  # `rt run` in its folder builds it
OBJDUMP = "powerpc-linux-gnu-objdump"
PYTHON_PARSER = [sys.executable, "-S", "-c", "import json, sys\nfor name in sys.argv[1:]: json.loads(open(name, 'rb').read())"]
MEGABYTE = 1e6
CLAIMED = re.compile(r"^(?:functions|tables|variables) (\d+) bytes \d+$", re.MULTILINE)  # in the report of a yes


# Runs the command of its words as a child of a small process, since a child's largest resident set counts what its parent had at the fork.
# Writes the child's seconds, its largest resident set in bytes and its status to the standard error.
MEASURE = """import os, sys
child = os.fork()
if child == 0:
    os.dup2(1, 2)
    os.execvp(sys.argv[1], sys.argv[1:])
_, status, used = os.wait4(child, 0)
sys.stderr.write(f"{used.ru_utime + used.ru_stime} {1024 * used.ru_maxrss} {os.waitstatus_to_exitcode(status)}")
"""


class Cost:
    """The least processor seconds of some runs of a command, and their largest resident set in bytes, which is never told below that of
    the small process that starts it (some 5 MB)."""

    def __init__(self, command, folder, repeat):
        self.seconds, self.peak, self.first_line = float("inf"), 0, ""
        for _ in range(repeat):
            self.run(command, folder)

    def run(self, command, folder):
        with tempfile.TemporaryFile() as out:
            words = [sys.executable, "-S", "-I", "-c", MEASURE, *command]
            told = subprocess.run(words, cwd=folder, stdout=out, stderr=subprocess.PIPE, check=True).stderr
            seconds, peak, status = told.split()
            out.seek(0)
            self.first_line, self.status = out.readline().decode(errors="replace").strip(), int(status)
            self.claims = sum(map(int, CLAIMED.findall(out.read(200).decode(errors="replace"))))
        self.seconds = min(self.seconds, float(seconds))
        self.peak = max(self.peak, int(peak))


class Row:
    """What one size costs."""

    def __init__(self, functions, folder, options):
        names = [f"u{i}.json" for i in range(generate.MOST_UNITS) if (folder / f"u{i}.json").exists()]
        self.functions = functions
        self.dumps = sum((folder / name).stat().st_size for name in names)
        self.image = (folder / "image.elf").stat().st_size
        self.inputs = self.dumps + self.image + (folder / "layout.json").stat().st_size
        self.check = Cost([options.program.resolve(), "check", "layout.json", "image.elf", *names], folder, options.repeat)
        self.objdump = Cost([OBJDUMP, "-d", "image.elf"], folder, options.repeat) if shutil.which(OBJDUMP) else None
        parser = [options.parser.resolve()] if options.parser else PYTHON_PARSER
        self.parse = Cost([*parser, *names], folder, options.repeat)

    def cells(self, before):
        time = self.check.seconds
        yield f"{self.functions:,}"
        yield f"{self.check.claims:,}"
        yield f"{self.dumps / MEGABYTE:.1f}"
        yield f"{self.image / MEGABYTE:.1f}"
        yield f"{time:.2f}"
        yield f"{time / self.objdump.seconds:.2f}" if self.objdump else "-"
        yield f"{time / self.parse.seconds:.2f}"
        yield f"{time / before.check.seconds:.2f} for {self.inputs / before.inputs:.2f}" if before else "-"
        yield f"{self.check.peak / MEGABYTE:.0f}"
        yield f"{self.check.peak / self.inputs:.1f}"


HEAD = ["functions", "claims", "dumps, MB", "image, MB", "check, s", "of objdump -d", "of a bare parse", "of the row before", "peak, MB", "peak, of the inputs"]


def print_table(rows, parser):
    print("| " + " | ".join(HEAD) + " |")
    print("|" + "---|" * len(HEAD))
    for before, row in zip([None] + rows, rows):
        print("| " + " | ".join(row.cells(before)) + " |")
    print(f"\nThe bare parse is by {parser or 'json of Python, since crates/bare_parse is not built'}.")


def print_aims(rows):
    last = rows[-1]
    aims = [(f"{last.functions:,} functions, check of a bare parse", last.check.seconds / last.parse.seconds, 2.0)]
    if last.objdump:
        aims.insert(0, (f"{last.functions:,} functions, check of objdump -d", last.check.seconds / last.objdump.seconds, 0.75))
    for before, row in zip(rows, rows[1:]):
        doubled = (row.check.seconds / before.check.seconds) / (row.inputs / before.inputs) * 2
        aims.append((f"{row.functions:,} functions, time for twice the input of {before.functions:,}", doubled, 2.2))
    aims.append(("largest peak of the inputs", max(row.check.peak / row.inputs for row in rows), 12.0))
    for what, found, most in aims:
        print(f"{'reached' if found <= most else 'NOT reached'}: {what}: {found:.2f}, at most {most}")


def folder_of(functions, options, scratch):
    """The folder with the generated program of a size."""
    folder = (options.folder or scratch) / f"{functions}-{options.seed}"
    if not (folder / "layout.json").exists():
        generate.generate(folder, functions, options.seed)
    return folder


def main():
    parser = argparse.ArgumentParser(description="Times `valex check` on generated programs.")
    parser.add_argument("--sizes", default="3750,7500,15000,30000", help="numbers of functions, rising")
    parser.add_argument("--repeat", type=int, default=3, help="runs of each command")
    parser.add_argument("--seed", type=int, default=1, help="of the generated programs")
    parser.add_argument("--program", type=pathlib.Path, default=PROGRAM, help="the built program")
    parser.add_argument("--parser", type=pathlib.Path, default=PARSER if PARSER.is_file() else None, help="a program that parses the files of its words")
    parser.add_argument("--folder", type=pathlib.Path, help="where generated programs are kept")
    options = parser.parse_args()
    if not options.program.is_file():
        sys.exit(f"bench: {options.program} is not built; run ./valex first")
    rows = []
    with tempfile.TemporaryDirectory() as scratch:
        for size in options.sizes.split(","):
            row = Row(int(size), folder_of(int(size), options, pathlib.Path(scratch)), options)
            if row.check.status or row.check.first_line != "yes":
                print(f"bench: {size} functions: status {row.check.status}, {row.check.first_line}", file=sys.stderr)
                return 1
            rows.append(row)
    print_table(rows, options.parser)
    print()
    print_aims(rows)
    return 0


if __name__ == "__main__":
    sys.exit(main())
