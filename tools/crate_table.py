#!/usr/bin/env python3
"""Prints the table of crates of docs/ARCHITECTURE.md, or checks it.

    crate_table.py          writes the table into docs/ARCHITECTURE.md, between its two marks
    crate_table.py --check  ends with 1 where the table there is another one

The table is made from crates.txt (layers are its lines `# name`) and from the first doc line of each crate's root file.
--check also looks at the README's table of what is proved: each crate of crates.txt stands there once and no other does, and what
is tested is told exactly of the crates that have tests (a program's run is a test too) or are tried by those of a crate that is named."""
import pathlib
import re
import sys

TOP = pathlib.Path(__file__).resolve().parent.parent
PAGE = TOP / "docs" / "ARCHITECTURE.md"
BEGIN, END = "<!-- crates: begin -->\n", "<!-- crates: end -->\n"


def crates():
    """Each crate of crates.txt with its layer and the crates of the repository that it stands on."""
    rows, layer = [], ""
    for line in (TOP / "crates.txt").read_text().splitlines():
        if line.startswith("# "):
            layer = line[2:].strip()
        elif ":" in line:
            name, below = line.split(":", 1)
            rows.append((layer, name.strip(), below.split()))
    own = {name for _, name, _ in rows}
    return [(layer, name, [b for b in below if b in own]) for layer, name, below in rows]


def head(name):
    """The first sentence of a crate's root file, up to the first empty comment line."""
    source = TOP / "crates" / name / "src"
    root = source / "lib.rt" if (source / "lib.rt").exists() else source / "main.rt"
    words = []
    for line in root.read_text().splitlines():
        text = re.match(r"//!? ?(.*)", line)
        if not text or not text.group(1).strip():
            break
        words.append(text.group(1).strip())
    return " ".join(words)


def table():
    lines = ["| Layer | Crate | Stands on | Holds |\n", "|---|---|---|---|\n"]
    last = None
    for layer, name, below in crates():
        shown = "" if layer == last else layer
        lines.append(f"| {shown} | `{name}` | {', '.join(f'`{b}`' for b in below)} | {head(name)} |\n")
        last = layer
    return "".join(lines)


def has_test(name):
    source = TOP / "crates" / name / "src"
    return (source / "main.rt").exists() or any("#[test]" in file.read_text() for file in source.rglob("*.rt"))


def readme_faults():
    """What is wrong in the README's table of what is proved."""
    page = (TOP / "README.md").read_text()
    _, found, rest = page.partition("| Crate | Proved")
    if not found:
        yield "has no table of what is proved"
        return
    own, told = [name for _, name, _ in crates()], []
    for line in rest.split("\n\n")[0].splitlines()[2:]:
        cells = [cell.strip() for cell in line.strip().strip("|").split(" | ")]
        names = re.findall(r"`(\w+)`", cells[0])
        told += names
        tested = len(cells) > 2 and cells[2] not in ("", "none yet")
        above = tested and any(has_test(name) for name in re.findall(r"`(\w+)`", cells[2]) if name in own)
        if not above and tested != any(has_test(name) for name in names if name in own):
            yield f"{'tells' if tested else 'tells no'} tests of {', '.join(names)}"
    for name in sorted(set(own) ^ set(told)):
        yield f"{'lacks' if name in own else 'has no more'} {name}"
    yield from (f"has {name} twice" for name in sorted(set(told)) if told.count(name) > 1)


def check_readme():
    faults = list(readme_faults())
    for fault in faults:
        print(f"crate_table: the README's table of what is proved {fault}", file=sys.stderr)
    return 1 if faults else 0


def main():
    page = PAGE.read_text()
    if BEGIN not in page or END not in page:
        print(f"crate_table: {PAGE.name} has no marks for the table", file=sys.stderr)
        return 1
    before, rest = page.split(BEGIN, 1)
    after = rest.split(END, 1)[1]
    due = before + BEGIN + table() + END + after
    if due == page:
        print("crate_table: the table of crates is that of crates.txt")
        return check_readme() if "--check" in sys.argv[1:] else 0
    if "--check" in sys.argv[1:]:
        print("crate_table: docs/ARCHITECTURE.md has another table; run tools/crate_table.py", file=sys.stderr)
        return 1
    PAGE.write_text(due)
    print("crate_table: written")
    return 0


if __name__ == "__main__":
    sys.exit(main())
