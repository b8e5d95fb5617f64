#!/usr/bin/env python3
"""Runs the examples of docs/RULES.md and of the other pages, and compares what the program prints with them, line by line.

    tools/compare_with_rules.py [--program P] [--keep FOLDER]

An example is a fenced block marked `example`, or a row of a table whose last two columns are called Change and Answer. It has the
changes of files of examples/gnu, one a line, then the command where it is another than the check of these files, then the answer:

    FILE ADDRESS: OLD becomes NEW      the bytes at an address that the image loads, in hexadecimal
    FILE +OFFSET: OLD becomes NEW      the bytes at an offset of the file, in hexadecimal
    FILE: OLD becomes NEW              a text that stands in the file once
    FILE cut to N bytes                its first N bytes
    FILE padded to N bytes             spaces behind its last byte

In every other fenced block each line `$ ./valex ..` (or `../valex`, `../../valex`) without a pipe is a command that is run in the page's folder, and the lines
behind it, up to the next command, are its answer; a line `...` stands for any lines. The status has to be that of the answer's first line, or of a
run's last line.

Last it compares examples/gnu/report.txt with the check of these files, and docs/memory_map.svg with what tools/memory_map.py draws of it.

--keep writes the changed files of each example into FOLDER/PAGE-LINE, LINE being that of the page. Where the program is not built
it says so and ends with 0. Ends with 1 where an answer differs."""
import argparse
import pathlib
import re
import shutil
import struct
import subprocess
import sys
import tempfile

ROOT = pathlib.Path(__file__).resolve().parent.parent
PROGRAM = ROOT / "crates" / "report_cmd" / "out" / "report_cmd"
GNU = ROOT / "examples" / "gnu"
FILES = ["layout.json", "image.elf", "main.json", "smooth.json", "mode.json"]
CHECK = ["check", *FILES]
REPORT = GNU / "report.txt"
MAP = ROOT / "docs" / "memory_map.svg"
PAGES = ["docs/RULES.md", "docs/FORMATS.md", "README.md", "examples/gnu/README.md", "examples/differs/README.md"]
# by the first word of the first line, but for a run, whose last line has the verdict
STATUSES = {"yes": 0, "no": 1, "usage:": 2, "refused": 3, "read": 4}
VERDICTS = {"same": 0, "differ": 7}

AT_ADDRESS = re.compile(r"(\S+) ([0-9a-f]{8}): ([0-9a-f]+) becomes ([0-9a-f]+)")
AT_OFFSET = re.compile(r"(\S+) \+(\d+): ([0-9a-f]+) becomes ([0-9a-f]+)")
OF_TEXT = re.compile(r"([^\s:]+): (.+) becomes (.+)")
OF_SIZE = re.compile(r"(\S+) (cut|padded) to (\d+) bytes")
CHANGES = (AT_ADDRESS, AT_OFFSET, OF_SIZE, OF_TEXT)
COMMAND = re.compile(r"\$ (?:\./|(?:\.\./)+)?valex ?([^|>]*)")


class NoExample(Exception):
    """An example that cannot be run as it is written."""


class Example:
    def __init__(self, page, line, folder, changes, words, answer):
        self.page, self.line, self.folder = page, line, folder
        self.changes, self.words, self.answer = changes, words, answer


def is_change(line):
    return any(form.fullmatch(line) for form in CHANGES)


def offset_of(image, address):
    """The offset in the file of a loaded address (gABI, "Program Header")."""
    first, = struct.unpack_from(">I", image, 28)
    size, count = struct.unpack_from(">HH", image, 42)
    for i in range(count):
        kind, offset, start, _, held = struct.unpack_from(">5I", image, first + size * i)
        if kind == 1 and start <= address < start + held:
            return offset + address - start
    raise NoExample(f"no byte of the file is loaded at {address:08x}")


def with_bytes(data, offset, old, new):
    old, new = bytes.fromhex(old), bytes.fromhex(new)
    if data[offset : offset + len(old)] != old or len(old) != len(new):
        raise NoExample(f"{data[offset : offset + len(old)].hex()} stands there, not {old.hex()}")
    return data[:offset] + new + data[offset + len(new) :]


def changed(data, line):
    """The bytes of a file after a change."""
    found = AT_ADDRESS.fullmatch(line)
    if found:
        return with_bytes(data, offset_of(data, int(found.group(2), 16)), found.group(3), found.group(4))
    found = AT_OFFSET.fullmatch(line)
    if found:
        return with_bytes(data, int(found.group(2)), found.group(3), found.group(4))
    found = OF_SIZE.fullmatch(line)
    if found:
        size = int(found.group(3))
        return data[:size] if found.group(2) == "cut" else data.ljust(size)
    _, old, new = OF_TEXT.fullmatch(line).groups()
    if data.count(old.encode()) != 1:
        raise NoExample(f"the text stands {data.count(old.encode())} times in the file: {old}")
    return data.replace(old.encode(), new.encode())


def table_cells(line):
    return [cell.strip() for cell in line.strip().strip("|").split("|")]


def quoted(cell):
    return re.findall(r"`([^`]+)`", cell)


def rows_of(page, lines):
    """The examples that stand in the page's tables."""
    inside = False
    for number, line in enumerate(lines, 1):
        if not line.startswith("|"):
            inside = False
        elif table_cells(line)[-2:] == ["Change", "Answer"]:
            inside = True
        elif inside and quoted(table_cells(line)[-1]):
            change, answer = table_cells(line)[-2:]
            yield Example(page, number, None, quoted(change), CHECK, quoted(answer))


def blocks_of(lines):
    """The fenced blocks: the mark behind the fence, the number of their first line, and their lines."""
    mark, first, block = None, 0, []
    for number, line in enumerate(lines, 1):
        if not line.startswith("```"):
            block.append(line)
        elif mark is None:
            mark, first, block = line[3:].strip(), number + 1, []
        else:
            yield mark, first, block
            mark, block = None, []


def marked_example(page, first, block):
    changes = []
    while block and is_change(block[0]):
        changes.append(block.pop(0))
    words = CHECK
    if block and COMMAND.fullmatch(block[0]):
        words = COMMAND.fullmatch(block.pop(0)).group(1).split()
    return Example(page, first, None, changes, words, block)


def commands_of(page, first, block):
    """The commands of a block that is not marked, each with its answer."""
    found = None
    for number, line in enumerate(block, first):
        if line.startswith("$ "):
            if found:
                yield found
            command = COMMAND.fullmatch(line)
            found = command and Example(page, number, (ROOT / page).parent, [], command.group(1).split(), [])
        elif found:
            found.answer.append(line)
    if found:
        yield found


def examples_of(page):
    lines = (ROOT / page).read_text().splitlines()
    yield from rows_of(page, lines)
    for mark, first, block in blocks_of(lines):
        if mark == "example":
            yield marked_example(page, first, block)
        else:
            yield from commands_of(page, first, block)


def is_same(due, got):
    """Whether the lines are those that are due, where `...` stands for any lines."""
    form = "".join(r"(?:.*\n)*" if line == "..." else re.escape(line) + r"\n" for line in due)
    return re.fullmatch(form, "".join(line + "\n" for line in got)) is not None


def status_of(answer):
    """The status that goes with the lines of an answer."""
    if not answer:
        return 0
    if answer[0] == "assembly":
        return VERDICTS.get(answer[-1].split(" ")[0], 0)
    return STATUSES.get(answer[0].split(" ")[0], 0)


def run(example, program, folder):
    """What differs, or None."""
    for name in FILES:
        shutil.copyfile(GNU / name, folder / name)
    for line in example.changes:
        file = folder / re.match(r"[^\s:]+", line).group(0)
        file.write_bytes(changed(file.read_bytes(), line))
    answer = subprocess.run([program, *example.words], cwd=example.folder or folder, capture_output=True)
    got = (answer.stdout + answer.stderr).decode(errors="replace").splitlines()
    status = status_of(example.answer)
    if answer.returncode != status:
        return f"status {answer.returncode}, wanted {status}\n  " + "\n  ".join(got[:8])
    if not is_same(example.answer, got):
        return "wanted\n  " + "\n  ".join(example.answer[:12]) + "\nfound\n  " + "\n  ".join(got[:12])
    return None


def difference(example, program, keep):
    with tempfile.TemporaryDirectory() as scratch:
        folder = pathlib.Path(scratch)
        try:
            found = run(example, program, folder)
        except NoExample as fault:
            found = str(fault)
        if keep and example.folder is None:
            shutil.copytree(folder, keep / f"{pathlib.Path(example.page).stem}-{example.line}", dirs_exist_ok=True)
    return found


def stale_files(program):
    """Those of the committed report and its picture that are others than what is made today."""
    report = subprocess.run([program, *CHECK], cwd=GNU, capture_output=True).stdout
    if report != REPORT.read_bytes():
        yield REPORT
    picture = subprocess.run([sys.executable, ROOT / "tools" / "memory_map.py"], input=REPORT.read_bytes(), capture_output=True).stdout
    if picture != MAP.read_bytes():
        yield MAP


def main():
    parser = argparse.ArgumentParser(description="Compares the program with the examples of the documents.")
    parser.add_argument("--program", type=pathlib.Path, default=PROGRAM, help="the built program")
    parser.add_argument("--keep", type=pathlib.Path, help="a folder for the changed files of each example")
    options = parser.parse_args()
    if not options.program.is_file():
        print("compare_with_rules: skipped, the program is not built")
        return 0
    wrong = 0
    for page in PAGES:
        examples = list(examples_of(page)) if (ROOT / page).exists() else []
        differ = 0
        for example in examples:
            found = difference(example, options.program.resolve(), options.keep)
            if found:
                differ += 1
                print(f"{page}:{example.line}: {found}")
        print(f"compare_with_rules: {page}: examples {len(examples)}, {differ} differ")
        wrong += differ
    for file in stale_files(options.program.resolve()):
        print(f"compare_with_rules: {file.relative_to(ROOT)} is not what is made today")
        wrong += 1
    return 1 if wrong else 0


if __name__ == "__main__":
    sys.exit(main())
