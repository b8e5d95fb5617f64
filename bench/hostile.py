#!/usr/bin/env python3
"""Measures what hostile inputs cost `valex check` in memory and time: dumps whose texts make large trees, and images of many symbols.

    bench/hostile.py [--program P]

Each dump has 8,388,608 bytes, the limit of one dump, and is given as the unit beside the layout and the image of examples/first. Under the key `x`,
which readers pass over, stands an array of the smallest items of one kind; one text is a whole unit of short functions. Each image has nearly
33,554,432 bytes, the limit of an image, most of them symbols. Prints a table in
Markdown: the answer's first line, the processor time, the largest resident set, and how many times the file it is."""
import argparse
import pathlib
import shutil
import sys
import tempfile

import elf
from run import MEGABYTE, PROGRAM, ROOT, Cost

MOST = 8_388_608
FIRST = ROOT / "examples" / "first"
NESTED = "[" * 100 + "]" * 100
HEAD, MIDDLE, TAIL = '{"valex":"unit","version":1,"unit":"a.c","functions":[', '],"variables":[],"externals":[]', "}"
MAIN = '{"name":"main","static":false,"code":[["addi",3,0,7],["blr"]]}'


def filled(before, item, after):
    """A text of the greatest size: `before`, as many items as there is room for, `after`, and spaces."""
    count = (MOST - len(before) - len(after) - len(item)) // (len(item) + 1)
    text = before + ",".join([item] * count) + after
    return text + " " * (MOST - len(text))


def distinct_keys():
    items, size = [], 0
    while size < MOST - 200:
        items.append(f'"{len(items):x}":0')
        size += len(items[-1]) + 1
    return HEAD + MAIN + MIDDLE + ',"x":{' + ",".join(items) + "}" + TAIL


def whole_unit(room=1000):
    """Functions of as many `blr` as one may have, up to so many bytes below the limit."""
    code = ",".join(['["blr"]'] * 65_536)
    functions, number = [MAIN], 0
    while sum(map(len, functions)) + len(code) < MOST - room:
        functions.append(f'{{"name":"f{number}","static":false,"code":[{code}]}}')
        number += 1
    return HEAD + ",".join(functions) + MIDDLE + TAIL


def texts():
    before, after = HEAD + MAIN + MIDDLE + ',"x":[', "]" + TAIL
    kinds = {"numbers": "0", "empty arrays": "[]", "empty objects": "{}", "empty texts": '""', "short texts": '"a"', "objects of one key": '{"":0}',
             "arrays of one array": "[[]]", "arrays 100 deep": NESTED, "floats": "1e9"}
    for kind, item in kinds.items():
        yield kind, filled(before, item, after)
    yield "an object of many keys", distinct_keys()
    yield "functions of many instructions", whole_unit()


def images():
    """Images of one function, main, with as many symbols as fit."""
    count, text = 2_000_000, elf.Segment(0x10010000, 5, bytes.fromhex("386000074e800020"))

    def image(symbols, names):
        return elf.executable(0x10010000, [text], b"".join(symbols), names)

    yield "symbols of the name main at one address", image([elf.symbol(1, 0x10010000)] * count, b"\0main\0")
    yield "symbols of the name main, each at its own address", image([elf.symbol(1, 0x10010000 + 4 * i) for i in range(count)], b"\0main\0")
    long = b"\0main\0" + b"a" * 1_000_000 + b"\0"
    yield ("symbols whose names have the same first 256 bytes", image([elf.symbol(1, 0x10010000)] + [elf.symbol(6 + i * 7 % 999_000, 0) for i in range(count - 100_000)], long))


def print_row(what, cost, size):
    print(f"| {what} | {cost.first_line} | {cost.seconds:.2f} | {cost.peak / MEGABYTE:.0f} | {cost.peak / size:.1f} |", flush=True)


def main():
    parser = argparse.ArgumentParser(description="Measures what hostile dumps cost `valex check`.")
    parser.add_argument("--program", type=pathlib.Path, default=PROGRAM, help="the built program")
    options = parser.parse_args()
    if not options.program.is_file():
        sys.exit(f"bench: {options.program} is not built; run ./valex first")
    print("| the dump or the image has | answer | seconds | peak, MB | of the file |\n|---|---|---|---|---|")
    with tempfile.TemporaryDirectory() as scratch:
        folder = pathlib.Path(scratch)
        for name in ("layout.json", "image.elf"):
            shutil.copy(FIRST / name, folder)
        command = [options.program.resolve(), "check", "layout.json", "image.elf", "a.json"]
        for kind, text in texts():
            (folder / "a.json").write_text(text)
            print_row(kind, Cost(command, folder, 1), MOST)
        shutil.copy(FIRST / "a.json", folder)
        for kind, image in images():
            (folder / "image.elf").write_bytes(image)
            print_row(kind, Cost(command, folder, 1), len(image))
    return 0


if __name__ == "__main__":
    sys.exit(main())
