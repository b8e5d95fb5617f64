#!/usr/bin/env python3
"""Times each command of valex on one large input of each kind.

    bench/commands.py [--program P] [--repeat 3]

`check` gets images whose greatest part is nops, zeros of the file, zeros behind it, foreign code or bytes of variables, each up to a limit of the
program; `show` as many words as it may; `upgrade` a dump of the greatest size. Prints a table in Markdown: the answer's first
line, the least processor time (user and system) and the largest resident set of the runs. Programs of many functions are timed
by bench/run.py, hostile inputs by bench/hostile.py. Ends with 1 where a status is not 0."""
import argparse
import json
import pathlib
import sys
import tempfile

import elf
import generate
from hostile import whole_unit
from run import MEGABYTE, PROGRAM, Cost

CODE, BULK = 0x10010000, 0x20000000
MAIN_WORDS = generate.pack([0x38600007, 0x4E800020])
NOPS = generate.pack([0x60000000])
MEBIBYTE = 1 << 20
MOST_LOADED, MOST_VARIABLE = 64 * MEBIBYTE, 16 * MEBIBYTE
FILE_ROOM = 32 * MEBIBYTE - 4096  # what headers and symbols leave of the greatest image
MAIN = {"name": "main", "static": False, "code": [["addi", 3, 0, 7], ["blr"]]}


def layout_text(kind, first, size, foreign=False):
    areas = [{"name": ".text", "range": [CODE, CODE + 0x1000], "kind": "code"}]
    if not foreign:
        areas.append({"name": "bulk", "range": [first, first + size], "kind": kind})
    return json.dumps({"valex": "layout", "version": 1, "entry": "main", "stop": 0x0E000000, "stack": [0x0F000000, 0x0F010000],
                       "r13": 0, "r2": 0, "areas": areas, "foreign": [[first, first + size]] if foreign else [], "pins": []})


def unit_text(variables=()):
    return json.dumps({"valex": "unit", "version": 1, "unit": "a.c", "functions": [MAIN], "variables": list(variables), "externals": []})


def image_bytes(bulk, variables=()):
    """Main, and one more segment; names of variables with their addresses."""
    names, symbols = b"\0main\0", elf.symbol(1, CODE)
    for name, address in variables:
        symbols += elf.symbol(len(names), address, info=0x11)
        names += name.encode() + b"\0"
    return elf.executable(CODE, [elf.Segment(CODE, elf.READ | elf.EXECUTE, MAIN_WORDS), bulk], symbols, names)


def zero_variables(size):
    """Variables of zeros, of so many bytes together, with their addresses."""
    places = [(f"v{i}", at) for i, at in enumerate(range(BULK, BULK + size, MOST_VARIABLE))]
    dumps = [{"name": name, "static": False, "writable": True, "align": 4, "init": [["space", min(MOST_VARIABLE, BULK + size - at)]]}
             for name, at in places]
    return places, dumps


def check_files():
    """What each image loads, and its layout, image and unit."""
    room = FILE_ROOM
    yield "1 MiB of nops", layout_text("code", BULK, MEBIBYTE), image_bytes(elf.Segment(BULK, 5, NOPS * (MEBIBYTE // 4))), unit_text()
    yield "32 MiB of nops", layout_text("code", BULK, room), image_bytes(elf.Segment(BULK, 5, NOPS * (room // 4))), unit_text()
    yield "32 MiB of zeros in the file", layout_text("data", BULK, room), image_bytes(elf.Segment(BULK, 6, bytes(room))), unit_text()
    yield "32 MiB of foreign code", layout_text("", BULK, room, True), image_bytes(elf.Segment(BULK, 5, NOPS * (room // 4))), unit_text()
    most = MOST_LOADED - len(MAIN_WORDS)
    yield "64 MiB of zeros behind the file", layout_text("data", BULK, most), image_bytes(elf.Segment(BULK, 6, b"", most)), unit_text()
    places, dumps = zero_variables(most)
    yield "64 MiB of zero variables", layout_text("data", BULK, most), image_bytes(elf.Segment(BULK, 6, b"", most), places), unit_text(dumps)
    content = bytes(range(256)) * (4 * MEBIBYTE // 256 - 16)
    variable = {"name": "v", "static": False, "writable": True, "align": 4, "init": [["bytes", content.hex()]]}
    yield ("4 MiB of bytes of a variable", layout_text("data", BULK, len(content)),
           image_bytes(elf.Segment(BULK, 6, content), [("v", BULK)]), unit_text([variable]))


def print_row(command, what, cost):
    line = cost.first_line if len(cost.first_line) < 60 else "the dump"
    print(f"| {command} | {what} | {line} | {cost.seconds:.2f} | {cost.peak / MEGABYTE:.0f} |", flush=True)
    return cost.status


def measure(options, folder):
    """The worst status of the runs."""
    program, worst = options.program.resolve(), 0
    for what, layout, image, unit in check_files():
        (folder / "layout.json").write_text(layout)
        (folder / "image.elf").write_bytes(image)
        (folder / "a.json").write_text(unit)
        cost = Cost([program, "check", "layout.json", "image.elf", "a.json"], folder, options.repeat)
        worst = max(worst, print_row("check", what, cost))
    bulk = elf.Segment(BULK, 5, NOPS * (MEBIBYTE // 4))
    (folder / "image.elf").write_bytes(image_bytes(bulk))
    cost = Cost([program, "show", "image.elf", f"{BULK:#x}", "65536"], folder, options.repeat)
    worst = max(worst, print_row("show", "65,536 words", cost))
    (folder / "a.json").write_text(whole_unit(room=600_000).rstrip())
    cost = Cost([program, "upgrade", "a.json"], folder, options.repeat)
    return max(worst, print_row("upgrade", f"{(folder / 'a.json').stat().st_size:,} bytes", cost))


def main():
    parser = argparse.ArgumentParser(description="Times each command of valex on large inputs.")
    parser.add_argument("--program", type=pathlib.Path, default=PROGRAM, help="the built program")
    parser.add_argument("--repeat", type=int, default=3, help="runs of each command")
    options = parser.parse_args()
    if not options.program.is_file():
        sys.exit(f"bench: {options.program} is not built; run ./valex first")
    print("| command | on | answer | seconds | peak, MB |\n|---|---|---|---|---|")
    with tempfile.TemporaryDirectory() as scratch:
        return 1 if measure(options, pathlib.Path(scratch)) else 0


if __name__ == "__main__":
    sys.exit(main())
