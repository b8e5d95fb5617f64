#!/usr/bin/env python3
"""Writes a large program for `valex check`: units, a layout and an image that matches them.

    bench/generate.py FOLDER [--functions N] [--seed S]

FOLDER gets `layout.json`, `image.elf` and `u0.json`, `u1.json`, .. (at most 512). Each function makes a frame, computes, loads and
stores a variable by its address, branches in the near or the far form, and but for every fifth calls another function of the program or an
external; each fourth counts in a small-data variable, each eighth has a jump table, and each sixteenth refers to a string literal of
its unit. Each unit has a static `counter` and a static `__stringlit_1`, which are bound by their uses among as many symbols as there
are units, and a static `routines`, which has a pin. Foreign code, a third as long as the functions, stands below them, as a
library would. The image has the sections of a linked program, and is written by this script alone."""
import argparse
import json
import pathlib
import random
import struct

CODE, MOST_UNITS, FEWEST_IN_UNIT = 0x10000000, 512, 100
SMALL, BASE = 0x18000000, 0x18008000
STOP, STACK = 0x0E000000, (0x20000000, 0x20100000)
FRAME = 32
LIBRARY_WORDS = 8  # of foreign code for each function


def high(address):
    """The high half, adjusted for a signed low half."""
    return (address + 0x8000 >> 16) & 0xFFFF


def immediate(opcode, register, base, constant):
    return opcode << 26 | register << 21 | base << 16 | constant & 0xFFFF


def indexed(extended, register, first, second):
    return 31 << 26 | register << 21 | first << 16 | second << 11 | extended << 1


def branch(here, there, link):
    return 18 << 26 | there - here & 0x03FFFFFC | link


def branch_if(way, bit, here, there):
    return 16 << 26 | way << 21 | bit << 16 | there - here & 0xFFFC


class Code:
    """A function: its instructions as in a dump, and its words as functions of their address and of the addresses of names."""

    def __init__(self):
        self.dump, self.words, self.labels, self.table = [], [], {}, None

    def add(self, instruction, *words):
        self.dump.append(instruction)
        self.words.extend(words)

    def plain(self, instruction, word):
        self.add(instruction, lambda here, at: word)

    def label(self, number):
        self.dump.append(["label", number])
        self.labels[number] = len(self.words)

    def jump(self, instruction, number, word):
        """A branch to a label, whose word is made from its own address and the label's."""
        self.add(instruction, lambda here, at: word(here, at(("label", number))))


def function_code(rng, number, callee, literal):
    """Every fifth function is a leaf: it has no frame and calls nothing."""
    code, name = Code(), f"v{number - number % 2}"
    if callee:
        begin_frame(code)
    constant = rng.getrandbits(30) | 0x10001
    code.plain(["imm", 4, constant], immediate(15, 4, 0, constant >> 16))
    code.words.append(lambda here, at: immediate(24, 4, 4, constant))
    code.add(["addis", 5, 0, ["ha", name, 0]], lambda here, at: immediate(15, 5, 0, high(at(name))))
    code.add(["lwz", 6, ["lo", name, 0], 5], lambda here, at: immediate(32, 6, 5, at(name)))
    code.plain(["add", 6, 6, 4], indexed(266, 6, 6, 4))
    code.add(["stw", 6, ["lo", name, 0], 5], lambda here, at: immediate(36, 6, 5, at(name)))
    code.plain(["xor", 6, 6, 3], indexed(316, 6, 6, 3))
    code.plain(["srawi", 7, 6, number % 32], indexed(824, 6, 7, number % 32))
    if number % 4 == 0:
        add_count(code)
    code.plain(["cmpwi", 0, 3, 16], immediate(11, 0, 3, 16))
    if number % 2:
        code.plain(["bf", 1, 1], immediate(16, 12, 1, 8))
        code.words.append(lambda here, at: branch(here, at(("label", 1)), 0))
    else:
        code.jump(["bf", 1, 1], 1, lambda here, there: branch_if(4, 1, here, there))
    if literal:
        code.add(["addis", 3, 0, ["ha", "__stringlit_1", 0]], lambda here, at: immediate(15, 3, 0, high(at("__stringlit_1"))))
        code.add(["addi", 3, 3, ["lo", "__stringlit_1", 0]], lambda here, at: immediate(14, 3, 3, at("__stringlit_1")))
    code.plain(["subf", 6, 7, 6], indexed(40, 6, 7, 6))
    if callee:
        code.add(["bl", callee], lambda here, at: branch(here, at(callee), 1))
    if number % 8 == 0:
        add_table(code)
    code.label(1)
    code.plain(["or", 3, 6, 6], indexed(444, 6, 3, 6))
    if callee:
        end_frame(code)
    code.plain(["blr"], 0x4E800020)
    return code


def begin_frame(code):
    code.plain(["allocframe", FRAME], immediate(37, 1, 1, -FRAME))
    code.plain(["mflr", 0], 0x7C0802A6)
    code.plain(["stw", 0, 8, 1], immediate(36, 0, 1, 8))


def end_frame(code):
    code.plain(["lwz", 0, 8, 1], immediate(32, 0, 1, 8))
    code.plain(["mtlr", 0], 0x7C0803A6)
    code.plain(["freeframe", FRAME], immediate(14, 1, 1, FRAME))


def add_count(code):
    """Adds one to the unit's counter."""
    code.add(["lwz", 7, ["sda", "counter", 0], 0], lambda here, at: immediate(32, 7, 13, at("counter") - BASE))
    code.plain(["addi", 7, 7, 1], immediate(14, 7, 7, 1))
    code.add(["stw", 7, ["sda", "counter", 0], 0], lambda here, at: immediate(36, 7, 13, at("counter") - BASE))


def add_table(code):
    """A jump by register 3, below 4, to four labels."""
    labels = [2, 3, 4, 5]
    code.plain(["cmplwi", 0, 3, 4], immediate(10, 0, 3, 4))
    code.jump(["bf", 0, 1], 1, lambda here, there: branch_if(4, 0, here, there))
    code.table = labels
    code.plain(["btbl", 3, labels], 21 << 26 | 3 << 21 | 12 << 16 | 2 << 11 | 29 << 1)
    code.words.append(lambda here, at: immediate(15, 12, 12, high(at(("table",)))))
    code.words.append(lambda here, at: immediate(32, 12, 12, at(("table",))))
    code.words.extend([lambda here, at: 0x7D8903A6, lambda here, at: 0x4E800420])
    for label in labels:
        code.label(label)
        code.plain(["imm", 6, label], immediate(14, 6, 0, label))
        code.jump(["b", 1], 1, lambda here, there: branch(here, there, 0))


def make_units(count, seed):
    """Lists of pairs of a function's number and its code, one list a unit, and the externals of each unit."""
    rng = random.Random(seed)
    size = max(FEWEST_IN_UNIT, -(-count // MOST_UNITS))
    size += size % 2
    units = []
    for first in range(0, count, size):
        members, others = [], set()
        for number in range(first, min(first + size, count)):
            callee = rng.randrange(count)
            name = "put_word" if number % 10 == 0 else f"f{callee}"
            if number % 5 == 4:
                name = None
            elif name == "put_word" or not first <= callee < first + size:
                others.add(name)
            members.append((number, function_code(rng, number, name, number % 16 == 0 or number == first)))
        units.append((members, sorted(others)))
    return units


def literal_of(unit):
    return f"unit {unit}\n".encode() + b"\0"


def place(units):
    """The addresses of all names, each static one with its unit, and the ends of code, constants and data."""
    at, here = {}, CODE
    for members, _ in units:
        for number, code in members:
            at[f"f{number}"] = here
            here += 4 * len(code.words)
    constants = here
    for members, _ in units:
        for number, code in members:
            if code.table:
                at["table", number] = here
                here += 4 * len(code.table)
    for unit in range(len(units)):
        at["__stringlit_1", unit] = here
        here += len(literal_of(unit))
    end, data = here, here + 0xFFFF & ~0xFFFF
    here = data
    for unit, (members, _) in enumerate(units):
        for number, _ in members[::2]:
            at[f"v{number}"] = here
            here += 4
        at["routines", unit] = here
        here += 8
        at["counter", unit] = SMALL + 4 * unit
    library = CODE - 4 * LIBRARY_WORDS * sum(len(members) for members, _ in units)
    at["put_word"] = library
    return at, (library, constants, end, data, here)


def code_bytes(units, at):
    code_words, tables = [], []
    for unit, (members, _) in enumerate(units):
        for number, code in members:
            start = at[f"f{number}"]

            def address(name):
                if name == ("table",):
                    return at["table", number]
                if name[0] == "label":
                    return start + 4 * code.labels[name[1]]
                return at[name, unit] if (name, unit) in at else at[name]

            code_words.extend(word(start + 4 * i, address) for i, word in enumerate(code.words))
            tables.extend(start + 4 * code.labels[label] for label in code.table or [])
    return pack(code_words), pack(tables)


def pack(words):
    return struct.pack(f">{len(words)}I", *words)


def data_bytes(units, at):
    words = []
    for members, _ in units:
        words += [number for number, _ in members[::2]]
        words += [at[f"f{members[0][0]}"], at[f"v{members[0][0]}"]]
    return pack(words)


def variable(name, static, writable, align, init):
    return {"name": name, "static": static, "writable": writable, "align": align, "init": init}


def unit_tree(unit, members, others):
    functions = [{"name": f"f{n}", "static": False, "code": code.dump} for n, code in members]
    variables = [variable(f"v{n}", False, True, 4, [["i32", n]]) for n, _ in members[::2]]
    first = members[0][0]
    variables.append(variable("routines", True, True, 4, [["addr", f"f{first}", 0], ["addr", f"v{first}", 0]]))
    variables.append(variable("__stringlit_1", True, False, 1, [["bytes", literal_of(unit).hex()]]))
    variables.append(variable("counter", True, True, 4, [["i32", unit]]))
    signature = {"args": ["w"], "result": "none"}
    externals = [{"name": name, "sig": signature if name == "put_word" else None} for name in others]
    return {"valex": "unit", "version": 1, "unit": f"u{unit}.c", "functions": functions, "variables": variables, "externals": externals}


def layout_tree(places, units, at):
    library, constants, end, data, data_end = places

    def area(name, first, last, kind):
        return {"name": name, "range": [first, last], "kind": kind}

    areas = [area("text", CODE, constants, "code"), area("rodata", constants, end, "const")]
    areas += [area("data", data, data_end, "data"), area("sdata", SMALL, SMALL + 4 * len(units), "sda13")]
    pins = [{"unit": f"u{unit}.c", "name": "routines", "address": at["routines", unit]} for unit in range(len(units))]
    return {"valex": "layout", "version": 1, "entry": "f0", "stop": STOP, "stack": list(STACK), "r13": BASE, "r2": BASE,
            "areas": areas, "foreign": [[library, CODE]], "pins": pins}


class Names:
    """A string table, in which each name stands once."""

    def __init__(self):
        self.text, self.places = bytearray(b"\0"), {}

    def place(self, name):
        if name not in self.places:
            self.places[name] = len(self.text)
            self.text += name.encode() + b"\0"
        return self.places[name]


def symbol_bytes(units, at, names):
    """The symbol table, its local symbols first, and how many these are with the null symbol."""
    def symbol(name, address, size, info, section):
        return struct.pack(">IIIBBH", names.place(name), address, size, info, 0, section)

    local = [bytes(16)]
    for unit in range(len(units)):
        local.append(symbol("routines", at["routines", unit], 8, 1, 4))
        local.append(symbol("__stringlit_1", at["__stringlit_1", unit], len(literal_of(unit)), 1, 3))
        local.append(symbol("counter", at["counter", unit], 4, 1, 5))
    table = list(local)
    for members, _ in units:
        for number, code in members:
            table.append(symbol(f"f{number}", at[f"f{number}"], 4 * len(code.words), 0x12, 2))
            if number % 2 == 0:
                table.append(symbol(f"v{number}", at[f"v{number}"], 4, 0x11, 4))
    table.append(symbol("put_word", at["put_word"], 0, 0x12, 1))
    return b"".join(table), len(local)


def image_bytes(units, at, places):
    """ELF (gABI, "Object Files"): header, program headers, loaded bytes, symbols, names, section headers."""
    library, constants, end, data, data_end = places
    code, tables = code_bytes(units, at)
    literals = b"".join(literal_of(unit) for unit in range(len(units)))
    small = pack(list(range(len(units))))
    foreign = code * (1 + (CODE - library) // len(code))
    loads = [(library, foreign[: CODE - library], 5, ".lib", 6), (CODE, code, 5, ".text", 6), (constants, tables + literals, 4, ".rodata", 2),
             (data, data_bytes(units, at), 6, ".data", 3), (SMALL, small, 6, ".sdata", 3)]
    out = bytearray(52 + 32 * len(loads))
    headers, sections, names, section_names = [], [bytes(40)], Names(), Names()

    def append(content):
        out.extend(bytes(-len(out) % 4))
        offset = len(out)
        out.extend(content)
        return offset

    for address, content, flags, name, section_flags in loads:
        offset = append(content)
        headers.append(struct.pack(">8I", 1, offset, address, address, len(content), len(content), flags, 4))
        sections.append(struct.pack(">10I", section_names.place(name), 1, section_flags, address, offset, len(content), 0, 0, 4, 0))
    symbols, local = symbol_bytes(units, at, names)
    offset = append(symbols)
    sections.append(struct.pack(">10I", section_names.place(".symtab"), 2, 0, 0, offset, len(symbols), len(sections) + 1, local, 4, 16))
    offset = append(names.text)
    sections.append(struct.pack(">10I", section_names.place(".strtab"), 3, 0, 0, offset, len(names.text), 0, 0, 1, 0))
    place_of_names = section_names.place(".shstrtab")
    offset = append(section_names.text)
    sections.append(struct.pack(">10I", place_of_names, 3, 0, 0, offset, len(section_names.text), 0, 0, 1, 0))
    start = append(b"".join(sections))
    ident = bytes([0x7F, 0x45, 0x4C, 0x46, 1, 2, 1]) + bytes(9)
    counts = (52, 32, len(loads), 40, len(sections), len(sections) - 1)
    out[:52] = ident + struct.pack(">HHIIIIIHHHHHH", 2, 20, 1, at["f0"], 52, start, 0, *counts)
    out[52 : 52 + 32 * len(loads)] = b"".join(headers)
    return bytes(out)


def compact(tree):
    return json.dumps(tree, separators=(",", ":"))


def generate(folder, count, seed):
    """Writes the files, and answers the names of the units' files."""
    folder.mkdir(parents=True, exist_ok=True)
    units = make_units(count, seed)
    at, places = place(units)
    (folder / "image.elf").write_bytes(image_bytes(units, at, places))
    (folder / "layout.json").write_text(compact(layout_tree(places, units, at)))
    names = [f"u{unit}.json" for unit in range(len(units))]
    for unit, (members, others) in enumerate(units):
        (folder / names[unit]).write_text(compact(unit_tree(unit, members, others)))
    return names


def main():
    parser = argparse.ArgumentParser(description="Writes a large program for `valex check`.")
    parser.add_argument("folder", type=pathlib.Path)
    parser.add_argument("--functions", type=int, default=1000)
    parser.add_argument("--seed", type=int, default=1)
    options = parser.parse_args()
    names = generate(options.folder, options.functions, options.seed)
    dumps = sum((options.folder / name).stat().st_size for name in names)
    image = (options.folder / "image.elf").stat().st_size
    print(f"functions {options.functions}, units {len(names)}, dumps {dumps} bytes, image {image} bytes")


if __name__ == "__main__":
    main()
