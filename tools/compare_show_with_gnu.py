#!/usr/bin/env python3
"""Compares what `valex show` prints with GNU binutils, mnemonic by mnemonic.

Every mnemonic of the instruction table is assembled by GNU as with registers 0 and 31, edges of constants, displacements of
both signs and field 7 of CR; so are words of no instruction of the table. They are linked into one executable, of which `show` has
to print the words that GNU as gave and the texts that were assembled (`?` for the others). Random words stand behind them:
there `show` has to print what GNU objdump reads (`-M raw`), and `?` where that is no instruction of the table. The lines
before the words are compared with GNU readelf.

Needs powerpc-linux-gnu-as, -ld, -objdump and -readelf, and the built program; without one of them it says so and ends with 0.
Ends with 1 where a line differs.

objdump passes over some bits that the standard reserves; words with one of them are `?` here: the bit between field and L of a
comparison, bits 16 to 20 of a jump to LR or CTR, and operands of `sync`. No random word is stwu or stwux with base 0: the standard
calls that form invalid, objdump refuses it, and the table has it."""
import argparse
import pathlib
import random
import re
import shutil
import struct
import subprocess
import sys
import tempfile

ROOT = pathlib.Path(__file__).resolve().parent.parent
PROGRAM = ROOT / "crates" / "report_cmd" / "out" / "report_cmd"
TOOLS = {name: f"powerpc-linux-gnu-{name}" for name in ("as", "ld", "objdump", "readelf")}
TEXT = 0x10010000

S16, U16 = (-32768, -1, 0, 1, 32767), (0, 1, 0x8000, 0xFFFF)
REGISTERS = ((0, 31, 0), (31, 0, 31), (3, 4, 5))
ALU_IMM = "mulli subfic addic addi addis".split()
LOG_IMM = "ori oris xori xoris andi. andis.".split()
THREE = """subfc addc mulhwu subf mulhw subfe adde mullw add divwu divw slw and andc nor eqv xor orc or nand srw sraw and.
    lwzx lbzx lhzx lhax lwbrx lhbrx stwx stbx sthx stwbrx sthbrx""".split()
TWO = "neg subfze addze cntlzw extsh extsb".split()
ACCESS = "lwz lbz lhz lha stw stb sth".split()
CR_BIT = "crxor creqv cror".split()
MOVE = "mflr mfctr mtlr mtctr mfcr".split()
ALONE = "sync eieio isync blr bctr bctrl trap".split()
MNEMONICS = ALU_IMM + LOG_IMM + THREE + TWO + ACCESS + CR_BIT + MOVE + ALONE
MNEMONICS += "srawi rlwimi rlwinm stwu stwux cmpw cmplw cmpwi cmplwi b bl bc bdnz".split()

# Words of no instruction of the table, in the assembler's spelling.
OTHERS = """or. 0,0,0; bc 13,2,.+8; bc 8,2,.+8; bc 16,1,.+8; ba 0; cmpdi 0,3,0; .long 0x2c430000; rlwinm. 31,5,2,0,29; blrl; mfxer 31;
    addo 25,26,27; .long 0x7c7f08d0; tw 4,0,0; bcl 12,2,.+8; .long 0xffffffff; .long 0; lwarx 3,0,4; stwcx. 3,0,4; lmw 29,0(1);
    lwzu 3,4(1); lwsync; bdz .-8; sc; rfi; fadd 1,2,3; mtcrf 255,3; mfocrf 3,128; beqlr 0; mtxer 3; ld 3,0(4); srad 3,4,5; bla 0"""


def table_texts():
    """Lines that `show` has to print, a branch's target as a displacement behind a dot."""
    edges = ((0, 31), (31, 0))
    for name in ALU_IMM:
        yield from (f"{name} {d},{a},{c}" for d, a in edges for c in S16)
    for name in LOG_IMM:
        yield from (f"{name} {a},{s},{c}" for a, s in edges for c in U16)
    for name in THREE:
        yield from (f"{name} {d},{a},{b}" for d, a, b in REGISTERS)
    for name in TWO:
        yield from (f"{name} {d},{a}" for d, a in edges)
    for name in ACCESS:
        yield from (f"{name} {d},{c},{a}" for d, a in edges for c in S16)
    yield from (f"srawi {a},{s},{n}" for a, s in edges for n in (0, 1, 31))
    for name in ("rlwimi", "rlwinm"):
        yield from (f"{name} {a},{s},{n}" for a, s in edges for n in ("0,0,31", "31,31,0", "2,0,29", "0,0,0"))
    for field in (0, 7):
        yield from (f"{name} {field},{a},{b}" for name in ("cmpw", "cmplw") for a, b in edges)
        yield from (f"cmpwi {field},31,{c}" for c in S16)
        yield from (f"cmplwi {field},0,{c}" for c in U16)
    for name in CR_BIT:
        yield from (f"{name} {bits}" for bits in ("0,31,0", "31,0,31", "6,6,6", "28,29,30"))
    yield from (f"{name} {r}" for name in MOVE for r in (0, 31))
    yield from ALONE
    yield from (f"stwu {d},{c},{a}" for d, a in ((1, 1), (31, 3)) for c in (-32768, -16, 32764))
    yield from ("stwux 1,1,12", "stwux 31,3,0")
    yield from (f"{name} .{n:+d}" for name in ("b", "bl") for n in (0, 4, -4, 0x1FFFFFC, -0x2000000))
    yield from (f"bc {bo},{bit},.{n:+d}" for bo in (12, 4) for bit in (0, 31) for n in (0, 4, -4, 32764, -32768))
    yield from (f"bdnz .{n:+d}" for n in (0, 4, -4, 32764, -32768))


def source_line(text):
    """The assembler's spelling: a displacement's base stands in parentheses."""
    name, _, operands = text.partition(" ")
    if name in ACCESS or name == "stwu":
        operands = re.sub(r"^(\d+),(-?\d+),(\d+)$", r"\1,\2(\3)", operands)
    return f"{name} {operands}\n"


def printed(text, at):
    """The line that `show` prints for a text at an address."""
    def target(found):
        return f"{(at + int(found.group(1))) % 2**32:08x}"

    return re.sub(r"\.([+-]\d+)$", target, text)


def random_words(count, seed):
    """Words whose opcodes are mostly those of the table; opcodes 19 and 31 with any extended opcode."""
    rng = random.Random(seed)
    primary = [7, 8, 10, 11, 12, 13, 14, 15, 16, 18, 19, 20, 21] + list(range(24, 30)) + [31] * 20 + list(range(32, 46))
    known = [0x02A6, 0x03A6, 0x0026, 0x04AC, 0x06AC]
    made = 0
    while made < count:
        word = rng.choice(primary) << 26 | rng.getrandbits(26)
        if word >> 26 == 31 and rng.random() < 0.3:
            word = 31 << 26 | rng.choice([0, 8, 9, 1]) << 16 | rng.randrange(32) << 21 | rng.choice(known)
        if word >> 26 == 31 and rng.random() < 0.7:
            word &= ~1
        if word >> 26 == 16 and rng.random() < 0.8:
            word = word & ~0x03E00003 | rng.choice([12, 4, 16]) << 21
        if word >> 26 == 18 and rng.random() < 0.8:
            word &= ~2
        if word >> 26 in (10, 11) and rng.random() < 0.8:
            word &= ~0x00600000
        if not is_update_of_zero(word):
            made += 1
            yield word


def is_update_of_zero(word):
    """Whether a word is stwu or stwux with base 0, a form that the standard calls invalid and the table has."""
    stores = word >> 26 == 37 or (word >> 26 == 31 and word >> 1 & 0x3FF == 183)
    return stores and word >> 16 & 31 == 0


def is_reserved(word):
    """Whether a bit is set that the standard reserves and objdump passes over."""
    opcode, extended = word >> 26, word >> 1 & 0x3FF
    if opcode in (10, 11) or (opcode == 31 and extended in (0, 32)):
        return bool(word & 0x00400000)
    if opcode == 19 and extended in (16, 528):
        return bool(word & 0xF800)
    return opcode == 31 and extended == 598 and word != 0x7C0004AC


def bit_number(text):
    names = {"lt": 0, "gt": 1, "eq": 2, "so": 3}
    field, _, name = text.rpartition("+")
    if field:
        return str(4 * int(field.removeprefix("4*cr")) + names[name])
    return str(names[text])


def spelled(name, operands):
    """The table's spelling of what objdump read, or None where the table has no such instruction."""
    first = operands[0] if operands else ""
    if name in ("cmp", "cmpl", "cmpi", "cmpli"):
        words = {"cmp": "cmpw", "cmpl": "cmplw", "cmpi": "cmpwi", "cmpli": "cmplwi"}
        return None if operands[1] != "0" else (words[name], [first, *operands[2:]])
    if name in ("mfspr", "mtspr"):
        register = {"8": "lr", "9": "ctr"}.get(operands[1] if name == "mfspr" else first)
        return register and (name[:2] + register, [first if name == "mfspr" else operands[1]])
    if name == "bc" and operands[:2] == ["16", "0"]:
        return "bdnz", operands[2:]
    if name == "bc":
        return None if first not in ("12", "4") else (name, operands)
    fixed = {("sync", "0,0"): "sync", ("bclr", "20,0,0"): "blr", ("bcctr", "20,0,0"): "bctr", ("bcctrl", "20,0,0"): "bctrl",
             ("tw", "31,0,0"): "trap"}.get((name, ",".join(operands)))
    if fixed:
        return fixed, []
    if name == "mfcr":
        return None if operands[1:] != ["-1"] else (name, [first])
    return None if name not in MNEMONICS or name in ("sync", "trap") else (name, operands)


def read_by_objdump(line, word):
    """The text that `show` has to print for a line of `objdump -d -M raw`."""
    name, _, rest = line.partition(" ")
    rest = rest.split("<")[0].strip()
    if name.startswith(".") or is_reserved(word):
        return "?"
    rest = re.sub(r"^([^,]+),(-?\d+)\((\w+)\)$", r"\1,\2,\3", rest)
    operands = []
    for operand in filter(None, rest.split(",")):
        if operand in ("lt", "gt", "eq", "so") or operand.startswith("4*cr"):
            operands.append(bit_number(operand))
        else:
            operands.append(re.sub(r"^(cr|r)(?=\d)", "", operand))
    found = spelled(name, operands)
    if found is None:
        return "?"
    name, operands = found
    if name in ("b", "bl", "bc", "bdnz"):
        operands[-1] = f"{int(operands[-1], 16):08x}"
    return f"{name} {','.join(operands)}".strip()


def run(tool, *words):
    return subprocess.run([TOOLS[tool], *words], check=True, capture_output=True, text=True).stdout


def build(folder, lines):
    """The linked executable of the lines, and the words of its code."""
    source, thing, image = folder / "lines.s", folder / "lines.o", folder / "image.elf"
    source.write_text('.machine "any"\n.globl _start\n_start:\n' + "".join(lines))
    run("as", "-many", "-o", thing, source)
    run("ld", f"-Ttext={TEXT:#x}", "-o", image, thing)
    section = folder / "text"
    subprocess.run([TOOLS["objdump"].replace("objdump", "objcopy"), "-O", "binary", "-j", ".text", image, section], check=True)
    data = section.read_bytes()
    return image, struct.unpack(f">{len(data) // 4}I", data)


def objdump_lines(image):
    """What objdump reads at each address."""
    found = {}
    for line in run("objdump", "-d", "-M", "raw", "-z", image).splitlines():
        parts = line.split("\t")
        if len(parts) >= 3:
            found[int(parts[0].strip(" :"), 16)] = " ".join(parts[2].split())
    return found


def head_lines(image):
    """The lines before the words, from readelf."""
    text = run("readelf", "-hlsW", image)
    entry = re.search(r"Entry point address: *(0x[0-9a-f]+)", text).group(1)
    symbols = re.search(r"contains (\d+) entr", text).group(1)
    lines = [f"entry {int(entry, 16):08x}"]
    for address, held, size, flags in re.findall(r"^  LOAD +0x\w+ 0x(\w+) 0x\w+ 0x(\w+) 0x(\w+) (...) ", text, re.M):
        letters = "".join(want if letter in flags else "-" for letter, want in zip("RWE", "rwx"))
        if int(size, 16):
            lines.append(f"segment {address} {int(held, 16)} {int(size, 16)} {letters}")
    return lines + [f"symbols {symbols}"]


def due_lines(image, words, texts, others):
    """What `show` has to print."""
    lines = head_lines(image)
    read = objdump_lines(image)
    for i, word in enumerate(words):
        at = TEXT + 4 * i
        if i < len(texts):
            text = printed(texts[i], at)
        else:
            text = "?" if i < len(texts) + others else read_by_objdump(read[at], word)
        lines.append(f"{at:08x} {word:08x} {text}")
    return lines + [f"{TEXT + 4 * (len(words) + i):08x} none" for i in range(2)]


def main():
    parser = argparse.ArgumentParser(description="Compares what `valex show` prints with GNU binutils.")
    parser.add_argument("--program", type=pathlib.Path, default=PROGRAM, help="the built program")
    parser.add_argument("--random", type=int, default=60000, help="how many random words, at most 60000")
    parser.add_argument("--seed", type=int, default=1, help="of the random words")
    options = parser.parse_args()
    missing = [tool for tool in TOOLS.values() if shutil.which(tool) is None]
    if missing:
        print(f"compare_show_with_gnu: skipped, without {missing[0]}")
        return 0
    if not options.program.is_file():
        print("compare_show_with_gnu: skipped, the program is not built")
        return 0
    texts, others = list(table_texts()), [f"{line.strip()}\n" for line in OTHERS.split(";")]
    lines = [source_line(text) for text in texts] + others
    lines += [f".long {word:#x}\n" for word in random_words(options.random, options.seed)]
    with tempfile.TemporaryDirectory() as folder:
        image, words = build(pathlib.Path(folder), lines)
        due = due_lines(image, words, texts, len(others))
        command = [options.program.resolve(), "show", image, f"{TEXT:#x}", str(len(words) + 2)]
        answer = subprocess.run(command, capture_output=True, text=True)
    got = answer.stdout.splitlines()
    wrong = [i for i in range(max(len(due), len(got))) if due[i : i + 1] != got[i : i + 1]]
    for i in wrong[:10]:
        print(f"differs: line {i + 1}\n  GNU   {''.join(due[i : i + 1])}\n  valex {''.join(got[i : i + 1])}")
    print(f"compare_show_with_gnu: {len(texts)} lines of {len(MNEMONICS)} mnemonics, {len(words) - len(texts)} other words, "
          f"status {answer.returncode}, {len(wrong)} differ")
    return 1 if wrong or answer.returncode else 0


if __name__ == "__main__":
    sys.exit(main())
