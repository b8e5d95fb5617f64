#!/usr/bin/env python3
"""Compares the flat machine with qemu-ppc, instruction by instruction.

Makes random instructions of every class of the instruction table, each with random registers and memory; assembles
them into one static executable that runs each once and writes out what the processor holds then; runs it under
qemu-ppc, and the program step_states from the same states; compares the next address, the general registers, CR,
CTR, LR, the carry and the summary overflow of XER, and the memory.

Needs powerpc-linux-gnu-as, powerpc-linux-gnu-ld, qemu-ppc and the built crates/step_states (`rt run` there); without
one of them it says so and ends with 0. Ends with 1 where a state differs.

Left out, since the two differ by design or qemu can give no state: the overflow bit of XER, which the machine lacks
(no instruction of the table reads or writes it); divisions without a result, which the standard leaves undefined and
the machine refuses; trap, and accesses outside of the memory, which qemu answers by a signal; words that do not
decode, as branches with another BO than 4, 12 and 16.
"""
import argparse
import pathlib
import random
import shutil
import struct
import subprocess
import sys
import tempfile

ROOT = pathlib.Path(__file__).resolve().parent.parent
CRATE = ROOT / "crates" / "step_states"
PROGRAM = CRATE / "out" / "step_states"
AS, LD, QEMU = "powerpc-linux-gnu-as", "powerpc-linux-gnu-ld", "qemu-ppc"
CPU = "7447A"  # it has VRSAVE, which the harness needs as a place for r1

TEXT = 0x10000000
CASE = 512  # bytes of the code of a case
AT = 256  # where in it the instruction is
MEMORY = 0x7000  # below 0x8000, so that displacements on register 0 reach it
MEMORY_WORDS = 16
STATE_WORDS = 36 + MEMORY_WORDS  # r0 to r31, CR, CTR, LR, XER, memory
ANSWER_WORDS = 37 + MEMORY_WORDS  # the same and, last of all, the next address
EDGES = [0, 1, 2, 31, 32, 33, 63, 64, 0x7FFF, 0x8000, 0xFFFF, 0x10000, 0x7FFFFFFF, 0x80000000, 0x80000001, 0xFFFFFFFF, 0xFFFFFFFE]

ALU_IMM = ["mulli", "subfic", "addic", "addi", "addis"]
LOG_IMM = ["ori", "oris", "xori", "xoris", "andi.", "andis."]
ALU = ["subfc", "addc", "mulhwu", "subf", "mulhw", "subfe", "adde", "mullw", "add", "divwu", "divw"]
ALU2 = ["neg", "subfze", "addze"]
LOG = ["slw", "and", "andc", "nor", "eqv", "xor", "orc", "or", "nand", "srw", "sraw", "and."]
LOG2 = ["cntlzw", "extsh", "extsb"]
ROT = ["rlwimi", "rlwinm"]
WIDTHS = {"w": 4, "b": 1, "h": 2}
LOADS = ["lwz", "lbz", "lhz", "lha"]
STORES = ["stw", "stb", "sth", "stwu"]
INDEXED = ["lwzx", "lbzx", "lhzx", "lhax", "lwbrx", "lhbrx", "stwx", "stbx", "sthx", "stwbrx", "sthbrx", "stwux"]
CMP = ["cmpw", "cmplw"]
CMP_IMM = ["cmpwi", "cmplwi"]
CR_BIT = ["crxor", "creqv", "cror"]
MOVE = ["mflr", "mfctr", "mtlr", "mtctr", "mfcr"]
BAR = ["sync", "eieio", "isync"]
JUMP = ["b", "bl", "bdnz", "bc 12", "bc 4", "blr", "bctr", "bctrl"]


class State:
    """What the processor holds before an instruction."""

    def __init__(self, rng):
        self.gprs = [word(rng) for _ in range(32)]
        self.cr, self.ctr, self.lr = word(rng), word(rng), word(rng)
        self.xer = rng.choice([0, 0x20000000, 0x80000000, 0xA0000000])
        self.memory = [word(rng) for _ in range(MEMORY_WORDS)]

    def words(self):
        return self.gprs + [self.cr, self.ctr, self.lr, self.xer] + self.memory


def word(rng):
    if rng.random() < 0.4:
        return rng.choice(EDGES)
    return rng.getrandbits(32)


def register(rng):
    return rng.choice([0, 31, rng.randrange(32), rng.randrange(32)])


def signed(rng):
    return rng.choice([0, 1, -1, 32767, -32768, rng.randrange(-32768, 32768)])


def unsigned(rng):
    return rng.choice([0, 1, 0x7FFF, 0x8000, 0xFFFF, rng.randrange(65536)])


def alu_imm(rng, name, state, at):
    return f"{name} {register(rng)},{register(rng)},{signed(rng)}"


def log_imm(rng, name, state, at):
    return f"{name} {register(rng)},{register(rng)},{unsigned(rng)}"


def alu(rng, name, state, at):
    d, a, b = (register(rng) for _ in range(3))
    if name in ("divw", "divwu"):
        while state.gprs[b] == 0:
            state.gprs[b] = word(rng)
        if name == "divw" and state.gprs[a] == 0x80000000 and state.gprs[b] == 0xFFFFFFFF:
            state.gprs[a] = 0x80000000 if a == b else 0x80000001
    return f"{name} {d},{a},{b}"


def two(rng, name, state, at):
    return f"{name} {register(rng)},{register(rng)}"


def logical(rng, name, state, at):
    a, s, b = (register(rng) for _ in range(3))
    if name in ("slw", "srw", "sraw"):
        state.gprs[b] = rng.choice([rng.randrange(64), rng.getrandbits(32)])
    return f"{name} {a},{s},{b}"


def srawi(rng, name, state, at):
    return f"{name} {register(rng)},{register(rng)},{rng.randrange(32)}"


def rotate(rng, name, state, at):
    bits = ",".join(str(rng.randrange(32)) for _ in range(3))
    return f"{name} {register(rng)},{register(rng)},{bits}"


def width_of(name):
    return WIDTHS[name.removeprefix("l").removeprefix("st")[0]]


def access(rng, name, state, at):
    address = MEMORY + rng.randrange(4 * MEMORY_WORDS + 1 - width_of(name))
    d, a = register(rng), register(rng)
    if a == 0 and name == "stwu":
        a = 1
    if a == 0:
        return f"{name} {d},{address}(0)"
    offset = signed(rng)
    state.gprs[a] = (address - offset) % 2**32
    return f"{name} {d},{offset}({a})"


def indexed(rng, name, state, at):
    address = MEMORY + rng.randrange(4 * MEMORY_WORDS + 1 - width_of(name))
    d, a, b = (register(rng) for _ in range(3))
    if a == 0 and name == "stwux":
        a = 1
    if a == 0:
        state.gprs[b] = address
    elif a == b:
        address &= ~1
        if address + width_of(name) > MEMORY + 4 * MEMORY_WORDS:
            address -= 2
        state.gprs[a] = address // 2 + rng.choice([0, 0x80000000])
    else:
        state.gprs[a] = (address - state.gprs[b]) % 2**32
    return f"{name} {d},{a},{b}"


def compare(rng, name, state, at):
    a, b = register(rng), register(rng)
    if rng.random() < 0.2:
        state.gprs[b] = state.gprs[a]
    return f"{name} {rng.choice([0, 7, rng.randrange(8)])},{a},{b}"


def compare_imm(rng, name, state, at):
    a = register(rng)
    constant = signed(rng) if name == "cmpwi" else unsigned(rng)
    if rng.random() < 0.2:
        state.gprs[a] = constant % 2**32
    return f"{name} {rng.choice([0, 7, rng.randrange(8)])},{a},{constant}"


def cr_bit(rng, name, state, at):
    return f"{name} " + ",".join(str(rng.randrange(32)) for _ in range(3))


def move(rng, name, state, at):
    return f"{name} {register(rng)}"


def plain(rng, name, state, at):
    return name


def jump(rng, name, state, at):
    """Goes back by 256 bytes, to the next instruction or on by 128: the harness stops the processor at these."""
    to = rng.choice([-AT, 4, 128])
    if name == "blr":
        state.lr = at + to + rng.randrange(4)
        return name
    if name in ("bctr", "bctrl"):
        state.ctr = at + to + rng.randrange(4)
        return name
    if name.startswith("bc "):
        return f"{name},{rng.randrange(32)},.{to:+d}"
    if name == "bdnz":
        state.ctr = rng.choice([0, 1, 2, word(rng)])
    return f"{name} .{to:+d}"


CLASSES = [
    (ALU_IMM, alu_imm), (LOG_IMM, log_imm), (ALU, alu), (ALU2, two), (LOG, logical), (LOG2, two), (["srawi"], srawi),
    (ROT, rotate), (LOADS + STORES, access), (INDEXED, indexed), (CMP, compare), (CMP_IMM, compare_imm),
    (CR_BIT, cr_bit), (MOVE, move), (BAR, plain), (JUMP, jump),
]


def cases(count, seed):
    """Pairs of an instruction's text and the state before it: every mnemonic in turn."""
    rng = random.Random(seed)
    rows = [(name, make) for names, make in CLASSES for name in names]
    made = []
    for i in range(count):
        name, make = rows[i % len(rows)]
        state = State(rng)
        made.append((make(rng, name, state, TEXT + CASE * i + AT), state))
    return made


def landing(i, number):
    """Keeps r1 and r0, and goes on to what keeps the other registers."""
    return f"""mtspr 256,1
lis 1,(answers+{4 * ANSWER_WORDS * i})@h
ori 1,1,(answers+{4 * ANSWER_WORDS * i})@l
stw 0,0(1)
li 0,{number}
stw 0,{4 * (ANSWER_WORDS - 1)}(1)
lis 0,begin{i + 1}@h
ori 0,0,begin{i + 1}@l
b keep
"""


def case_text(i, text):
    lines = [f".balign {CASE}\n", landing(i, 1), f"begin{i}:\n"]
    lines.append(f"lis 1,(states+{4 * STATE_WORDS * i})@h\nori 1,1,(states+{4 * STATE_WORDS * i})@l\n")
    lines.append("bl put_memory\n")
    for place, put in ((32, "mtcr"), (33, "mtctr"), (34, "mtlr"), (35, "mtxer")):
        lines.append(f"lwz 0,{4 * place}(1)\n{put} 0\n")
    lines.append(f"lmw 2,8(1)\nlwz 0,0(1)\nlwz 1,4(1)\nb at{i}\n.balign {AT}\nat{i}:\n{text}\n")
    lines.append(landing(i, 2) + ".balign 128\n" + landing(i, 3))
    return "".join(lines)


def harness(made):
    """The text of the executable."""
    lines = ['.machine "any"\n.section .text,"ax"\n.globl _start\n']
    lines.extend(case_text(i, text) for i, (text, _) in enumerate(made))
    count = len(made)
    lines.append(f"begin{count}:\n_start_end:\nlis 30,answers@h\nori 30,30,answers@l\n")
    size = 4 * ANSWER_WORDS * count
    lines.append(f"lis 31,{size >> 16}\nori 31,31,{size & 0xffff}\n")
    lines.append("more: li 0,4\nli 3,1\nmr 4,30\nmr 5,31\nsc\ncmpwi 3,0\nble done\nadd 30,30,3\nsubf. 31,3,31\nbgt more\n")
    lines.append("done: li 0,1\nli 3,0\nsc\n_start: b begin0\n")
    lines.append("put_memory:\n")
    for k in range(MEMORY_WORDS):
        lines.append(f"lwz 0,{4 * (36 + k)}(1)\nstw 0,{MEMORY + 4 * k}(0)\n")
    lines.append("blr\nkeep:\nstmw 2,8(1)\nmr 31,0\nmfspr 0,256\nstw 0,4(1)\n")
    for place, get in ((32, "mfcr"), (33, "mfctr"), (34, "mflr"), (35, "mfxer")):
        lines.append(f"{get} 0\nstw 0,{4 * place}(1)\n")
    for k in range(MEMORY_WORDS):
        lines.append(f"lwz 0,{MEMORY + 4 * k}(0)\nstw 0,{4 * (36 + k)}(1)\n")
    lines.append("mtctr 31\nbctr\n")
    lines.append(f'.section .work,"aw"\n.space {4 * MEMORY_WORDS}\n.data\n.balign 4\nstates:\n')
    for _, state in made:
        lines.append(".long " + ",".join(map(str, state.words())) + "\n")
    lines.append(f".bss\n.balign 4\nanswers: .space {size}\n")
    return "".join(lines)


def run_qemu(made, folder):
    """The words of the instructions, and what qemu-ppc answers for each."""
    source, thing, image = folder / "cases.s", folder / "cases.o", folder / "cases"
    source.write_text(harness(made))
    subprocess.run([AS, "-mregnames", "-many", "-o", thing, source], check=True)
    places = [f"-Ttext={TEXT:#x}", f"--section-start=.work={MEMORY:#x}"]
    subprocess.run([LD, *places, "-o", image, thing], check=True)
    out = subprocess.run([QEMU, "-cpu", CPU, image], check=True, capture_output=True).stdout
    size = 4 * ANSWER_WORDS
    if len(out) != size * len(made):
        sys.exit(f"compare_with_qemu: qemu wrote {len(out)} bytes of {size * len(made)}")
    answers = [list(struct.unpack_from(f">{ANSWER_WORDS}I", out, size * i)) for i in range(len(made))]
    return code_words(image.read_bytes(), len(made)), answers


def code_words(image, count):
    """The word at the place of each instruction, read from the linked file (gABI, "Program Header")."""
    first, entries = struct.unpack_from(">I", image, 28)[0], struct.unpack_from(">H", image, 44)[0]
    for k in range(entries):
        offset, address = struct.unpack_from(">II", image, first + 32 * k + 4)
        if address <= TEXT < address + struct.unpack_from(">I", image, first + 32 * k + 16)[0]:
            start = offset + TEXT - address + AT
            return [struct.unpack_from(">I", image, start + CASE * i)[0] for i in range(count)]
    sys.exit("compare_with_qemu: no code in the linked file")


def prelude(state):
    """Words that set LR, r1, r2, r13 and r0, which the first state of the machine has of its own."""
    def set_register(r, value):
        return [0x3C000000 | r << 21 | value >> 16, 0x60000000 | r << 21 | r << 16 | value & 0xFFFF]

    code = set_register(0, state.lr) + [0x7C0803A6]
    for r in (1, 2, 13, 0):
        code += set_register(r, state.gprs[r])
    return code


def state_line(i, state, instruction):
    code = prelude(state) + [instruction]
    entry = TEXT + CASE * i + AT - 4 * (len(code) - 1)
    words = [len(code), entry, state.cr, state.ctr, state.xer] + state.gprs + state.memory + code
    return " ".join(f"{w:08x}" for w in words)


def answer_line(i, answer):
    at = TEXT + CASE * i + AT
    place = {1: at - AT, 2: at + 4, 3: at + 128}[answer[-1]]
    cr, ctr, lr, xer = answer[32:36]
    words = [place] + answer[:32] + [cr, ctr, lr, xer >> 29 & 1, xer >> 31] + answer[36:-1]
    return " ".join(f"{w:08x}" for w in words)


def differing(made, wanted, got):
    """Tells of the states that differ, the first ten at length."""
    wrong = [i for i in range(len(made)) if i >= len(got) or wanted[i] != got[i]]
    for i in wrong[:10]:
        print(f"differs: {made[i][0]}\n  before  {' '.join(f'{w:08x}' for w in made[i][1].words())}")
        print(f"  qemu    {wanted[i]}\n  machine {got[i] if i < len(got) else 'nothing'}")
    return len(wrong)


def main():
    parser = argparse.ArgumentParser(description="Compares the flat machine with qemu-ppc.")
    parser.add_argument("--count", type=int, default=2000, help="how many instructions")
    parser.add_argument("--seed", type=int, default=1, help="of the random numbers")
    parser.add_argument("--write", action="store_true", help="write crates/step_states/stdin and stdout from qemu's answers")
    parser.add_argument("--program", type=pathlib.Path, default=PROGRAM, help="the built program")
    options = parser.parse_args()
    missing = [tool for tool in (AS, LD, QEMU) if shutil.which(tool) is None]
    if missing:
        print(f"compare_with_qemu: skipped, without {missing[0]}")
        return 0
    if not options.program.is_file() and not options.write:
        print("compare_with_qemu: skipped, crates/step_states is not built")
        return 0
    made = cases(options.count, options.seed)
    with tempfile.TemporaryDirectory() as folder:
        words, answers = run_qemu(made, pathlib.Path(folder))
    lines = [state_line(i, state, words[i]) for i, (_, state) in enumerate(made)]
    wanted = [answer_line(i, answer) for i, answer in enumerate(answers)]
    if options.write:
        (CRATE / "stdin").write_text("\n".join(lines) + "\n")
        (CRATE / "stdout").write_text("\n".join(wanted) + "\n")
        print(f"compare_with_qemu: {len(made)} states written")
        return 0
    run = subprocess.run([options.program], input="\n".join(lines) + "\n", text=True, capture_output=True)
    wrong = differing(made, wanted, run.stdout.splitlines())
    print(f"compare_with_qemu: {len(made)} instructions, {wrong} differ")
    return 1 if wrong else 0


if __name__ == "__main__":
    sys.exit(main())
