#!/usr/bin/env python3
"""Compares how crates/nx_words reads and writes instruction words with GNU binutils for RISC-V.

Run it as `python3 scripts/compare_words.py`, from any folder. It wants `rt` in the path and
Debian's package binutils-riscv64-unknown-elf. It proves and builds nx_words where that is not done yet.

Random words, words of every opcode, funct3 and funct7, and assembled instructions with extreme and
middle fields go through nx_words in one run. Of each word it wants the instruction and the fields
that objdump prints, or `none` where objdump prints no instruction of RV32I 2.1 or M 2.0, and the
word itself as the encoding; of each assembled instruction the fields that were given to as. In two
points the base instruction set decides and not objdump: a word of opcode 0x0F with funct3 0 is a
FENCE, whatever its other fields, and a shift by 32 or more is no instruction.
It prints what was compared and what differs, and exits with 1 if anything does.
"""

import itertools
import os
import random
import re
import shutil
import struct
import subprocess
import sys
import tempfile

from gnu_assembler import assemble, tool

PROGRAM = os.path.join(os.path.dirname(os.path.abspath(__file__)), "..", "crates", "nx_words")
SEED = 20191213
RANDOM_WORDS = 150_000
SHOWN = 20

# The operands of each mnemonic, as as reads and objdump prints them.
OPERANDS = {
    "lui auipc": "x{rd},{upper}",
    "jal": "x{rd},{target}",
    "jalr lb lh lw lbu lhu": "x{rd},{imm}(x{rs1})",
    "beq bne blt bge bltu bgeu": "x{rs1},x{rs2},{target}",
    "sb sh sw": "x{rs2},{imm}(x{rs1})",
    "addi slti sltiu xori ori andi": "x{rd},x{rs1},{imm}",
    "slli srli srai": "x{rd},x{rs1},{shift}",
    "add sub sll slt sltu xor srl sra or and": "x{rd},x{rs1},x{rs2}",
    "mul mulh mulhsu mulhu div divu rem remu": "x{rd},x{rs1},x{rs2}",
    "ecall ebreak": "",
}
OPERANDS = {name: form for names, form in OPERANDS.items() for name in names.split()}

REGISTERS = (0, 1, 15, 16, 31)
VALUES = {
    "rd": REGISTERS,
    "rs1": REGISTERS,
    "rs2": REGISTERS,
    "imm": (-2048, -1366, -1, 0, 1, 1365, 2047),
    "shift": (0, 1, 15, 16, 31),
    "upper": (0, 1, 0x5A5A5, 0x7FFFF, 0x80000, 0xA5A5A, 0xFFFFF),
}
BRANCHES = (-4096, -2732, -2048, -2, 0, 2, 1364, 2046, 2048, 4094)
JUMPS = (-1048576, -699052, -4096, -2048, -2, 0, 2, 2046, 2048, 4096, 699050, 1048574)
FENCE_BITS = "iorw"

# objdump takes each word from a slot of its own, with NOPs after it: an instruction of up to 22
# bytes, begun at either half of the word, ends there, and the next slot begins one again.
SLOT = 32
NOP = 0x00000013


def listing(name, fields):
    """The line of nx_words for an instruction, without its words."""
    order = ("rd", "rs1", "rs2", "imm", "offset")
    return " ".join([name] + [f"{key}={fields[key]}" for key in order if key in fields])


def signed(value, bits):
    value %= 1 << bits
    return value - (1 << bits) if value >> (bits - 1) else value


def assembler_lines():
    """Pairs of a line for as and what nx_words has to say of its word."""
    lines = [("fence.tso", "fence rd=0 rs1=0 imm=-1997")]
    sets = ["".join(s) for n in range(1, 5) for s in itertools.combinations(FENCE_BITS, n)]
    bits = {s: sum(8 >> FENCE_BITS.index(c) for c in s) for s in sets}
    for before, after in itertools.product(sets, sets):
        imm = 16 * bits[before] + bits[after]
        lines.append((f"fence {before},{after}", listing("fence", {"rd": 0, "rs1": 0, "imm": imm})))
    for name, form in OPERANDS.items():
        keys = re.findall(r"{(\w+)}", form)
        values = dict(VALUES, target=JUMPS if name == "jal" else BRANCHES)
        for chosen in itertools.product(*(values[key] for key in keys)):
            fields = dict(zip(keys, chosen))
            text = form.format(**dict(fields, target=f".{fields.get('target', 0):+}"))
            if "upper" in fields:
                fields["imm"] = fields["upper"] << 12
            if "shift" in fields:
                fields["imm"] = fields["shift"]
            if "target" in fields:
                fields["offset"] = fields["target"]
            lines.append((f"{name} {text}".strip(), listing(name, fields)))
    return lines


def chosen_words():
    """Random words, and words of each opcode, funct3 and funct7."""
    source = random.Random(SEED)
    words = [source.getrandbits(32) | 3 for _ in range(RANDOM_WORDS * 4 // 5)]
    words += [source.getrandbits(32) for _ in range(RANDOM_WORDS // 5)]
    for opcode, funct3, funct7 in itertools.product(range(3, 128, 4), range(8), range(128)):
        word = opcode | funct3 << 12 | funct7 << 25
        words += [word, word | source.getrandbits(32) & 0x01FF8F80]
    words += [0x73 | n << 20 for n in range(4096)]
    return words


def disassemble(folder, words):
    """What nx_words has to say of each word, by objdump."""
    raw = os.path.join(folder, "words.bin")
    with open(raw, "wb") as file:
        nops = struct.pack("<I", NOP) * (SLOT // 4 - 1)
        file.write(b"".join(struct.pack("<I", word) + nops for word in words))
    command = [tool("objdump"), "-D", "-z", "-b", "binary", "-m", "riscv:rv32"]
    command += ["-M", "no-aliases,numeric", raw]
    forms = {
        name: re.compile(re.sub(r"\\{(\w+)\\}", r"(?P<\1>[-\\w]+)", re.escape(form)))
        for name, form in OPERANDS.items()
    }
    found = {}
    with subprocess.Popen(command, stdout=subprocess.PIPE, text=True) as process:
        for line in process.stdout:
            address, colon, rest = line.partition(":\t")
            if not colon or int(address, 16) % SLOT != 0:
                continue
            at = int(address, 16) // SLOT
            name, _, operands = rest.partition("\t")[2].partition("#")[0].strip().partition("\t")
            found[at] = meaning(words[at], forms, name, operands, at * SLOT)
    if process.returncode != 0 or len(found) != len(words):
        sys.exit(f"objdump: status {process.returncode}, {len(found)} of {len(words)} words")
    return [found[at] for at in range(len(words))]


def meaning(word, forms, name, operands, address):
    if word & 0x707F == 0x0F:
        fields = {"rd": word >> 7 & 31, "rs1": word >> 15 & 31, "imm": signed(word >> 20, 12)}
        return listing("fence", fields)
    if name not in forms:
        return "none"
    match = forms[name].fullmatch(operands.strip())
    if match is None:
        sys.exit(f"objdump: cannot read {name} {operands}")
    fields = {key: int(value, 0) for key, value in match.groupdict().items()}
    if fields.get("shift", 0) >= 32:
        return "none"
    if "shift" in fields:
        fields["imm"] = fields["shift"]
    if "upper" in fields:
        fields["imm"] = fields["upper"] << 12
    if "target" in fields:
        fields["offset"] = signed(fields["target"] - address, 32)
    return listing(name, fields)


def run_program(folder, words):
    """What nx_words prints of each word."""
    text = os.path.join(folder, "words.txt")
    with open(text, "w") as file:
        file.write("".join(f"{word:08x}\n" for word in words))
    with open(text) as file:
        done = subprocess.run(["rt", "run"], cwd=PROGRAM, stdin=file, stdout=subprocess.PIPE, text=True)
    lines = done.stdout.splitlines()
    if done.returncode != 0 or len(lines) != len(words):
        sys.exit(f"nx_words: status {done.returncode}, {len(lines)} of {len(words)} lines")
    return lines


def differences(title, words, wanted, printed):
    """Prints how many words were compared and differ, with the first ones, and counts these."""
    wrong = 0
    for word, want, line in zip(words, wanted, printed):
        expected = f"{word:08x} {want}" + ("" if want == "none" else f" {word:08x}")
        if line != expected:
            wrong += 1
            if wrong <= SHOWN:
                print(f"  nx_words: {line}\n  wanted:   {expected}")
    instructions = sum(want != "none" for want in wanted)
    print(f"{title}: {len(words)} words, {instructions} of them instructions, {wrong} differences")
    return wrong


def main():
    if shutil.which("rt") is None:
        sys.exit("rt is not installed: it is in the Rattle kit, and in no package of Debian")
    with tempfile.TemporaryDirectory() as folder:
        lines = assembler_lines()
        assembled = assemble(folder, [line for line, _ in lines])
        if len(assembled) != len(lines):
            sys.exit(f"as: {len(assembled)} words of {len(lines)} lines")
        words = assembled + chosen_words()
        printed = run_program(folder, words)
        wrong = differences("as", assembled, [want for _, want in lines], printed)
        wrong += differences("objdump", words, disassemble(folder, words), printed)
    sys.exit(1 if wrong else 0)


if __name__ == "__main__":
    main()
