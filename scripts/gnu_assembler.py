"""The GNU assembler for RISC-V, of the package binutils-riscv64-unknown-elf, for the other scripts."""

import os
import shutil
import struct
import subprocess
import sys

PACKAGE = "binutils-riscv64-unknown-elf"


def tool(name):
    """The path of a tool of the package. Where it isn't installed, this says so and ends."""
    program = f"riscv64-unknown-elf-{name}"
    path = shutil.which(program)
    if path is None:
        sys.exit(f"{program} is not installed: it is in Debian's package {PACKAGE}")
    return path


def run(name, arguments):
    """Runs a tool of the package. Where it fails, this says so and ends."""
    done = subprocess.run([tool(name), *arguments])
    if done.returncode != 0:
        sys.exit(f"{name}: status {done.returncode}")


def assemble(folder, lines):
    """The word of each line, made by files in a folder."""
    source, made, raw = (os.path.join(folder, name) for name in ("lines.s", "lines.o", "lines.bin"))
    with open(source, "w") as file:
        file.write("".join(f"    {line}\n" for line in lines))
    run("as", ["-march=rv32im", "-mabi=ilp32", "-o", made, source])
    run("objcopy", ["-O", "binary", "-j", ".text", made, raw])
    with open(raw, "rb") as file:
        words = [word for (word,) in struct.iter_unpack("<I", file.read())]
    if len(words) != len(lines):
        sys.exit(f"as: {len(words)} words of {len(lines)} lines")
    return words
