#!/usr/bin/env python3
"""Compares crates/nx_protection, and so nx_pmp and nx_sv32, with a second reading of the manual.

Run it as `python3 scripts/check_protection.py`, from any folder. It wants `rt` in the path, and
proves and builds nx_protection where that is not done yet.

It draws PMP entries and accesses near their borders, and page tables of random entries in RAMs of
several sizes with addresses that meet them, from one seed. Of each access it wants the answer of
`protects`, of each walk that of `translates`, which follow the text of the RISC-V Privileged
Architecture 1.12, sections 3.7.1 and 4.3.2, and share no code with the crates. In one point the
project decides and not the manual: a pointer entry with U, A or D set faults.
It prints what was compared and what differs, and exits with 1 if anything does.
"""

import collections
import os
import random
import subprocess
import sys
import tempfile

PROGRAM = os.path.join(os.path.dirname(os.path.abspath(__file__)), "..", "crates", "nx_protection")
SEED = 20211203
SETTINGS = 6000
TABLES = 1500
SHOWN = 20

RAM_START = 0x80000000
ACCESSES = ("fetch", "load", "store")
V, R, W, X, U, G, A, D = (1 << bit for bit in range(8))


# ---- PMP, section 3.7.1


def addresses(entries, number):
    """The addresses that an entry matches, as a range."""
    cfg, addr = entries[number]
    kind = format(cfg, "08b")[3:5]
    if kind == "00":
        return range(0)
    if kind == "01":
        bottom = entries[number - 1][1] if number else 0
        return range(bottom << 2, addr << 2)
    if kind == "10":
        return range(addr << 2, (addr << 2) + 4)
    # yyyy...y0 has 8 bytes, yyyy..y01 has 16, and so on: the y are the address's high bits.
    digits = format(addr, "032b")
    high = digits.rstrip("1")[:-1]
    free = 34 - len(high)
    base = int(high, 2) if high else 0
    return range(base << free, (base + 1) << free)


def protects(entries, at, length, access, mode):
    """Whether an access is allowed."""
    for number, (cfg, _) in enumerate(entries):
        covered = addresses(entries, number)
        matches = [byte in covered for byte in range(at, at + length)]
        if any(matches):
            locked = cfg >> 7
            permitted = cfg >> {"load": 0, "store": 1, "fetch": 2}[access] & 1
            return all(matches) and bool(permitted or (mode == "machine" and not locked))
    return mode == "machine"


def random_entry(source):
    cfg = source.choice((0x00, 0x08, 0x10, 0x18, 0x18)) | source.getrandbits(3)
    cfg |= 0x80 if source.random() < 0.3 else 0
    cfg |= source.choice((0, 0, 0, 0x20, 0x40, 0x60))
    near = source.choice((0x20000000, 0x20000010, 0x20000400, 0, 0x3FFFFFFC, 0x40000000))
    addr = near + source.randrange(24)
    ones = source.randrange(34)
    style = source.random()
    if style < 0.4:
        addr = addr >> ones << ones | (1 << ones) - 1
    elif style < 0.5:
        addr = source.getrandbits(32)
    return cfg, addr & 0xFFFFFFFF


def protection_cases(source):
    """Pairs of request lines, and what is wanted of each (None where nothing is printed)."""
    entries = [(0, 0)] * 16
    for _ in range(SETTINGS):
        for _ in range(source.randrange(1, 4)):
            place = source.choice((0, 0, 1, 1, 2, 3, 8, 14, 15))
            entries[place] = random_entry(source) if source.random() < 0.8 else (0, 0)
            yield "entry {} {} {}".format(place, *entries[place]), None
        borders = [border for n in range(16) for border in (addresses(entries, n)[:1] or [0])]
        borders += [addresses(entries, n).stop for n in range(16)]
        for _ in range(4):
            length = source.choice((1, 2, 3, 4, 4))
            at = source.choice(borders) + source.randrange(-6, 6)
            if source.random() < 0.1:
                at = source.getrandbits(32)
            if 0 <= at <= (1 << 32) - length:
                access = source.choice(ACCESSES)
                mode = source.choice(("user", "user", "machine"))
                wanted = protects(entries, at, length, access, mode)
                yield f"allows {at} {length} {access} {mode}", "yes" if wanted else "no"


# ---- Sv32, section 4.3.2


def translates(ram, size, satp, at, access):
    """The physical address, or None where there is a page fault."""
    if satp >> 31 == 0:
        return at
    numbers = {1: at >> 22, 0: at >> 12 & 0x3FF}
    table = (satp & 0x3FFFFF) << 12
    for level in (1, 0):
        if not (RAM_START <= table and table + 4096 <= RAM_START + size):
            return None
        entry = ram.get(table - RAM_START + 4 * numbers[level], 0)
        page = entry >> 10
        if not entry & V or (entry & W and not entry & R):
            return None
        if entry & (R | X):
            break
        if entry & (U | A | D):
            return None
        table = page << 12
    else:
        return None
    if not entry & U or not entry & A or not entry & {"fetch": X, "load": R, "store": W}[access]:
        return None
    if access == "store" and not entry & D:
        return None
    if level == 1:
        if page & 0x3FF:
            return None
        page |= numbers[0]
    to = page << 12 | at & 0xFFF
    return to if RAM_START <= to < RAM_START + size else None


def random_page(source, size):
    pages = max(size >> 12, 1)
    page = 0x80000 + source.randrange(pages)
    other = (0x80000 + pages, 0x7FFFF, 0x7FC00, 0x80400, 0x180000, 0x3FFFFF, source.getrandbits(22))
    return source.choice(other) if source.random() < 0.1 else page


def random_entry_of_table(source, size, level):
    page = random_page(source, size)
    style = source.random()
    if style < 0.1:
        bits = source.getrandbits(8)
    elif level == 1 and style < 0.7:
        bits = V
    else:
        bits = V | R | W | X | U | A | D
        if level == 1 and source.random() < 0.8:
            page = 0x80000
    if source.random() < 0.3:
        bits ^= 1 << source.randrange(8)
    return page << 10 | source.getrandbits(2) << 8 | bits


def walk_cases(source):
    """Pairs of request lines, and what is wanted of each (None where nothing is printed)."""
    for _ in range(TABLES):
        size = source.choice((0x1000, 0x2000, 0x3000, 0x4000, 0x4000, 0x4000, 0x3C00, 0x3FFC, 0x5))
        yield f"memory {size}", None
        ram = {}
        numbers = {1: [source.randrange(1024) for _ in range(3)]}
        numbers[0] = [source.randrange(4) for _ in range(2)] + [source.randrange(1024)]
        for page, level in ((page, level) for page in range(4) for level in (1, 0)):
            for number in numbers[level]:
                place = 4096 * page + 4 * number
                if place + 4 <= size and source.random() < 0.9:
                    ram[place] = random_entry_of_table(source, size, level)
                    yield f"word {place} {ram[place]}", None
        for _ in range(12):
            satp = source.getrandbits(9) << 22 | random_page(source, size)
            satp |= 1 << 31 if source.random() < 0.95 else 0
            at = source.choice(numbers[1]) << 22 | source.choice(numbers[0]) << 12
            at |= source.getrandbits(12)
            access = source.choice(ACCESSES)
            wanted = translates(ram, size, satp, at, access)
            yield f"walk {satp} {at} {access}", "fault" if wanted is None else str(wanted)


# ---- the comparison


def run_program(folder, lines):
    """What nx_protection prints."""
    text = os.path.join(folder, "requests.txt")
    with open(text, "w") as file:
        file.writelines(line + "\n" for line in lines)
    with open(text) as file:
        done = subprocess.run(["rt", "run"], cwd=PROGRAM, stdin=file, stdout=subprocess.PIPE, text=True)
    if done.returncode != 0:
        sys.exit(f"nx_protection: status {done.returncode}")
    return done.stdout.splitlines()


def compare(folder, title, cases):
    """Prints how many answers were compared and differ, with the first ones, and counts these."""
    printed = run_program(folder, [line for line, _ in cases])
    asked = [(line, want) for line, want in cases if want is not None]
    if len(printed) != len(asked):
        sys.exit(f"nx_protection: {len(printed)} of {len(asked)} answers")
    wrong = [(line, want, got) for (line, want), got in zip(asked, printed) if want != got]
    for line, want, got in wrong[:SHOWN]:
        print(f"  {line}: nx_protection {got}, wanted {want}")
    kinds = collections.Counter(want if not want.isdigit() else "translated" for _, want in asked)
    counts = ", ".join(f"{count} {kind}" for kind, count in sorted(kinds.items()))
    print(f"{title}: {len(asked)} answers ({counts}), {len(wrong)} differences")
    return len(wrong)


def main():
    source = random.Random(SEED)
    with tempfile.TemporaryDirectory() as folder:
        wrong = compare(folder, "PMP", list(protection_cases(source)))
        wrong += compare(folder, "Sv32", list(walk_cases(source)))
    sys.exit(1 if wrong else 0)


if __name__ == "__main__":
    main()
