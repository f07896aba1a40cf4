#!/usr/bin/env python3
"""Lists the gates of a call table by the rules of docs/CALLS.md, without the project's crates.

    python3 scripts/list_gates.py TABLE                     prints the listing
    python3 scripts/list_gates.py --compare CONFIG TABLE    compares it with `./nxsim gates`

It wants Debian's package binutils-riscv64-unknown-elf. Python's csv module reads the rows, whose
conditions must be empty, and the GNU assembler makes the words of the proxies. Which rows `nxsim`
refuses is not its subject: it stops at a row that it can't list, and lists others as they stand.
With `--compare` it prints that nothing differs, or the first line that does and exits with 1.
"""

import csv
import itertools
import os
import re
import subprocess
import sys
import tempfile

from gnu_assembler import assemble

NXSIM = os.path.join(os.path.dirname(os.path.abspath(__file__)), "..", "nxsim")
FIRST_NUMBER = 16
MOST_PARAMETERS = 6
BLANKS = " \t\r"

# The calls that the kernel has.
CALLS = set(
    """
    write read open close lseek dup dup2 unlink mkdir rmdir rename chdir nx_getcwd nx_readdir nx_kind
    nx_spawn _exit getpid waitpid nx_argc nx_arg nx_setpriority sched_yield nx_ps
    nx_thread nx_thread_exit nx_join
    nx_mq_open mq_close mq_unlink mq_send mq_receive nx_mq_timedreceive
    nx_sem_open nx_sem_wait nx_sem_trywait nx_sem_post nx_sem_close nx_sleep nx_ticks
    nx_getenv setenv unsetenv nx_env get_errno
    """.split()
)

BEFORE_SIZE = {"const char *": "in", "const void *": "in", "char *": "out", "void *": "out"}
ALONE = {"const char *": "text", "int *": "out4", "unsigned int *": "out4"}
TWO_WORDS = "int [2]|int *"


def single(field):
    """A type without FAR, and with single blanks and none around a bar."""
    parts = re.sub(r"\bFAR\b", "", field, flags=re.ASCII).split("|")
    return "|".join(re.sub(f"[{BLANKS}]+", " ", part).strip(" ") for part in parts)


def kinds_by_types(types):
    """The kinds of a kernel call's parameters; None stands for a type that has none."""
    actual = [text.split("|")[-1] for text in types]
    kinds = []
    for at, text in enumerate(actual):
        if types[at] == TWO_WORDS:
            kinds.append("out8")
        elif text in BEFORE_SIZE and actual[at + 1 : at + 2] == ["size_t"]:
            kinds.append(BEFORE_SIZE[text])
        elif text == "size_t" and kinds[-1:] in (["in"], ["out"]):
            kinds.append("len")
        elif text in ALONE:
            kinds.append(ALONE[text])
        else:
            kinds.append(None if "*" in text else "word")
    return kinds


def read_rows(table):
    """Pairs of a row's name and its kinds."""
    rows = []
    with open(table, encoding="latin-1", newline="") as file:
        records = [[field.strip(BLANKS) for field in record] for record in csv.reader(file) if record]
    for record, fields in enumerate(records, 1):
        if len(fields) < 4:
            sys.exit(f"{table}:{record}: few fields")
        name, _, condition, _ = fields[:4]
        types = [single(field) for field in fields[4:] if field != "..."]
        if condition:
            sys.exit(f"{table}:{record}: a condition")
        if len(types) > MOST_PARAMETERS:
            sys.exit(f"{table}:{record}: too many parameters")
        kinds = kinds_by_types(types) if name in CALLS else ["word"] * len(types)
        if None in kinds:
            sys.exit(f"{table}:{record}: no kind for {types[kinds.index(None)]}")
        rows.append((name, kinds))
    return rows


def proxy(number, count):
    """The assembler's lines for the proxy of a call with `count` parameters."""
    moves = [f"addi a{at + 1}, a{at}, 0" for at in reversed(range(count))]
    return moves + [f"addi a0, x0, {number}", "ecall", "jalr x0, ra, 0"]


def listing(table):
    """The lines of the listing."""
    rows = read_rows(table)
    proxies = [proxy(FIRST_NUMBER + place, len(kinds)) for place, (_, kinds) in enumerate(rows)]
    with tempfile.TemporaryDirectory() as folder:
        words = iter(assemble(folder, [line for lines in proxies for line in lines]))
    lines = []
    for place, (name, kinds) in enumerate(rows):
        digits = [f"{next(words):08x}" for _ in proxies[place]]
        lines.append(" ".join([str(FIRST_NUMBER + place), name, *kinds, *digits]))
    return lines


def compare(config, table):
    """Compares the listing with what nxsim prints, and says whether they are the same."""
    wanted = [line.encode() + b"\n" for line in listing(table)]
    done = subprocess.run([NXSIM, "gates", config, table], stdout=subprocess.PIPE)
    printed = done.stdout.splitlines(keepends=True)
    if done.returncode == 0 and printed == wanted:
        print(f"{len(wanted)} lines, no difference")
        return True
    print(f"nxsim: status {done.returncode}, {len(printed)} lines of {len(wanted)}")
    for line, (one, other) in enumerate(itertools.zip_longest(printed, wanted), 1):
        if one != other:
            print(f"line {line}\n  nxsim:  {one}\n  wanted: {other}")
            break
    return False


def main():
    words = sys.argv[1:]
    if len(words) == 3 and words[0] == "--compare":
        sys.exit(0 if compare(words[1], words[2]) else 1)
    if len(words) != 1 or words[0].startswith("--"):
        sys.exit("usage: list_gates.py TABLE, or list_gates.py --compare CONFIG TABLE")
    for line in listing(words[0]):
        print(line)


if __name__ == "__main__":
    main()
