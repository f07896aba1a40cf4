#!/usr/bin/env python3
"""Compares the calls that C programs make by docs/C.md with those that they make compiled by gcc.

Run it as `python3 scripts/compare_runs.py [COUNT]`, from any folder. It wants gcc, and `rt` in the
path, and proves and builds crates/nx_traces where that is not done yet. With NXSIM_TRY=1 it runs
the unproved build.

It makes COUNT programs (1,000 if left out) without undefined behaviour and without an order of
evaluation that C leaves open: divisors and lengths are positive, indexes lie in their arrays, loops
are counted, what has an effect stands alone in its expression, and numbers that C gives another
type than int are cast to it. The set is the same in each run,
since the seed is fixed. Each runs as a thread of nx_traces, and natively with a small runtime that
prints each call and makes up its reply by the rule of crates/nx_traces/src/replies.rt. Both must
print the same calls, with the same words and bytes, and end with the same number.

What C leaves to the implementation is chosen as docs/C.md has it: gcc gets -fwrapv,
-funsigned-char, and -ftrivial-auto-var-init=zero, since locals start as 0.
"""

import concurrent.futures
import csv
import os
import random
import shutil
import subprocess
import sys
import tempfile

ROOT = os.path.join(os.path.dirname(os.path.abspath(__file__)), "..")
PROGRAM = os.path.join(ROOT, "crates", "nx_traces")
TABLE = os.path.join(ROOT, "examples", "syscall.csv")
SEED = 2048
COUNT = 1000
SHOWN = 5
GCC = "gcc -std=gnu11 -O0 -w -fwrapv -fno-strict-aliasing -funsigned-char -ftrivial-auto-var-init=zero -fno-builtin"

RUNTIME = """#include <stdio.h>
#include <stdlib.h>
#include <string.h>
static unsigned turn;
static void put_word(unsigned word) { printf(" %u", word); }
static void put_bytes(const void *at, unsigned length) {
  const unsigned char *bytes = at;
  printf(" [");
  for (unsigned i = 0; i < length && i < 4096; i++) printf("%02x", bytes[i]);
  printf("]");
}
static void fill(void *at, unsigned length) {
  unsigned char *bytes = at;
  for (unsigned i = 0; i < length && i < 4096; i++) bytes[i] = turn + i;
}
static int reply(void) {
  int value = (int)(turn % 1000 * 37 % 101) - 50;
  turn++;
  printf("\\n");
  return value;
}
int program_main(void);
int main(void) {
  int value = program_main();
  printf("ends %d\\n", value);
  return 0;
}
"""


def kind_of(types, place):
    """How a parameter is printed and filled, by its type and the next one's."""
    own, then = types[place], types[place + 1] if place + 1 < len(types) else ""
    if own in ("const void *", "const char *"):
        return "in" if then == "size_t" else "text"
    if own in ("void *", "char *"):
        return "out"
    if own in ("int *", "unsigned int *"):
        return "out4"
    return "word"


def call_of(name, types, gives):
    """The function of the runtime for a row of the call table."""
    kinds = [kind_of(types, place) for place in range(len(types))]
    head = ", ".join(("int p%d" if kind == "word" else "void *p%d") % place for place, kind in enumerate(kinds))
    body = [f'printf("{name}");']
    for place in range(6):
        body.append(f"put_word({f'p{place}' if place < len(kinds) and kinds[place] == 'word' else '0'});")
    for place, kind in enumerate(kinds):
        if kind in ("in", "text"):
            length = f"p{place + 1}" if kind == "in" else f"strlen(p{place})"
            body.append(f"put_bytes(p{place}, {length});")
    for place, kind in enumerate(kinds):
        if kind in ("out", "out4"):
            body.append(f"fill(p{place}, {f'p{place + 1}' if kind == 'out' else '4'});")
    body.append("return reply();" if gives else "reply();")
    return f"{'int' if gives else 'void'} called_{name}({head or 'void'}) {{ {' '.join(body)} }}"


def runtime():
    """The runtime, and what makes the program's calls its functions."""
    functions, names = [], ["#define main program_main"]
    with open(TABLE, newline="") as file:
        for name, _, _, result, *types in csv.reader(file):
            if name in ("nx_thread", "_exit", "nx_thread_exit"):
                continue
            functions.append(call_of(name, types, result != "void"))
            names.append(f"#define {name}(...) called_{name}(__VA_ARGS__)")
    return "\n".join([RUNTIME, *functions, *names]) + "\n"


class Maker:
    """Makes the text of a program. An expression is without effect; what has one is a statement."""

    def __init__(self, seed):
        self.random = random.Random(seed)
        self.names = 0
        self.functions = []
        self.numbers = []
        self.arrays = []
        self.pointers = []
        self.loops = 0

    def name(self, letter):
        self.names += 1
        return f"{letter}{self.names}"

    def chance(self, part):
        return self.random.random() < part

    def any(self, *choices):
        return self.random.choice(choices)

    def number(self):
        return self.any("0", "1", "2", "7", "31", "100", "255", "256", "65535", "0x7FFFFFFF", "(int)0x80000000", "(int)4294967295", "'a'", "-1")

    def place(self):
        """An element: arrays have eight, and a pointer points at one of the first four."""
        if self.pointers and self.chance(0.3):
            pointer = self.any(*self.pointers)
            return f"*{pointer}" if self.chance(0.4) else f"{pointer}[{self.value(1)} & 3]"
        return f"{self.any(*self.arrays)}[{self.value(1)} & 7]"

    def value(self, depth):
        pick = self.random.random()
        if depth <= 0 or pick < 0.15:
            return self.number() if self.chance(0.4) else self.any(*self.numbers)
        one, other = self.value(depth - 1), self.value(depth - 1)
        if pick < 0.45:
            return f"({one} {self.any('+', '-', '*', '&', '|', '^')} {other})"
        if pick < 0.55:
            # gcc makes x / -y of -(x / y), which traps for -2147483648 and 1.
            return f"(({one} >> 1) {self.any('/', '%')} (({other} & 255) + 1))"
        if pick < 0.62:
            return f"({one} {self.any('<<', '>>')} ({other} & 31))"
        if pick < 0.72:
            return f"({one} {self.any('<', '<=', '>', '>=', '==', '!=')} {other})"
        if pick < 0.78:
            return f"({one} {self.any('&&', '||')} {other})"
        if pick < 0.83:
            return f"({one} ? {other} : {self.value(depth - 1)})"
        if pick < 0.89:
            return f"{self.any('-', '~', '!')}({one})"
        if pick < 0.92:
            return f"({self.any('int', 'char')})({one})"
        if pick < 0.94:
            return f"(int)sizeof({self.any('int', 'char', *self.arrays, *self.numbers)})"
        return f"({self.place()})"

    def call(self):
        """A call, with its arguments."""
        if self.functions and self.chance(0.4):
            name, count = self.any(*self.functions)
            return f"{name}({', '.join(self.value(2) for _ in range(count))})"
        whole = self.any(*self.arrays)
        length = f"({self.value(1)} & 7)"
        return self.any(
            f"write({self.value(1)}, {whole}, {length})",
            f"read({self.value(1)}, {whole}, {length})",
            f'write(1, "text\\n", {length} % 6)',
            'unlink("path")',
            f'setenv("name", "value", {self.value(2)})',
            f"close({self.value(2)})",
            f"lseek({self.value(2)}, {self.value(2)}, {self.value(2)})",
            f"waitpid({self.value(1)}, status, {self.value(1)})",
            f"mq_receive({self.value(1)}, chars, {length}, status)",
            "getpid()",
        )

    def target(self):
        return self.place() if self.chance(0.4) else self.any(*self.numbers)

    def statement(self, depth, in_loop):
        pick = self.random.random()
        if depth <= 0 or pick < 0.3:
            sign = self.any("=", "=", "+=", "-=", "*=")
            return f"{self.target()} {sign} {self.value(3)};"
        if pick < 0.36:
            return f"{self.target()} {self.any('/=', '%=')} ({self.value(2)} & 255) + 1;"
        if pick < 0.46:
            return self.any(f"{self.any(*self.numbers)}{self.any('++', '--')};", f"{self.any('++', '--')}{self.place()};")
        if pick < 0.62:
            return self.any(f"{self.call()};", f"{self.any(*self.numbers)} = {self.call()};")
        if pick < 0.68:
            called, other = self.call(), self.call()
            return f"{self.any(*self.numbers)} = {called} {self.any('&&', '||')} {other};"
        if pick < 0.78:
            found = f"if ({self.value(2)}) {self.block(depth, in_loop)}"
            return f"{found} else {self.block(depth, in_loop)}" if self.chance(0.5) else found
        if pick < 0.9 and self.loops < 3:
            return self.loop(depth)
        if pick < 0.93 and in_loop:
            return f"if ({self.value(2)}) {self.any('break', 'continue')};"
        if pick < 0.94:
            return f"return {self.value(2)};"
        if self.pointers:
            return f"{self.any(*self.pointers)} = {self.any('chars', 'chars2')} + ({self.value(1)} & 3);"
        return ";"

    def loop(self, depth):
        """A loop over a counter of its own, which nothing else writes."""
        counter = f"i{self.loops}"
        self.loops += 1
        body, count = self.block(depth, True), self.random.randint(1, 4)
        self.loops -= 1
        return self.any(
            f"for ({counter} = 0; {counter} < {count}; {counter}++) {body}",
            f"{counter} = {count}; while ({counter}-- > 0) {body}",
            f"{counter} = {count}; do {body} while (--{counter} > 0);",
        )

    def block(self, depth, in_loop):
        statements = [self.statement(depth - 1, in_loop) for _ in range(self.random.randint(1, 3))]
        return f"{{ {' '.join(statements)} }}"

    def function(self, name, count, length):
        kept = list(self.numbers), list(self.arrays)
        params = [self.name("a") for _ in range(count)]
        types = [self.any("int", "char") for _ in params]
        head = ", ".join(f"{of} {param}" for of, param in zip(types, params)) or "void"
        values = [self.name("x") for _ in range(2)]
        self.numbers += params
        declared = [f"int {values[0]} = {self.value(2)};", f"char {values[1]};", "int i0, i1, i2;", "int status[1];"]
        declared += ["char chars[8];", "char chars2[8];", "int numbers[8];", "char *p = chars;"]
        self.numbers += values
        self.arrays += ["chars", "chars2", "numbers"]
        self.pointers = ["p"]
        statements = [self.statement(3, False) for _ in range(length)]
        found = [f"int {name}({head}) {{", *declared, *statements, f"return {self.value(2)};", "}"]
        self.numbers, self.arrays, self.pointers = *kept, []
        return found

    def program(self):
        found = ["int g;", "static char h = 200;", "int v[8] = {1, -2, 3};", 'char t[8] = "global";']
        self.numbers, self.arrays = ["g", "h"], ["v", "t"]
        for _ in range(self.random.randint(0, 3)):
            name, count = self.name("f"), self.random.randint(0, 4)
            found += self.function(name, count, self.random.randint(1, 4))
            self.functions.append((name, count))
        return "\n".join([*found, *self.function("main", 0, self.random.randint(4, 9))]) + "\n"


def native(folder, number, head, text):
    """What a program prints that gcc compiled."""
    path = os.path.join(folder, str(number))
    with open(f"{path}.c", "w") as file:
        file.write(head + text)
    subprocess.run([*GCC.split(), "-o", path, f"{path}.c"], check=True)
    done = subprocess.run([path], stdout=subprocess.PIPE, text=True, timeout=60, check=True)
    os.remove(path)
    return done.stdout.splitlines()


def traced(texts):
    """What nx_traces prints of each text, and how many steps they took in all."""
    command = ["rt", "try" if os.environ.get("NXSIM_TRY") == "1" else "run", "--", "steps"]
    with open(TABLE) as file:
        asked = "".join(f"{text}====\n" for text in [file.read(), *texts])
    done = subprocess.run(command, cwd=PROGRAM, input=asked, stdout=subprocess.PIPE, text=True)
    *printed, steps = done.stdout.splitlines() or [""]
    found, lines = [], []
    for line in printed:
        lines.append(line)
        if line.split(" ")[0] in ("ends", "wrong", "refused", "goes"):
            found.append(lines)
            lines = []
    if done.returncode != 0 or len(found) != len(texts):
        sys.exit(f"nx_traces: status {done.returncode}, {len(found)} ends of {len(texts)} texts")
    return found, int(steps.split(" ")[0])


def main():
    if shutil.which("gcc") is None:
        sys.exit("gcc is not installed: it is in Debian's package gcc")
    count = int(sys.argv[1]) if len(sys.argv) > 1 else COUNT
    texts = [Maker(SEED + number).program() for number in range(count)]
    head = runtime()
    with tempfile.TemporaryDirectory() as folder:
        with concurrent.futures.ThreadPoolExecutor(os.cpu_count()) as pool:
            theirs = list(pool.map(lambda number: native(folder, number, head, texts[number]), range(count)))
    ours, steps = traced(texts)
    differ = [number for number in range(count) if ours[number] != theirs[number]]
    calls = sum(len(lines) - 1 for lines in ours)
    print(f"{count} programs, {calls} calls, {steps} steps, {len(differ)} differences")
    for number in differ[:SHOWN]:
        print(f"seed {SEED + number}: {ours[number][-1]}, and by gcc {theirs[number][-1]}")
    sys.exit(1 if differ else 0)


if __name__ == "__main__":
    main()
