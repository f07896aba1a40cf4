#!/usr/bin/env python3
"""Compares which C programs the front accepts with what gcc accepts, and where it refuses them.

Run it as `python3 scripts/compare_c.py [COUNT]`, from any folder. It wants gcc, and `rt` in the
path, and proves and builds crates/nx_verdicts where that is not done yet. With NXSIM_TRY=1 it runs
the unproved build.

It makes COUNT programs (250 if left out) of docs/C.md's grammar and types, and of each three
variants in which a token is dropped, doubled, exchanged with the next or replaced. The set is the
same in each run, since the seed is fixed. The calls are those of examples/syscall.csv; for gcc a
header is made of them. Of each text it wants four things:

- nx_verdicts refuses it for syntax at the token where scripts/c_grammar.py does, and nowhere else;
- where nx_verdicts accepts it, gcc accepts it;
- where it refuses for syntax what gcc accepts, or for types, the text has a form of C that docs/C.md
  leaves out, and which is listed below;
- each program as it was made, and each of examples/, is accepted.

It prints how many texts there are of each sort and all that differ, and exits with 1 if any does.
"""

import collections
import concurrent.futures
import csv
import glob
import os
import random
import re
import shutil
import subprocess
import sys
import tempfile

import c_grammar

ROOT = os.path.join(os.path.dirname(os.path.abspath(__file__)), "..")
PROGRAM = os.path.join(ROOT, "crates", "nx_verdicts")
TABLE = os.path.join(ROOT, "examples", "syscall.csv")
SEED = 64
COUNT = 250
VARIANTS = 3
SHOWN = 20

# Forms of C11 that docs/C.md leaves out, by the tokens before the refused one, and that one.
LEFT_OUT = {
    "an array without a length": r"\[ >>> \]",
    "a constant that is an expression": r"[{,=[] (- |\S+ )?>>> [-+*/%]",
    "a plus sign before an operand": r" >>> \+",
    "sizeof of an expression": r" sizeof (\( )?>>> .*| sizeof \( \w+ >>> [^)]+",
    "a declaration elsewhere than at a body's head": r"[;{}] >>> (int|char|const|static)",
    "the words of a declaration in another order": r" (int|char|void) >>> static",
    "a comma between expressions": r" >>> ,",
    "parentheses around what is written to": r"(\+\+|--) \( .* >>> .*|\) >>> ([-+*/%]?=|\+\+|--)",
}

# As strict as C11 is; what C11 has constraints for, and gcc only warns of, is an error.
GCC = "gcc -std=c11 -fsyntax-only -pedantic-errors -Werror=implicit-int -Wno-overflow -Wno-div-by-zero -fno-builtin -x c".split()


class Maker:
    """Makes a program as a list of tokens, well typed by C and by docs/C.md."""

    def __init__(self, seed):
        self.random = random.Random(seed)
        self.names = 0
        self.functions = []
        self.scalars = []
        self.arrays = []
        self.pointers = []

    def name(self, letter):
        self.names += 1
        return f"{letter}{self.names}"

    def chance(self, part):
        return self.random.random() < part

    def number(self):
        return self.random.choice(["0", "1", "7", "0x1F", "4294967295", "'a'", "'\\n'", "65535"])

    def target(self):
        """Something that may be written."""
        if self.arrays and self.chance(0.4):
            return [self.random.choice(self.arrays), "[", *self.value(2), "]"]
        if self.pointers and self.chance(0.2):
            return ["*", self.random.choice(self.pointers)]
        return [self.random.choice(self.scalars)]

    def value(self, depth):
        """A number."""
        pick = self.random.random()
        if depth <= 0 or pick < 0.2:
            return [self.number()] if self.chance(0.5) else [self.random.choice(self.scalars)]
        if pick < 0.5:
            sign = self.random.choice("* / % + - << >> < <= > >= == != & ^ | && ||".split())
            return [*self.operand(depth - 1), sign, *self.operand(depth - 1)]
        if pick < 0.58:
            return [self.random.choice("-!~"), *self.operand(depth - 1)]
        if pick < 0.64:
            return ["(", self.random.choice(["int", "char"]), ")", *self.operand(depth - 1)]
        if pick < 0.7:
            parts = [self.value(depth - 1) for _ in range(3)]
            return ["(", *parts[0], "?", *parts[1], ":", *parts[2], ")"]
        if pick < 0.76 and self.arrays:
            return [self.random.choice(self.arrays), "[", *self.value(depth - 1), "]"]
        if pick < 0.8:
            of = self.random.choice(["int", "char", *self.arrays, *self.scalars])
            return ["sizeof", "(", of, ")"]
        if pick < 0.86 and self.functions:
            name, count = self.random.choice(self.functions)
            return [name, "(", *commas([self.value(depth - 1) for _ in range(count)]), ")"]
        if pick < 0.92:
            sign = self.random.choice(["=", "+=", "-=", "*=", "/=", "%="])
            return ["(", *self.target(), sign, *self.value(depth - 1), ")"]
        if pick < 0.94:
            buffer = self.random.choice(['"ab"', *self.arrays])
            return ["write", "(", *self.value(0), ",", buffer, ",", *self.value(0), ")"]
        if pick < 0.95:
            return [self.random.choice(["close", "nx_sleep"]), "(", *self.value(depth - 1), ")"]
        if self.chance(0.5):
            return [self.random.choice(self.scalars), self.random.choice(["++", "--"])]
        return [self.random.choice(["++", "--"]), *self.target()]

    def operand(self, depth):
        if self.chance(0.3):
            return [self.number()]
        return self.value(depth) if self.chance(0.2) else ["(", *self.value(depth), ")"]

    def statement(self, depth, in_loop):
        pick = self.random.random()
        if depth <= 0 or pick < 0.35:
            return [*self.target(), self.random.choice(["=", "+="]), *self.value(2), ";"]
        if pick < 0.47:
            return [*self.value(2), ";"]
        if pick < 0.57:
            found = ["if", "(", *self.value(2), ")", *self.inner(depth - 1, in_loop)]
            return [*found, "else", *self.inner(depth - 1, in_loop)] if self.chance(0.5) else found
        if pick < 0.65:
            return ["while", "(", *self.value(2), ")", *self.inner(depth - 1, True)]
        if pick < 0.7:
            return ["do", *self.inner(depth - 1, True), "while", "(", *self.value(2), ")", ";"]
        if pick < 0.8:
            a, b, c = (self.value(1) if self.chance(0.8) else [] for _ in range(3))
            return ["for", "(", *a, ";", *b, ";", *c, ")", *self.inner(depth - 1, True)]
        if pick < 0.85 and in_loop:
            return [self.random.choice(["break", "continue"]), ";"]
        if pick < 0.9:
            return ["return", *self.value(2), ";"]
        return [";"] if self.chance(0.3) else self.block(depth - 1, in_loop)

    def inner(self, depth, in_loop):
        return self.block(depth, in_loop) if self.chance(0.6) else self.statement(depth, in_loop)

    def block(self, depth, in_loop):
        count = self.random.randint(0, 2)
        return ["{", *joined(self.statement(depth, in_loop) for _ in range(count)), "}"]

    def local(self):
        """A declaration at a body's head."""
        pick, name = self.random.random(), self.name("x")
        if pick < 0.5:
            found = ["int", name, *(["=", *self.value(1)] if self.chance(0.5) else []), ";"]
            self.scalars.append(name)
        elif pick < 0.7:
            found = [self.random.choice(["int", "char"]), name, "[", "8", "]", ";"]
            self.arrays.append(name)
        elif pick < 0.85:
            found = ["char", "*", name, "=", "(", "char", "*", ")", "0", ";"]
            self.pointers.append(name)
        else:
            found = ["char", name, ",", name + "a", ";"]
            self.scalars += [name, name + "a"]
        return found

    def function(self, name, count):
        kept = len(self.scalars), len(self.arrays), len(self.pointers)
        params = [self.name("a") for _ in range(count)]
        self.scalars += params
        head = ["int", name, "(", *(commas([["int", one] for one in params]) or ["void"]), ")"]
        decls = joined([self.local() for _ in range(self.random.randint(0, 3))])
        stmts = joined([self.statement(3, False) for _ in range(self.random.randint(1, 4))])
        found = [*head, "{", *decls, *stmts, "return", *self.value(1), ";", "}"]
        del self.scalars[kept[0] :], self.arrays[kept[1] :], self.pointers[kept[2] :]
        return found

    def program(self):
        found = "int g ; static char h = 'h' ; int v [ 4 ] = { 1 , - 2 } ; char t [ 3 ] = \"ab\" ;".split()
        self.scalars, self.arrays = ["g", "h"], ["v", "t"]
        for _ in range(self.random.randint(0, 2)):
            name, count = self.name("f"), self.random.randint(0, 3)
            found += self.function(name, count)
            self.functions.append((name, count))
        return found + self.function("main", 0)


def joined(parts):
    return [token for part in parts for token in part]


def commas(parts):
    return joined([[",", *part] if place else part for place, part in enumerate(parts)])


def changed(tokens, source):
    """The tokens with one dropped, doubled, exchanged with the next, or replaced by another."""
    found, at, how = list(tokens), source.randrange(len(tokens)), source.randrange(4)
    if how == 0:
        del found[at]
    elif how == 1:
        found.insert(at, found[at])
    elif how == 2:
        found[at : at + 2] = reversed(found[at : at + 2])
    else:
        found[at] = source.choice(tokens)
    return found


def programs(count):
    """The set: each made program, and its variants."""
    for number in range(count):
        tokens = Maker(SEED + number).program()
        source = random.Random(SEED + number)
        yield tokens
        for _ in range(VARIANTS):
            yield changed(tokens, source)


def header():
    """The calls of the table, as gcc wants them."""
    lines = ["#include <sys/types.h>", "typedef int mqd_t;", "typedef int (*nx_entry_t)(int);"]
    with open(TABLE, newline="") as file:
        for name, _, _, result, *parameters in csv.reader(file):
            lines.append(f"{result} {name}({', '.join(parameters) or 'void'});")
    return "\n".join(lines) + "\n"


def gcc_says(text, included):
    """The first error of gcc, or nothing where it accepts the text."""
    command = [*GCC, "-include", included, "-"]
    done = subprocess.run(command, input=text, stderr=subprocess.PIPE, text=True)
    errors = re.findall(r" error: (.*)", done.stderr)
    return errors[0] if errors else "" if done.returncode == 0 else "refused"


def run_program(texts):
    """What nx_verdicts says of each text."""
    command = ["rt", "try" if os.environ.get("NXSIM_TRY") == "1" else "run"]
    with open(TABLE) as file:
        asked = "".join(f"{text}====\n" for text in [file.read(), *texts])
    done = subprocess.run(command, cwd=PROGRAM, input=asked, stdout=subprocess.PIPE, text=True)
    said = done.stdout.splitlines()
    if done.returncode != 0 or len(said) != len(texts):
        sys.exit(f"nx_verdicts: status {done.returncode}, {len(said)} lines for {len(texts)} texts")
    return said


def left_out(forms, tokens, at):
    """The form that is left out at a token, if it is listed, and what stands there."""
    shown = " ".join([*tokens[max(at - 12, 0) : at], ">>>", *tokens[at : at + 1]])
    found = [form for form, pattern in forms.items() if re.search(f"(?:{pattern})$", f" {shown}")]
    return (found[0], True) if found else (shown, False)


def sort_of(ours, wanted, theirs, tokens):
    """The sort of a text by what the three say, and whether they agree."""
    told = "" if wanted is None else f"{wanted + 1}: syntax"
    if told != (ours if ours.endswith((" syntax", " limit")) else ""):
        return f"nx_verdicts says {ours}, the grammar {told or 'accepted'}", False
    if ours == "accepted":
        return (f"accepted, but gcc says {theirs}", False) if theirs else ("accepted by both", True)
    of = "syntax" if told else "types or names"
    if theirs:
        return f"refused for {of}, and by gcc", True
    if told:
        form, agree = left_out(LEFT_OUT, tokens, wanted)
        return f"refused for syntax alone: {form}", agree
    return f"refused for types alone: {ours}", True


def examples():
    """The texts of the examples, which are programs."""
    for path in sorted(glob.glob(os.path.join(ROOT, "examples", "*", "*.c"))):
        with open(path) as file:
            yield file.read()


def main():
    if shutil.which("gcc") is None:
        sys.exit("gcc is not installed: it is in Debian's package gcc")
    made = list(programs(int(sys.argv[1]) if len(sys.argv) > 1 else COUNT))
    texts = ["".join(f"{token}\n" for token in tokens) for tokens in made]
    with tempfile.NamedTemporaryFile("w", suffix=".h") as file:
        file.write(header())
        file.flush()
        with concurrent.futures.ThreadPoolExecutor(os.cpu_count()) as pool:
            theirs = list(pool.map(lambda text: gcc_says(text, file.name), texts))
    wanted = [c_grammar.first_refused(tokens) for tokens in made]
    shown = list(examples())
    said = run_program([*texts, *shown])
    sorts = list(map(sort_of, said, wanted, theirs, made))
    for sort, count in sorted(collections.Counter(sort for sort, agree in sorts if agree).items()):
        print(f"{count} {sort}")
    wrong = [sort for sort, agree in sorts if not agree]
    wrong += [f"a program as made: {one}" for one in said[: len(made) : VARIANTS + 1] if one != "accepted"]
    wrong += [f"an example: {one}" for one in said[len(made) :] if one != "accepted"]
    for sort in wrong[:SHOWN]:
        print(f"  {sort}")
    print(f"{len(made)} texts and {len(shown)} examples, {len(wrong)} differences")
    sys.exit(1 if wrong else 0)


if __name__ == "__main__":
    main()
