#!/usr/bin/env python3
"""Makes cases of call tables, by the rules of docs/CALLS.md and without the project's crates.

    python3 scripts/check_tables.py            compares the cases with those that the tests hold
    python3 scripts/check_tables.py --write    writes them
    python3 scripts/check_tables.py --run      compares them with what `./nxsim gates` prints

Python's csv module reads the records, and Python itself values a condition, once it is written in
Python. The cases are the same in each run: the seed is fixed. The configuration is `A=y`, `N=5`,
`M=-3` and `T="x"`. Beside each table stands what reading it gives: the number, the name and the
kinds of each row whose condition is true, or the first fault.
"""

import csv
import io
import os
import random
import re
import subprocess
import sys
import tempfile

HERE = os.path.dirname(os.path.abspath(__file__))
CASES = os.path.join(HERE, "..", "crates", "nx_calls", "src", "cases.rt")
STANDARD = os.path.join(HERE, "..", "examples", "syscall.csv")
NXSIM = os.path.join(HERE, "..", "nxsim")
SEED = 45
BLANKS = " \t\r"
CONFIG = 'A=y\nN=5\nM=-3\nT="x"\n'
MEANINGS = {"A": 1, "N": 5, "M": -3, "T": 0}

TOKENS = re.compile(r"[ \t]*(?:(\w+)|(\|\||&&|==|!=|<=|>=|[<>!()]))", re.ASCII)


class Bad(Exception):
    """What is wrong with a row, in the words of a refusal."""


# Conditions: the tokens, and from them an expression of Python.


def tokens_of(text):
    """The words and marks of a condition."""
    found, at = [], 0
    text = text.rstrip(" \t")
    while at < len(text):
        match = TOKENS.match(text, at)
        if not match:
            raise Bad("bad condition")
        found.append(match.group(1) or match.group(2))
        at = match.end()
    return found


def word_in_python(word):
    """A number or a name as Python writes its value."""
    if re.fullmatch(r"[0-9]+", word):
        number = int(word)
    elif re.fullmatch(r"0x[0-9a-fA-F]+", word):
        number = int(word, 16)
    elif word == "defined":
        raise Bad("bad condition")
    else:
        return f"({MEANINGS.get(word, 0)})"
    if number >= 2**64:
        raise Bad("bad condition")
    return f"({number})"


def in_python(tokens):
    """The expression of Python for these tokens. It takes them from the list."""

    def take(wanted):
        if not tokens or tokens[0] != wanted:
            raise Bad("bad condition")
        tokens.pop(0)

    def unary():
        if not tokens:
            raise Bad("bad condition")
        token = tokens.pop(0)
        if token == "!":
            return f"int(not {unary()})"
        if token == "(":
            inner = either()
            take(")")
            return inner
        if token == "defined":
            take("(")
            if not tokens or not re.fullmatch(r"\w+", tokens[0], re.ASCII) or tokens[0] == "defined":
                raise Bad("bad condition")
            name = tokens.pop(0)
            if re.fullmatch(r"[0-9]+|0x[0-9a-fA-F]+", name):
                raise Bad("bad condition")
            take(")")
            return str(int(name in MEANINGS))
        if not re.fullmatch(r"\w+", token, re.ASCII):
            raise Bad("bad condition")
        return word_in_python(token)

    def compared():
        left = unary()
        if tokens and tokens[0] in ("==", "!=", "<", "<=", ">", ">="):
            mark = tokens.pop(0)
            return f"int({left} {mark} {unary()})"
        return left

    def joined(part, mark, word):
        parts = [part()]
        while tokens and tokens[0] == mark:
            tokens.pop(0)
            parts.append(part())
        return parts[0] if len(parts) == 1 else "int(bool(" + f" {word} ".join(parts) + "))"

    def both():
        return joined(compared, "&&", "and")

    def either():
        return joined(both, "||", "or")

    whole = either()
    if tokens:
        raise Bad("bad condition")
    return whole


def holds(condition):
    """Whether a condition is true."""
    if len(condition) > 1024:
        raise Bad("bad condition")
    tokens = tokens_of(condition)
    return True if not tokens else eval(in_python(tokens)) != 0


# Rows: their types, kinds and faults.


def single(part):
    """A part of a type without FAR and with single blanks."""
    return re.sub(f"[{BLANKS}]+", " ", re.sub(r"\bFAR\b", "", part, flags=re.ASCII)).strip(" ")


def kinds_by_types(types):
    """The kinds of parameters, each a pair of formal and actual part; None for one without a kind."""
    kinds = []
    for at, (formal, actual) in enumerate(types):
        sized = at + 1 < len(types) and types[at + 1][1] == "size_t"
        after_buffer = at > 0 and types[at - 1][1] in ("const char *", "const void *", "char *", "void *")
        if actual == "size_t" and after_buffer:
            kinds.append("len")
        elif sized and actual in ("const char *", "const void *"):
            kinds.append("in")
        elif sized and actual in ("char *", "void *"):
            kinds.append("out")
        elif actual == "const char *":
            kinds.append("text")
        elif (formal, actual) == ("int [2]", "int *"):
            kinds.append("out8")
        elif actual in ("int *", "unsigned int *"):
            kinds.append("out4")
        else:
            kinds.append(None if "*" in actual else "word")
    return kinds


def parts_of(fields):
    """Pairs of formal and actual part."""
    if any(field.count("|") > 1 for field in fields):
        raise Bad("union type")
    pairs = [[single(part) for part in field.split("|")] for field in fields]
    pairs = [(parts[0], parts[-1]) for parts in pairs]
    if any("" in pair for pair in pairs):
        raise Bad("bad type")
    return pairs


def records_of(text):
    """The records of a text, whose fields have no blanks at their ends."""
    reader = csv.reader(io.StringIO(text.removeprefix("\ufeff"), newline=""))
    return [[field.strip(BLANKS) for field in record] for record in reader if record]


def standard_kinds():
    """The kinds of the kernel's calls, by their names."""
    with open(STANDARD, encoding="ascii", newline="") as file:
        records = records_of(file.read())
    return {fields[0]: kinds_by_types(parts_of(fields[4:])) for fields in records}


def row_of(fields, names, calls):
    """The name and kinds of a row whose condition is true, else None."""
    if len(fields) < 4:
        raise Bad("few fields")
    name, _, condition, returned, *types = fields
    if not re.fullmatch(r"[A-Za-z_][A-Za-z0-9_]{0,63}", name):
        raise Bad("bad name")
    if not holds(condition):
        return None
    pairs = parts_of([returned] + [field for field in types if field != "..."])
    if len(pairs) > 7:
        raise Bad("too many parameters")
    if name in names:
        raise Bad("name twice")
    kinds = ["word"] * (len(pairs) - 1)
    if name in calls:
        kinds = kinds_by_types(pairs[1:])
        wanted = [calls[name]] + ([calls[name][:2]] if name == "open" else [])
        if "*" in pairs[0][1] or kinds not in wanted:
            raise Bad("signature")
    return name, kinds


def reading(text, calls):
    """What reading a table gives, in a line."""
    rows = []
    for place, fields in enumerate(records_of(text), 1):
        try:
            row = row_of(fields, [name for name, _ in rows], calls)
        except Bad as bad:
            return f"{place}: {bad}"
        if row:
            rows.append(row)
    lines = [" ".join([str(16 + place), name, *kinds]) for place, (name, kinds) in enumerate(rows)]
    return "; ".join(lines)


# Cases.


def expression(draw, depth):
    """A condition of random parts."""
    if depth == 0 or draw.random() < 0.2:
        return draw.choice(["A", "N", "M", "T", "Q", "0", "1", "5", "007", "0x1F", "defined(T)", "defined ( Q )", "0x"])
    part = lambda: expression(draw, depth - 1)
    kind = draw.randrange(6)
    if kind == 0:
        return "!" + expression(draw, 0)
    if kind == 1:
        return f"({part()})"
    if kind == 2:
        return f"{expression(draw, 0)} {draw.choice(['==', '!=', '<', '<=', '>', '>='])}{expression(draw, 0)}"
    return f"{part()}{draw.choice(['&&', ' && ', '||', ' || '])}{part()}"


def spoilt(draw, condition):
    """The same with a byte left out, or one more."""
    at = draw.randrange(len(condition))
    if draw.random() < 0.5:
        return condition[:at] + condition[at + 1 :]
    return condition[:at] + draw.choice(["(", ")", "!", "&", "=", " 1", "|"]) + condition[at:]


GOOD = [
    '"write","nxsim.h","","int","int","FAR const void *","size_t"',
    "read,h,A,int,int,void *,size_t",
    "open,h,,int,const char *,int,mode_t,...",
    "waitpid,h,N==5,int,int,int FAR *,int",
    "nx_getenv,h,,int,const char *,char *,...,size_t",
    "mq_send,h,,int,x | int,const char  *,FAR size_t,unsigned int",
    "f,h,T,int,a|b|c",
    'h,"a,b\nc",!Q, FAR int\tFAR ,"x y"',
]

SPECIAL = [
    "open,h,,int,const char *,int,...",
    "pipe2,h,M<0,int,int [2] | FAR int *,char *",
    "g,h,Q||A,void,struct x *,FAR|FAR",
    "dup,h,,int,int*",
    "dup,h,,int|void *,int",
    "9a,h,,int",
    " k ,h,,int,1,2,3,4,5,...,6",
    " k ,h,,int,1,2,3,4,5,6,7",
    '"k"9,h,,int,int\r',
    "l,h,",
    "h2,h,,int,|int",
    "caf\u00e9,h,,int",
    "m,caf\u00e9,,int,caf\u00e9",
    "_exit,h,,...,int",
    "...,h,,int",
    "n,h,...,int",
    "n,...,,int,size_t,size_t",
    "read,h,!A || 1,int,int,char *,size_t\nread,h,,int,int,char *,size_t",
]


def cases():
    """The cases: a table, and what reading it gives."""
    calls = standard_kinds()
    draw = random.Random(SEED)
    texts = []
    while len(texts) < 22:
        condition = expression(draw, 2)
        if len(texts) % 3 == 2:
            condition = spoilt(draw, condition)
        if 2 < len(condition) < 60:
            texts.append(f"c,h,{condition},int")
    for special in SPECIAL:
        rows = draw.sample(GOOD, draw.randrange(1, 3)) + [special]
        mark = "\ufeff" if draw.random() < 0.2 else ""
        texts.append(mark + "\n".join(rows) + draw.choice(["", "\n", "\n\n"]))
    return [(text, reading(text, calls)) for text in texts]


def quoted(text):
    """A text as Rust writes it."""
    marks = {"\n": "\\n", "\r": "\\r", "\t": "\\t", '"': '\\"', "\\": "\\\\"}
    return '"' + "".join(marks.get(c) or (c if " " <= c <= "~" else f"\\u{{{ord(c):x}}}") for c in text) + '"'


def test_file():
    """The test that holds the cases."""
    lines = [
        "use crate::tests::reading;",
        "use std::test::Fail;",
        "",
        "// Written by scripts/check_tables.py, which reads tables by the rules in docs/CALLS.md.",
        "#[test]",
        "fn tables_are_read_as_the_script_reads_them(rt: HostRuntime) -> Result<(), Fail> {",
        "    for (text, want) in [",
    ]
    for text, want in cases():
        line = f"        ({quoted(text)}, {quoted(want)}),"
        if len(line) > 100:
            lines += ["        (", f"            {quoted(text)},", f"            {quoted(want)},", "        ),"]
        else:
            lines.append(line)
    lines += [
        "    ] {",
        "        let got = reading(rt.alloc(), text)?;",
        '        assert_eq!(rt; got.as_slice(), want.as_bytes(), "at {text}");',
        "    }",
        "    Ok(())",
        "}",
        "",
    ]
    return "\n".join(lines)


def unspaced(text):
    """A text of Rust without what its formatter may change outside the cases."""
    return re.sub(r",?\n *|, (?=\")", "", text).replace("(\"", "\"").replace("\")", "\"")


def printed(folder, text):
    """What nxsim prints of a table, in the words of a case."""
    config, table = os.path.join(folder, "config"), os.path.join(folder, "table")
    for path, content in ((config, CONFIG), (table, text)):
        with open(path, "w", encoding="utf-8", newline="") as file:
            file.write(content)
    done = subprocess.run([NXSIM, "gates", config, table], stdout=subprocess.PIPE, stderr=subprocess.STDOUT)
    lines = done.stdout.decode().splitlines()
    if lines and lines[0].startswith("nxsim: "):
        return lines[0].removeprefix(f"nxsim: {table}:")
    return "; ".join(re.sub(r"( [0-9a-f]{8})+$", "", line) for line in lines)


def run():
    """Compares the cases with what nxsim prints, and says whether they are the same."""
    with tempfile.TemporaryDirectory() as folder:
        for text, want in cases():
            got = printed(folder, text)
            if got != want:
                print(f"{text!r}\n  nxsim:  {got}\n  wanted: {want}")
                return False
    print("no difference")
    return True


def main():
    words = sys.argv[1:]
    if words == ["--write"]:
        with open(CASES, "w", encoding="ascii", newline="\n") as file:
            file.write(test_file())
    elif words == ["--run"]:
        sys.exit(0 if run() else 1)
    elif words:
        sys.exit("usage: check_tables.py [--write | --run]")
    else:
        with open(CASES, encoding="ascii", newline="") as file:
            same = unspaced(file.read()) == unspaced(test_file())
        print("no difference" if same else "the tests hold other cases")
        sys.exit(0 if same else 1)


if __name__ == "__main__":
    main()
