#!/usr/bin/env python3
"""Times the front of C on a text of 1,048,576 bytes, and a thread of C on a long loop.

Run it as `python3 scripts/time_c.py`, from any folder. It wants gcc, and `rt` in the path, and
proves and builds crates/nx_verdicts and crates/nx_traces where that is not done yet.

The text has functions as scripts/compare_c.py makes them, one a line, and blanks behind them up to
the last byte. A text of one small function stands beside it. Each is read by nx_verdicts, which
must accept it: the text as it is, and as well with a name in its last function that nothing
declares, which it must refuse there. `gcc -fsyntax-only` is the yardstick.

The loop adds up numbers in an array. nx_traces tells how many steps that takes; the yardstick is the
same program compiled by gcc without optimisation.

Each is run three times, and the best processor time counts, the start of the process included.
"""

import os
import resource
import subprocess
import sys
import tempfile

import compare_c
import compare_runs

BYTES = 1_048_576
RUNS = 3
SMALL = "int main(void) { return 0; }\n"
LOOP = """int a[64];
int main(void) {
  int i, n;
  for (n = 0; n < 100000; n++)
    for (i = 0; i < 64; i++) a[i] += n ^ i;
  return a[5];
}
"""


def large_text():
    """A program of 512 functions at most, so of long ones, with blanks up to the last byte."""
    maker = compare_c.Maker(compare_c.SEED)
    maker.scalars, maker.arrays = ["g"], ["v"]
    parts, size = ["int g; int v[4];\n"], 20
    while len(parts) < 400:
        name, body = maker.name("f"), []
        while size + sum(map(len, body)) < len(parts) * BYTES // 401:
            body.append(" ".join(maker.statement(2, False)) + "\n")
        parts.append(f"int {name}(int a, int b) {{\n{''.join(body)}return 0; }}\n")
        size += len(parts[-1])
        maker.functions = [(name, 2)]
    text = "".join(parts) + SMALL
    if len(text) >= BYTES:
        sys.exit("the text is too long")
    return text.ljust(BYTES - 1) + "\n"


def seconds(command, text):
    """The best processor time of the runs, and what the last printed."""
    times = []
    for _ in range(RUNS):
        before = resource.getrusage(resource.RUSAGE_CHILDREN)
        done = subprocess.run(command, input=text, stdout=subprocess.PIPE, stderr=subprocess.DEVNULL, text=True)
        after = resource.getrusage(resource.RUSAGE_CHILDREN)
        times.append(after.ru_utime + after.ru_stime - before.ru_utime - before.ru_stime)
    return min(times), done.stdout


def time_front(table, header):
    program = os.path.join(compare_c.PROGRAM, "out", "nx_verdicts")
    compare_c.run_program([SMALL])
    large = large_text()
    wrong = large.replace("main(void) { return 0; }", "main(void) { return q; }")
    line = large[: large.index("main(void)")].count("\n") + 1
    for title, text, wanted in [
        ("one function", SMALL, "accepted\n"),
        ("1 MiB", large, "accepted\n"),
        ("1 MiB, refused at its end", wrong, f"{line}: unknown name\n"),
    ]:
        ours, said = seconds([program], f"{table}====\n{text}====\n")
        if said != wanted:
            sys.exit(f"{title}: nx_verdicts says {said}")
        gcc, _ = seconds([*compare_c.GCC, "-w", "-include", header, "-"], text)
        print(f"{title}: nx_verdicts {1000 * ours:.0f} ms, gcc {1000 * gcc:.0f} ms")


def time_thread(table):
    program = os.path.join(compare_runs.PROGRAM, "out", "nx_traces")
    compare_runs.traced([SMALL])
    short, _ = seconds([program, "steps"], f"{table}====\n{SMALL}====\n")
    ours, said = seconds([program, "steps"], f"{table}====\n{LOOP}====\n")
    steps = int(said.splitlines()[-1].split(" ")[0])
    with tempfile.TemporaryDirectory() as folder:
        path = os.path.join(folder, "loop")
        subprocess.run(["gcc", "-O0", "-x", "c", "-o", path, "-"], input=LOOP, text=True, check=True)
        gcc, _ = seconds([path], "")
    print(f"{steps} steps: {steps / (ours - short) / 1e6:.1f} million steps a second; gcc -O0 takes {1000 * gcc:.0f} ms")


def main():
    with open(compare_c.TABLE) as file:
        table = file.read()
    with tempfile.NamedTemporaryFile("w", suffix=".h") as header:
        header.write(compare_c.header())
        header.flush()
        time_front(table, header.name)
    time_thread(table)


if __name__ == "__main__":
    main()
