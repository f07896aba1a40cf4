#!/usr/bin/env python3
"""Times `./nxsim gates` on the largest configuration and on a table of 512 rows.

Run it as `python3 scripts/time_inputs.py`, from any folder, once `./nxsim` has built its program.

The configuration has 1,048,576 bytes and 8,192 names, the table 512 rows of six parameters, whose
conditions look up names from all over the configuration; a tiny configuration and the standard
table stand beside them. Each of the four pairs is run three times, and must end with status 0 and
a line for each row. This prints the best wall time of each, the start of the process included, and
as a yardstick the best in which Python, once started, reads both files: the lines of the
configuration into a dict, the rows of the table by its csv module.
"""

import csv
import os
import subprocess
import sys
import tempfile
import time

TOP = os.path.join(os.path.dirname(os.path.abspath(__file__)), "..")
NXSIM = os.path.join(TOP, "nxsim")
STANDARD = os.path.join(TOP, "examples", "syscall.csv")
RUNS = 3
BYTES = 1_048_576
NAMES = 8_192
ROWS = 512
LINE = BYTES // NAMES
STEP = NAMES // ROWS


def name(place):
    return f"CONFIG_{place:05}"


def large_config():
    """A text for each name, so long that the bytes are exactly as many as a file may have."""
    return "".join(f'{name(place)}="'.ljust(LINE - 2, "x") + '"\n' for place in range(1, NAMES + 1))


def large_table(defined):
    """Rows whose conditions are true where all names are `defined` as texts, or where none is."""
    sign = "" if defined else "!"
    types = ',"int"' * 6
    return "".join(
        f'"call_{row:05}","nxsim.h",'
        f'"{sign}defined({name(row * STEP + 1)}) && {name(row * STEP + 2)} == 0","int"{types}\n'
        for row in range(ROWS)
    )


def read_by_python(config, table):
    with open(config) as file:
        names = dict(line.rstrip("\n").split("=", 1) for line in file)
    with open(table, newline="") as file:
        rows = list(csv.reader(file))
    return names, rows


def run_gates(config, table):
    return subprocess.run([NXSIM, "gates", config, table], stdout=subprocess.PIPE)


def best(task, config, table):
    """The best wall time of the runs, and what each of them gave."""
    times, given = [], []
    for _ in range(RUNS):
        start = time.perf_counter()
        given.append(task(config, table))
        times.append(time.perf_counter() - start)
    return min(times), given


def main():
    with tempfile.TemporaryDirectory() as folder:

        def made(file_name, text):
            path = os.path.join(folder, file_name)
            with open(path, "w", newline="") as file:
                file.write(text)
            return path

        tiny = made("tiny", "CONFIG_BUILD_FLAT=y\n")
        large = made("large", large_config())
        if os.path.getsize(large) != BYTES:
            sys.exit(f"the configuration has {os.path.getsize(large)} bytes")
        for title, config, table in [
            ("tiny configuration, standard table", tiny, STANDARD),
            ("large configuration, standard table", large, STANDARD),
            ("tiny configuration, 512 rows", tiny, made("rows_tiny", large_table(False))),
            ("large configuration, 512 rows", large, made("rows_large", large_table(True))),
        ]:
            yardstick, read = best(read_by_python, config, table)
            rows = len(read[0][1])
            taken, done = best(run_gates, config, table)
            for run in done:
                lines = run.stdout.count(b"\n")
                if run.returncode != 0 or lines != rows:
                    sys.exit(f"{title}: status {run.returncode}, {lines} lines of {rows}")
            milliseconds = f"nxsim {1000 * taken:.1f} ms, Python {1000 * yardstick:.1f} ms"
            print(f"{title}: {rows} lines, {milliseconds}")


if __name__ == "__main__":
    main()
