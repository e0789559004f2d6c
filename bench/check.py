#!/usr/bin/env python3
"""How long `nagini check` takes as files grow, beside CPython's `ast.parse`.

usage: bench/check.py [PROGRAM]

Four kinds of texts from 64 KiB to 1 MiB: many lines, long lines, deep brackets and long strings. Each row has the
size, the seconds of the program, how often it takes as long as at half the size (2 is linear), the seconds of
`ast.parse`, and what the program answered. The texts are read whole, whether they are accepted or refused behind the
grammar.
"""

import ast
import os
import subprocess
import sys
import tempfile
import time

HEAD = "def main() -> None:\n"
SIZES = [64, 128, 256, 512, 1024]


def repeated(line, size):
    """The head and as many of these lines as fit into the size."""
    return HEAD + line * ((size - len(HEAD)) // len(line))


def many_lines(size):
    return repeated("    x = 1\n", size)


def long_lines(size):
    return repeated("    x = " + "1 + " * 990 + "1\n", size)


def deep_brackets(size):
    return repeated("    x = " + "(" * 95 + "1" + ")" * 95 + "\n", size)


def long_strings(size):
    return HEAD + '    """' + "a" * (size - len(HEAD) - 11) + '"""\n'


KINDS = [many_lines, long_lines, deep_brackets, long_strings]


def seconds_of(action):
    """The least of three times, and what the last gave."""
    times = []
    for _ in range(3):
        start = time.perf_counter()
        given = action()
        times.append(time.perf_counter() - start)
    return min(times), given


def checked(program, path):
    return subprocess.run([program, "check", path], capture_output=True, text=True, check=False)


def parsed(text):
    try:
        ast.parse(text)
    except (SyntaxError, MemoryError, RecursionError) as fault:
        return type(fault).__name__
    return "parsed"


def main():
    here = os.path.dirname(os.path.abspath(__file__))
    program = sys.argv[1] if len(sys.argv) > 1 else os.path.join(here, "..", "nagini")
    with tempfile.TemporaryDirectory() as folder:
        path = os.path.join(folder, "module.py")
        for kind in KINDS:
            print(kind.__name__.replace("_", " "))
            before = None
            for size in SIZES:
                text = kind(size * 1024)
                with open(path, "w", encoding="utf-8") as file:
                    file.write(text)
                spent, answer = seconds_of(lambda: checked(program, path))
                other, _ = seconds_of(lambda: parsed(text))
                growth = "" if before is None else f"{spent / before:5.2f}x"
                print(f"{size:6} KiB {spent:8.3f} s {growth:>7} {other:8.3f} s  {answer.stdout.strip()}")
                before = spent


if __name__ == "__main__":
    main()
