"""Compares `check` and `run` on small modules with runs of the same modules by CPython.

An accepted module's `main` ends; where an assert is reported, it is the one at which CPython stops. A run
prints what CPython prints, and stops there too.
The modules are the examples and some that are made from a fixed seed.
"""

import pathlib
import random
import subprocess
import sys
import tempfile
import traceback

TOP = pathlib.Path(__file__).resolve().parent.parent
NAMES = ["x", "y", "total", "abcdefghijklmnopqrst"]
MADE = 60

# The status of a module that is refused: an example that breaks a rule has no run to compare.
REFUSED = 2

Answer = tuple[int, str]


def answers_of_python(text: str) -> tuple[Answer, Answer]:
    """The statuses and texts that CPython's run of the module asks of `check` and of `run`."""
    printed: list[str] = []
    scope: dict = {"print": lambda value: printed.append(f"{value}\n")}
    exec(compile(text, "module", "exec"), scope)
    try:
        scope["main"]()
    except AssertionError as error:
        line = traceback.extract_tb(error.__traceback__)[-1].lineno
        stopped = f"stopped 5 Assert {line}:5 thread 0\n"
        return (1, f"{line}:5 5 Assert main\nnot proved 1\n"), (3, "".join(printed) + stopped)
    return (0, "accepted 1\n"), (0, "".join(printed))


def answer_of_nagini(*words: pathlib.Path | str) -> Answer:
    """The status and text of the program at these words."""
    done = subprocess.run([TOP / "nagini", *words], capture_output=True, text=True, check=False)
    return done.returncode, done.stdout


def made_module(seed: int) -> str:
    """A small module. Half of its asserts compare with the value that the left side has."""
    made = random.Random(seed)
    values: dict[str, int] = {}

    def operand() -> tuple[str, int]:
        if values and made.random() < 0.6:
            name = made.choice(list(values))
            return name, values[name]
        number = made.choice([0, 1, 7, 10, 999_999_999, made.randrange(1_000_000_000)])
        return str(number), number

    def expression() -> tuple[str, int]:
        text, value = operand()
        if made.random() < 0.6:
            more, other = operand()
            if made.random() < 0.5:
                return f"{text} + {more}", value + other
            return f"{text} - {more}", value - other
        return text, value

    lines = ["# made", "def main() -> None:"]
    for _ in range(made.randrange(1, 61)):
        choice = made.random()
        text, value = expression()
        if choice < 0.5:
            name = made.choice(NAMES)
            lines.append(f"    {name} = {text}")
            values[name] = value
        elif choice < 0.8:
            same = [name for name, known in values.items() if known == value]
            other = same[0] if same and made.random() < 0.8 else text
            lines.append(f"    assert {text} == {other}")
        elif choice < 0.9:
            lines.append(f"    print({text})")
        else:
            lines.append(made.choice(["    pass", "", "  # note"]))
    if made.random() < 0.4:
        lines.append("    assert 0 == 1")
    lines.append("    pass")
    return "\n".join(lines[:60]) + made.choice(["\n", ""])


def compare(what: str, path: pathlib.Path, schedule: pathlib.Path) -> tuple[bool, int]:
    """Prints a line where the two differ, and answers whether they agree, with the status of `check`."""
    wanted = answers_of_python(path.read_text(encoding="utf-8"))
    given = answer_of_nagini("check", path), answer_of_nagini("run", path, schedule)
    if wanted != given:
        print(f"FAILED {what}: {given}; CPython asks for {wanted}")
    return wanted == given, given[0][0]


def main() -> None:
    with tempfile.TemporaryDirectory() as folder:
        schedule = pathlib.Path(folder) / "fair"
        schedule.write_text("schedule 1\nfair 10000\n", encoding="utf-8")
        for path in sorted((TOP / "examples").glob("*.py")):
            if answer_of_nagini("check", path)[0] == REFUSED:
                continue
            if compare(path.name, path, schedule)[0]:
                print(f"ok {path.name}")
        path = pathlib.Path(folder) / "made.py"
        statuses = []
        for seed in range(MADE):
            path.write_text(made_module(seed), encoding="utf-8")
            agrees, status = compare(f"the module of seed {seed}", path, schedule)
            if agrees:
                statuses.append(status)
        accepted, reported = statuses.count(0), statuses.count(1)
        if len(statuses) == MADE and accepted >= 5 and reported >= 5:
            print(f"ok {MADE} made modules, {accepted} accepted and {reported} with a false assert")
        else:
            print(f"FAILED made modules: {accepted} accepted, {reported} with a false assert, of {MADE}")


if __name__ == "__main__":
    sys.exit(main())
