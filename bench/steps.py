"""Times `run`, outside the gate: prints steps per second, so that later changes can be compared.

The first figure is for steps to a thread that isn't there, the second for the items of a module with
sixty statements, from which the time of a run without steps is taken off.
"""

import pathlib
import subprocess
import tempfile
import time

TOP = pathlib.Path(__file__).resolve().parent.parent
IDLE_STEPS = 10_000_000
RUNS = 40


def seconds(module: pathlib.Path, schedule: pathlib.Path, times: int) -> float:
    """How long so many runs take."""
    start = time.perf_counter()
    for _ in range(times):
        subprocess.run([TOP / "nagini", "run", module, schedule], capture_output=True, check=False)
    return time.perf_counter() - start


def main() -> None:
    with tempfile.TemporaryDirectory() as folder:
        module = pathlib.Path(folder) / "module.py"
        body = ["    x = 999999999"] + ["    x = x + x"] * 59
        module.write_text("def main() -> None:\n" + "\n".join(body) + "\n")
        items = 2 + 59 * 4 + 1
        nothing = pathlib.Path(folder) / "nothing"
        nothing.write_text("schedule 1\n")
        idle = pathlib.Path(folder) / "idle"
        idle.write_text(f"schedule 1\n7 {IDLE_STEPS}\n")
        fair = pathlib.Path(folder) / "fair"
        fair.write_text(f"schedule 1\nfair {items}\n")
        seconds(module, nothing, 1)
        start = seconds(module, nothing, RUNS) / RUNS
        waiting = seconds(module, idle, 1) - start
        going = seconds(module, fair, RUNS) / RUNS - start
        print(f"steps to a thread that is not there: {IDLE_STEPS / max(waiting, 1e-9):,.0f} a second")
        print(f"items of straight-line code: {items / max(going, 1e-9):,.0f} a second")


if __name__ == "__main__":
    main()
