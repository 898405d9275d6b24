"""Shared by the benchmarks: building C programs, running programs in turn, rows of the tables."""

import os
import re
import statistics
import subprocess
import sys
import tempfile
from dataclasses import dataclass, field
from pathlib import Path

HERE = Path(__file__).resolve().parent
# The columns of `print_rows`, after the table's own columns.
COLUMNS = ("Program", "Best, s", "Median, s", "Processor, s", "Ratio, best", "Ratio, median", "Ratio, processor", "Memory, MB")
# The same if instructions are also counted.
COUNTED = (*COLUMNS, "Instructions, millions", "Ratio, instructions")


@dataclass
class Times:
    """The runs of one program: seconds, processor seconds, the maximum memory in MB, and instructions."""

    taken: list = field(default_factory=list)
    worked: list = field(default_factory=list)
    memory: float = 0.0
    instructions: int = 0


def build(folder, names):
    """Builds the C programs in a directory."""
    for name in names:
        subprocess.run(["cc", "-O2", "-Wall", "-o", folder / name, HERE / f"{name}.c"], check=True)


def run(build_folder, command, output, times):
    """Runs the program once and adds to its times. It must end with status 0."""
    report = build_folder / "report"
    with open(output, "wb") as out:
        subprocess.run([build_folder / "measure", report, *command], check=True, stdout=out, stdin=subprocess.DEVNULL)
    seconds, worked, kilobytes, status = report.read_text().split()
    if status != "0":
        sys.exit(f"{command}: status {status}")
    times.taken.append(float(seconds))
    times.worked.append(float(worked))
    times.memory = max(times.memory, int(kilobytes) / 1024)


def instructions(build_folder, command):
    """The number of instructions of the command and its children, as counted by valgrind. Other work on the
    machine does not matter. The work of the system for the command is not included."""
    with tempfile.TemporaryDirectory(dir=build_folder) as logs:
        valgrind = ["valgrind", "--tool=callgrind", "--trace-children=yes", "--callgrind-out-file=/dev/null", f"--log-file={logs}/%p"]
        subprocess.run([*valgrind, *command], check=True, stdout=subprocess.DEVNULL, stdin=subprocess.DEVNULL)
        return sum(int(re.search(r"Collected : (\d+)", log.read_text())[1]) for log in Path(logs).iterdir())


def in_turn(build_folder, commands, outputs, runs, before=None, counted=False):
    """Runs each program once, then each once more, and so on. Returns the times by name, and the instructions, if counted.

    `before` is called before each run, and is not timed."""
    times = {name: Times() for name in commands}
    for number in range(runs + counted):
        for name, command in commands.items():
            if before:
                before()
            if number < runs:
                run(build_folder, command, outputs[name], times[name])
            else:
                times[name].instructions = instructions(build_folder, command)
    return times


def print_head(columns, counted=False):
    """The head of a table, with its own columns first."""
    columns = [*columns, *(COUNTED if counted else COLUMNS)]
    print(f"| {' | '.join(columns)} |")
    print("|" + "---|" * len(columns))


def print_rows(front, base, times):
    """A row for each program, with the ratios of its times to those of the program `base`."""
    for name, each in times.items():
        figures, ratios = [], []
        for best, of_base in ((min, "taken"), (statistics.median, "taken"), (min, "worked")):
            own, other = best(getattr(each, of_base)), best(getattr(times[base], of_base))
            figures.append(f"{own:.3f}")
            ratios.append(f"{own / other:.2f}")
        row = [*front, name, *figures, *ratios, f"{each.memory:.1f}"]
        if each.instructions:
            row += [f"{each.instructions / 1e6:.1f}", f"{each.instructions / times[base].instructions:.2f}"]
        print(f"| {' | '.join(row)} |", flush=True)


def print_load():
    """Prints how busy the machine is: only figures of runs at a load well below 1 can be compared."""
    print(f"Load over the last minute: {os.getloadavg()[0]:.2f}\n", flush=True)


def read_once(path):
    """Reads the file, so that it is in the system's cache."""
    subprocess.run(["cat", path], check=True, stdout=subprocess.DEVNULL)
