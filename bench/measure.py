"""Runs the translator on families of made files that grow, and prints processor seconds and peak memory beside their growth."""

import math
import os
import subprocess
import sys
import tempfile

TOP = os.path.dirname(os.path.dirname(os.path.abspath(__file__)))
MIB = 1024 * 1024

# Memory up to here is never judged: what a program takes at its start, and what the script itself takes, which a process
# begins with before it becomes the translator.
LEAST = 32 * MIB

with open(os.path.join(TOP, "examples", "switch", "problem.pddl"), "rb") as switch:
    SWITCH = switch.read()


def lines(items):
    return b"\n".join(items)


def write(folder, make):
    """Writes a pair of files and gives the bytes of both. A process of its own does it: the memory of the one that
    starts the translator would count as the translator's."""
    paths = [os.path.join(folder, name) for name in ("domain.pddl", "problem.pddl")]
    child = os.fork()
    if child == 0:
        for path, text in zip(paths, make()):
            with open(path, "wb") as file:
                file.write(text)
        os._exit(0)
    os.waitpid(child, 0)
    return sum(map(os.path.getsize, paths))


def built_program():
    """The program that is named, or the one that ./translate builds."""
    default = os.path.join(TOP, "crates", "translate_main", "out", "translate_main")
    program = os.path.abspath(sys.argv[1]) if len(sys.argv) > 1 else default
    if not os.access(program, os.X_OK):
        sys.exit(f"bench: {program} is not there; run ./translate once")
    return program


def run(program, folder, options=()):
    """The least processor seconds of three runs, with the peak memory in bytes and what was printed. A run of more than
    ten seconds stands alone."""
    runs = [run_once(program, folder, options)]
    while len(runs) < 3 and runs[0][0] < 10:
        runs.append(run_once(program, folder, options))
    return min(runs)


def run_once(program, folder, options):
    process = subprocess.Popen([program, "domain.pddl", "problem.pddl", *options], stdout=subprocess.PIPE, cwd=folder)
    printed = process.stdout.read().decode("ascii", "replace").strip()
    _, _, usage = os.wait4(process.pid, 0)
    return usage.ru_utime + usage.ru_stime, usage.ru_maxrss * 1024, printed


def written(folder):
    """The bytes of the output file, or 0 where there is none."""
    path = os.path.join(folder, "output.sas")
    return os.path.getsize(path) if os.path.exists(path) else 0


def measure(families):
    """Runs each family and prints a line for each size. A family is its name, the most bytes of memory for each byte
    that is read or written, the most growth of seconds for a doubling or None, and its sizes: the number, its name, and
    how its files are made. Ends with 1 where a line ends with `slow` or `large`."""
    program = built_program()
    bad = 0
    print(f"{'files':<22} {'size':>9} {'seconds':>8} {'growth':>7} {'MiB used':>9} {'MiB written':>12} {'bytes/byte':>11}  answer")
    for name, most, growth_limit, sizes in families:
        before = None
        for size, shown_size, make in sizes:
            with tempfile.TemporaryDirectory() as folder:
                read = write(folder, make)
                seconds, memory, printed = run(program, folder)
                output = written(folder)
            answer = printed.splitlines()[0] if printed else ""
            growth = (seconds / before[1]) ** (math.log(2) / math.log(size / before[0])) if before else None
            each = memory / (read + output)
            slow = growth_limit is not None and growth is not None and growth > growth_limit and seconds > 0.2
            large = most is not None and memory > LEAST and each >= most
            bad += slow or large
            shown = f"{growth:7.2f}" if growth else " " * 7
            marks = (" slow" if slow else "") + (" large" if large else "")
            print(f"{name:<22} {shown_size:>9} {seconds:>8.3f} {shown} {memory / MIB:>9.1f} {output / MIB:>12.2f} {each:>11.1f}  {answer}{marks}", flush=True)
            before = (size, seconds)
    sys.exit(1 if bad else 0)
