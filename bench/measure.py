"""Times programs and weighs their memory, and counts what holds of that.

Times are the processor's, in user and system mode, the best of three runs, or of as many as take ten seconds together; so other
work on the machine hardly counts.
"""

import argparse
import os
import subprocess
import sys
import tempfile

from large_files import DOCUMENT, MEMBERS, MIB
from outline_files import member_file

RUNS = 3
ENOUGH_SECONDS = 10
TOP = os.path.dirname(os.path.dirname(os.path.realpath(__file__)))


def run_once(words, folder):
    """Runs the words: the seconds, the memory in bytes, the status. The print is in `printed`."""
    with open(f"{folder}/printed", "wb") as printed:
        run = subprocess.Popen(words, cwd=folder, stdin=subprocess.DEVNULL, stdout=printed)
        _, ended, used = os.wait4(run.pid, 0)
    run.returncode = os.waitstatus_to_exitcode(ended)
    return used.ru_utime + used.ru_stime, used.ru_maxrss * 1024, run.returncode


def measure(words, folder, prepare=lambda: None):
    """Runs the words some times, each after what `prepare` does: the least seconds, the most memory in bytes, the last
    status. The last print is in `printed`."""
    times, memory, status = [], 0, 0
    while len(times) < RUNS and sum(times) < ENOUGH_SECONDS:
        prepare()
        seconds, used, status = run_once(words, folder)
        times.append(seconds)
        memory = max(memory, used)
    return min(times), memory, status


def asked(about, shapes):
    """The program to measure, and the shapes: all of these, or the one that is asked for."""
    words = argparse.ArgumentParser(description=about, formatter_class=argparse.RawDescriptionHelpFormatter)
    names = [it.name for it in shapes]
    words.add_argument("--shape", metavar="NAME", choices=names, help=f"measure this shape alone: {'; '.join(names)}")
    words.add_argument("program", nargs="?", help="the program to measure; without it, what ./outline builds")
    given = words.parse_args()
    outline = os.path.abspath(given.program) if given.program else built()
    return outline, [it for it in shapes if given.shape in (None, it.name)]


def built():
    """What ./outline becomes, which builds it first where that is needed."""
    with tempfile.TemporaryDirectory() as folder:
        with open(f"{folder}/empty", "wb") as file:
            file.write(member_file(DOCUMENT, len(MEMBERS), MEMBERS, []))
        words = [f"{TOP}/outline", "show", "empty"]
        if subprocess.run(words, cwd=folder, stdout=subprocess.DEVNULL).returncode == 125:
            sys.exit("bench: there is no program to measure")
    return f"{TOP}/crates/outline_cli/out/outline_cli"


def print_least_memory():
    with tempfile.TemporaryDirectory() as folder:
        _, least, _ = measure(["true"], folder)
    print(f"(x sum: times sha256sum's time. A run of `true` is told to take {least / MIB:.0f} MiB here, so less can't be seen.)")


def is_little(memory, length, most):
    """Whether memory is less than so many times a length; a run takes some whatever the file is."""
    return memory < most * length or memory < 16 * MIB


class Tally:
    """What held and what didn't."""

    def __init__(self):
        self.passed, self.failed = 0, []

    def expect(self, holds, why):
        self.passed += holds
        self.failed += [why] * (not holds)

    def finish(self):
        for why in self.failed:
            print(f"FAILED: {why}")
        print(f"bench: {self.passed} passed, {len(self.failed)} failed")
        sys.exit(1 if self.failed else 0)
