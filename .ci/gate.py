#!/usr/bin/env python3
"""The gate, which runs in a fresh clone: `.ci/run`. docs/TESTING.md says what each stage shows. A
stage that fails ends it. At its end stands a table of what each took, and the last line is that of
`rt ci`, as `15 passed, 0 failed`.

    .ci/run --write   also writes that table as the page that docs/TESTING.md names

The time of a crate is that of its checks, as /proc has it, read every half second; its memory is
the most that one of them takes.
"""

import datetime
import os
import re
import subprocess
import sys
import textwrap
import threading
import time
from concurrent.futures import ThreadPoolExecutor

from common import ROOT, libraries, stop, write

# The stages: those that take no time, those that run beside each other, those that prove, and those
# that run what `rt ci` made.
BEFORE = (".ci/public-names", "trials/run --fit")
BESIDE = (".ci/does-not-compile", ".ci/examples", ".ci/tests")
PROVE = ("rt ci", ".ci/examples --prove")
AFTER = ("trials/run --gate", ".ci/cases", ".ci/failing-allocations")
PAGE = os.path.join(ROOT, "docs", "TIMES.md")
TICK = os.sysconf("SC_CLK_TCK")
HEAD = (
    "Written by `.ci/run --write` on a machine with {processors} processors, {when}: processor "
    "time in seconds, and the most memory that a check takes. The crates are those of `rt ci`. "
    "{kept}"
)


class Checks:
    """The checks that run below this process, read until `stop` is called: the seconds and the
    greatest memory of each, by its process, with the name of its crate."""

    def __init__(self):
        self.found, self.over = {}, threading.Event()
        self.thread = threading.Thread(target=self.read_all)
        self.thread.start()

    def read_all(self):
        while not self.over.wait(0.5):
            for number in filter(str.isdigit, os.listdir("/proc")):
                try:
                    self.read_one(number)
                except (OSError, ValueError):
                    # it has ended
                    pass

    def is_below(self, number):
        """Returns whether the process is one of those that this one has started."""
        while number not in ("0", str(os.getpid())):
            number = self.rows(number)[1]
        return number != "0"

    @staticmethod
    def rows(number):
        with open(f"/proc/{number}/stat", encoding="utf-8") as it:
            return it.read().rpartition(")")[2].split()

    def read_one(self, number):
        with open(f"/proc/{number}/cmdline", "rb") as it:
            words = it.read().decode(errors="replace").split("\0")
        if os.path.basename(words[0]) != "rattle" or "--crate-name" not in words:
            return
        if not self.is_below(number):
            return
        name = words[words.index("--crate-name") + 1]
        rows = self.rows(number)
        with open(f"/proc/{number}/status", encoding="utf-8") as it:
            most = re.search(r"VmHWM:\s+(\d+)", it.read())
        if not most:
            # it has ended, and is not waited for yet
            return
        # without those that it has waited for, which are read themselves
        seconds = sum(map(int, rows[11:13])) / TICK
        self.found[number, rows[19]] = name, seconds, int(most[1]) / 2**20

    def stop(self):
        """Returns the seconds and the memory of each crate."""
        self.over.set()
        self.thread.join()
        crates = {}
        for name, seconds, memory in self.found.values():
            before = crates.get(name, (0, 0))
            crates[name] = before[0] + seconds, max(before[1], memory)
        return crates


def run(words, table, is_beside=False):
    """Runs a stage, adds what it took to the table, and returns its lines. A stage that fails ends
    the gate. If others run beside it, its lines are printed at its end."""
    head, said = f"== {words}\n", []
    print("" if is_beside else head, end="", flush=True)
    stage = subprocess.Popen(words.split(), cwd=ROOT, stdout=subprocess.PIPE, text=True)
    for line in stage.stdout:
        print("" if is_beside else line, end="", flush=True)
        said.append(line)
    _, status, used = os.wait4(stage.pid, 0)
    stage.returncode = os.waitstatus_to_exitcode(status)
    print("".join([head, *said]) if is_beside else "", end="", flush=True)
    table[words] = used.ru_utime + used.ru_stime, 0
    if stage.returncode:
        for line in said:
            if re.search(r"NOT PROVED|FAILED|\berror\b", line):
                print(line, end="")
        stop(f"{words} failed, at the lines above")
    return said


def text_of(table, proofs, kept):
    """Returns the page: the stages, the crates that were proved, and what all take together."""
    rows = [f"| `{name}` | {seconds:.0f} | |" for name, (seconds, _) in table.items()]
    rows += [f"| {name} | {took[0]:.0f} | {took[1]:.1f} |" for name, took in sorted(proofs.items())]
    whole = sum(seconds for seconds, _ in table.values())
    of_libraries = sum(proofs.get(it, (0, 0))[0] for it in libraries())
    rows.append(f"| all stages | {whole:.0f} | |")
    if of_libraries and not kept:
        rows.append(f"| the {len(libraries())} libraries | {of_libraries:.0f} | |")
        rows.append(f"| all stages, in times of the libraries | {whole / of_libraries:.2f} | |")
    said = kept or "Every proof was made in this run."
    when = f"{datetime.date.today():%-d %B %Y}"
    head = HEAD.format(processors=len(os.sched_getaffinity(0)), when=when, kept=said)
    rows = ["| Stage or crate | s | GiB |", "|---|---|---|", *rows]
    return "\n".join(["# What the gate took", "", textwrap.fill(head, 100), "", *rows, ""])


def main(words):
    begin, table = time.monotonic(), {}
    for stage in BEFORE:
        run(stage, table)
    with ThreadPoolExecutor() as threads:
        [*threads.map(lambda stage: run(stage, table, is_beside=True), BESIDE)]
    checks = Checks()
    try:
        said, _ = (run(stage, table) for stage in PROVE)
    finally:
        proofs = checks.stop()
    for stage in AFTER:
        run(stage, table)
    kept = next((it for it in said if "are kept from earlier runs" in it), "")
    text = text_of(table, proofs, kept and "Some proofs were kept from earlier runs.")
    print(f"{text}\nin all {(time.monotonic() - begin) / 60:.0f} minutes by the clock")
    if words == ["--write"]:
        write(PAGE, text)
    print(said[-1], end="")


main(sys.argv[1:])
