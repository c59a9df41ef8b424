"""What a run of a program takes, including its start and its end: processor time, memory and
instructions; how two programs are compared; and the tables of that, which a script prints and may
write into RESULTS.md."""

import ctypes
import datetime
import os
import re
import subprocess
import sys
import textwrap
import time

RESULTS = os.path.join(os.path.dirname(os.path.abspath(__file__)), "RESULTS.md")
# A process begins with the peak memory of the one that starts it, so a shell starts each run: its
# own is small. The run waits until the shell has ended, and is then a child of this process.
START = 'exec 3<&0; (read go <&3; exec "$@" <"$0" >/dev/null 3<&-) & echo $!'
PR_SET_CHILD_SUBREAPER = 36
LONGEST = 5


def spent(words, file):
    """Returns the milliseconds of processor time and the KiB of peak memory that one run takes."""
    ctypes.CDLL(None).prctl(PR_SET_CHILD_SUBREAPER, 1)
    pipe = subprocess.PIPE
    with subprocess.Popen(["sh", "-c", START, file, *words], stdin=pipe, stdout=pipe) as shell:
        run = int(shell.stdout.readline())
        shell.wait()
    _, status, usage = os.wait4(run, 0)
    if status:
        sys.exit(f"{' '.join(words)}: ended with status {os.waitstatus_to_exitcode(status)}")
    return 1000 * (usage.ru_utime + usage.ru_stime), usage.ru_maxrss


def least(commands, rounds, file=os.devnull):
    """Returns the least time and the least peak memory of each command's runs. The commands are run
    in turn, `rounds` times, and up to three times as often until the least time of each was met
    twice. After `LONGEST` seconds three rounds are enough."""
    runs, start = [], time.monotonic()
    while len(runs) < 3 or time.monotonic() < start + LONGEST and (
        len(runs) < rounds or len(runs) < 3 * rounds and not is_steady(runs)
    ):
        runs.append([spent(words, file) for words in commands])
    return [[min(taken) for taken in zip(*of_one)] for of_one in zip(*runs)]


def is_steady(runs):
    """Returns whether the two least times of each command differ by 2 % at most."""
    times = [sorted(taken for taken, _ in of_one) for of_one in zip(*runs)]
    return all(len(it) > 1 and it[1] <= 1.02 * it[0] for it in times)


def valgrind(tool, pattern, words, file):
    """Returns what a tool of valgrind counts in one run."""
    with open(file, "rb") as given:
        traced = ["valgrind", f"--tool={tool}", f"--{tool}-out-file={os.devnull}", *words]
        said = subprocess.run(
            traced, stdin=given, stdout=subprocess.DEVNULL, stderr=subprocess.PIPE, check=True
        ).stderr
    return int(re.search(pattern, said)[1].replace(b",", b""))


def instructions(words, file=os.devnull):
    return valgrind("callgrind", rb"Collected : (\d+)", words, file)


def heap(words, file):
    """Returns the greatest number of bytes on the heap at one time."""
    return valgrind("dhat", rb"At t-gmax: +([\d,]+) bytes", words, file)


def ratio(port, rust):
    """Returns how many times as much the port takes, with a star if that is more."""
    times = f"{port / rust:.2f}"
    return times + " *" * (float(times) > 1)


def printed_by(*words):
    return subprocess.run(words, stdout=subprocess.PIPE, text=True, check=True).stdout.strip()


class Report:
    """What a script measured. It is printed line by line and, if the script is told to write it,
    put into RESULTS.md in one piece at the end, between the marks of the script's name."""

    def __init__(self, script, words, writes):
        self.lines = []
        self.marks = [f"<!-- {side} of {script} -->\n" for side in ("begin", "end")] * writes
        self.split()
        with open("/proc/cpuinfo", encoding="utf-8") as it:
            model = re.search(r"model name\s*: (.*)", it.read())
        command = " ".join([script, "FOLDER", *words, *["--write"] * writes])
        self.paragraph(
            f"By `{command}` on {datetime.date.today():%-d %B %Y}, on {os.cpu_count()} processors"
            f"{f' ({model[1]})' if model else ''}, beside `{printed_by('rustc', '--version')}`, "
            f"with `{printed_by('rt', 'version')}`."
        )

    def line(self, text):
        print(text, flush=True)
        self.lines.append(text + "\n")

    def paragraph(self, text):
        self.line(textwrap.fill(text, 100, break_on_hyphens=False) + "\n")

    def row(self, cells):
        self.line(f"| {' | '.join(map(str, cells))} |")

    def head(self, cells):
        self.row(cells)
        self.line("|" + "---|" * len(cells))

    def split(self):
        """Returns the page's text before the marks, and the text after them."""
        with open(RESULTS, encoding="utf-8") as it:
            text = it.read()
        if not all(text.count(mark) == 1 for mark in self.marks):
            sys.exit(f"RESULTS.md has not each once: {' '.join(self.marks)}")
        return [text.split(mark)[place] for place, mark in enumerate(self.marks)]

    def write(self):
        if not self.marks:
            return
        before, after = self.split()
        begin, end = self.marks
        with open(f"{RESULTS}.new", "w", encoding="utf-8") as it:
            it.write(f"{before}{begin}\n{''.join(self.lines).strip()}\n\n{end}{after}")
        os.replace(f"{RESULTS}.new", RESULTS)
