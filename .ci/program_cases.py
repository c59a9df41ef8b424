"""The cases of programs: words, an input, and the outcome of a run.

Those of the program of crates/CRATE are in crates/CRATE/cases, in a file for each word that its
source names. A case is a paragraph. A line of it is a mark, maybe a number, and after a space a
text:

    <   a line of the input; the number says how often it is there
    >   a line that the program must print
    !   a line that it must print as an error; the number is the exit status, if that is not 1
    $   a word, in place of the one that the file is named after; the number says how often

Texts may have the escapes of Python; with a backslash at its end, a line has no line feed.
"""

import os
import re
from collections import namedtuple

from common import ROOT, read, stop

# The programs, and the file of each that names its words.
PROGRAMS = {"ne_runs": "mode.rt", "user_programs": "main.rt"}
Case = namedtuple("Case", "file text words given outcome")


def unescaped(text):
    return text.encode().decode("unicode_escape").encode("latin-1")


def case(file, paragraph):
    """Returns the case that a paragraph of the file is."""
    rows = {mark: [] for mark in "<>!$"}
    for row in paragraph.strip("\n").split("\n"):
        found = re.fullmatch(r"([<>!$])(\d*)(?: (.*))?", row)
        if not found:
            stop(f"{file}: this is no line of a case: {row}")
        rows[found[1]].append((found[2], found[3] or ""))
    given, printed, words = (
        [it for n, text in rows[mark] for it in [unescaped(text + end)] * int(n or 1)]
        for mark, end in (("<", "\n"), (">", "\n"), ("$", ""))
    )
    if not rows["$"]:
        words = [os.path.basename(file)]
    status = next((int(n or 1) for n, _ in rows["!"]), 0)
    error = b"".join(unescaped(f"{text}\n") for _, text in rows["!"])
    return Case(file, paragraph, words, b"".join(given), (status, b"".join(printed), error))


def cases(crate):
    """Returns the cases of the program of a crate. Stops unless each of its words has one."""
    home = f"crates/{crate}"
    words = re.findall(r'^ +"(\w+)" => ', read(f"{home}/src/{PROGRAMS[crate]}"), re.M)
    if not words or sorted(words) != sorted(os.listdir(os.path.join(ROOT, home, "cases"))):
        stop(f"the files of {home}/cases are not those of the words that the program knows")
    every = []
    for file in (f"{home}/cases/{word}" for word in words):
        texts = [*filter(str.strip, read(file).split("\n\n"))]
        if not texts:
            stop(f"{file} has no case")
        every += [case(file, it) for it in texts]
    return every


def outcome(ran):
    return ran.returncode, ran.stdout, ran.stderr
