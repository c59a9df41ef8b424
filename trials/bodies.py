"""Programs that have all wrong bodies at once, and choose one of them when they are run.

A function with wrong bodies gets the form `if chosen::is(1) { .. } else if chosen::is(2) { .. }
else { .. }`, with the right body last. So one build serves all of them; it is not proved."""

import copy
import os
import re
import subprocess
from collections import defaultdict

from common import ROOT, below, copy_crates, crates, libraries, read, unproved, write
from program_cases import PROGRAMS, cases, outcome

FN = re.compile(r"( *)(?:pub(?:\(\w+\))? |final )*fn \w")
LARGE = re.compile(r"\b[1-8]000\d\b")
CHOSEN = """//! Chooses a wrong body.
#![tactic(auto)]

unsafe extern "C" {
    safe fn chosen_mutant() -> u32;
}

/// Returns whether the wrong body of this number is chosen.
pub fn is(number: u32) -> bool {
    chosen_mutant() == number
}
"""


def body_at(rows, at):
    """Returns the lines between which the body of the function at this line stands, or None if the
    line is in no body."""
    indent = len(rows[at]) - len(rows[at].lstrip())
    for first in range(at, -1, -1):
        head = FN.match(rows[first])
        if head and len(head[1]) < indent:
            # the first line at the function's indent that ends so, maybe its first one
            opens = re.compile(rf"{head[1]}(?:\S.*)?\{{$")
            opening = next((it for it in range(first, at) if opens.match(rows[it])), None)
            return None if opening is None else (opening, rows.index(head[1] + "}", opening))
    return None


def with_bodies(every, has_heads):
    """Returns the texts of the files with these wrong bodies, numbered from 1. Lines of no body, as
    those with the bounds of a type, are changed for all, or else what changes them is left out;
    what only changes such lines, as the statement of a law, cannot be chosen."""
    files = {file: read(file).split("\n") for it in every for file, _ in it.lines}
    bodies, heads = defaultdict(dict), {}
    for number, it in enumerate(every, 1):
        places = {(file, at): body_at(files[file], at) for file, at in it.lines}
        if not has_heads and not all(places.values()):
            continue
        for (file, at), place in places.items():
            if place:
                bodies[file, place].setdefault(number, {})[at] = it.lines[file, at]
            elif any(places.values()):
                heads[file, at] = it.lines[file, at]
    for (file, (opening, closing)), wrong in bodies.items():
        rows, inside = files[file], range(opening + 1, closing)
        choices = "".join(
            f"if chosen::is({number}) {{\n"
            + "\n".join(lines.get(at, rows[at]) for at in inside)
            + "\n} else "
            for number, lines in wrong.items()
        )
        heads[file, opening] = f"{rows[opening]}\n{choices}{{"
        heads[file, closing] = f"}}\n{rows[closing]}"
    for (file, at), row in heads.items():
        files[file][at] = row
    return {file: "\n".join(rows) for file, rows in files.items()}


class Program:
    """A program, or the tests of a crate, in which one of the wrong bodies can be chosen."""

    def __init__(self, folder, crate, texts, tests=False, write_crate=None, stdin=""):
        """Builds it in this folder, with these texts of files in place of those that are there.
        `write_crate` writes what is not in `crates/`, and returns its line of crates.txt."""
        self.path = os.path.join(folder, "program")
        names = below(crate) if crate in crates() else [*libraries(), "user_generic"]
        copy_crates(folder, names)
        for file, text in texts.items():
            if os.path.exists(os.path.join(folder, file)):
                write(os.path.join(folder, file), text)
        lines = {it: f"{it}: {' '.join(crates()[it])}" for it in names}
        if write_crate:
            lines.setdefault(crate, write_crate(folder))
        rows = [f"{row} chosen\n" for row in lines.values()]
        write(os.path.join(folder, "crates.txt"), "".join(["chosen:\n", *rows]))
        home = os.path.join(folder, "crates", "chosen")
        write(os.path.join(home, "src", "lib.rt"), CHOSEN)
        code = f'#define KEPT "{self.path}"\n' + read("trials/chosen.c")
        write(os.path.join(home, "c", "chosen.c"), code)
        args = os.path.join(ROOT, "crates", crate, "args")
        words = read(args).split() if os.path.exists(args) and not tests else []
        # the largest collections would take a minute for each body
        self.stdin, given = stdin, LARGE.sub("300", stdin)
        flags = ["--test"] if tests else ["--", *words] if words else []
        unproved(os.path.join(folder, "crates", crate), *flags, given=given)
        # what is run in turn, words and an input: each test, or the stored run and the cases
        self.runs = [(words, given.encode())]
        if tests:
            listed = self.run(0, ["--list"], b"")[1].decode()
            self.runs = [([it], b"") for it in re.findall(r"^(\S+): test$", listed, re.M)]
        elif crate in PROGRAMS:
            # the longest inputs take seconds
            every = sorted(cases(crate), key=lambda it: len(it.given))
            self.runs += [(it.words, it.given) for it in every]
        self.right = [self.run(0, *it) for it in self.runs]

    def larger(self):
        """Returns the same program with larger collections in its input."""
        found = copy.copy(self)
        found.runs = [(self.runs[0][0], LARGE.sub("4000", self.stdin).encode())]
        found.right = [found.run(0, *it) for it in found.runs]
        return found

    def run(self, number, words, given):
        """Returns what comes of a run with the wrong body of this number, 0 being none."""
        how = {"input": given, "capture_output": True, "timeout": 100}
        try:
            return outcome(subprocess.run([self.path, *words], **how, env={"MUTANT": str(number)}))
        except subprocess.TimeoutExpired:
            return None, b"", b""

    def differs(self, number):
        """Returns whether a run with this wrong body is another one than with the right body."""
        return any(self.run(number, *it) != right for it, right in zip(self.runs, self.right))
