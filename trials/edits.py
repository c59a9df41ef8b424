"""Reads the mutants, each a block of lines in a file of trials/mutants. docs/TESTING.md says what
the lines mean."""

import os
import re
import sys

sys.path.insert(0, os.path.join(os.path.dirname(os.path.abspath(__file__)), os.pardir, ".ci"))

from common import ROOT, read, stop
from kinds import KINDS
from sources import blocks, plain

FOLDER = os.path.join("trials", "mutants")
# The file of the mutants that several kinds of maps and sets have, and the words for which each
# kind has its own.
SHARED = "maps_and_sets.edits"
WORDS = ("{module}", "{Type}", "{Std}", "{users}")
HEAD = re.compile(r"(\w+) of (impl )?(\S+)")


def has_stored_proof(path):
    crate, *names = path.split("::")
    return os.path.isdir(os.path.join(ROOT, "crates", crate, "proofs", *names))


def file_of(path):
    """Returns the file of a function, relative to the repository."""
    crate, *names = path.split("::")
    modules = [it for it in names[:-1] if it.islower() and it != "fn"] or ["lib"]
    return os.path.join("crates", crate, "src", *modules) + ".rt"


def owner_of(head):
    """Returns what a check calls the block that this line opens: a type, and its trait."""
    words = plain(head).split()
    if words[0] == "pub":
        return words[2].rstrip(":")
    if "for" not in words:
        return words[1]
    kind = words[words.index("for") + 1 :]
    return ("Ref" if "&" in kind[0] else "") + kind[-1] + words[1]


def code(line):
    """Returns a line of code without its comment and the space around it."""
    return line.partition("//")[0].strip()


class Mutant:
    """A wrong body: the function that it changes, the new lines by file and line number, the
    witness against it, if it names one, and whether the gate tries it."""

    def __init__(self, crate, block):
        head, *lines = block.splitlines()
        found = HEAD.fullmatch(head)
        if not found:
            stop(f"{crate}: this line begins no mutant: {head}")
        self.crate, self.name, self.lines = crate, f"{crate}/{found[1]}", {}
        self.function, self.of_impl = f"{crate}::{found[3]}", bool(found[2])
        self.witness, self.is_of_gate = "", False
        texts, file, old, after = {}, file_of(self.function), None, ""
        for line in lines:
            key, _, value = line.partition(" ")
            if key == "gate:":
                self.is_of_gate = crate in value.split()
            elif key == "witness:":
                self.witness = value
            elif key == "in:":
                file = os.path.join("crates", crate, value)
            elif key == "after:":
                after = value
            elif key == "-":
                old = value
            elif key == "+" and old:
                text = texts.get(file) or read(file)
                texts[file], after = self.changed(text, after, old, value), ""
            else:
                stop(f"{self.name}: this line has no meaning here: {line}")
        for file, text in texts.items():
            for at, (was, new) in enumerate(zip(read(file).split("\n"), text.split("\n"))):
                if code(was) != code(new):
                    self.lines[file, at] = new
        if not self.lines:
            stop(f"{self.name}: it changes nothing")
        if any(code(new).startswith("unreachable!") for new in self.lines.values()):
            stop(f"{self.name}: it is refused for what it stops at, and not by a clause")
        if not self.of_impl:
            self.check_name(self.function, "".join(map(read, texts)))
        if self.witness:
            self.check_name(self.witness, read(file_of(self.witness)))
            if self.witness.startswith(f"{crate}::") or has_stored_proof(self.witness):
                stop(f"{self.name}: {self.witness} is no witness: its proof may know the body")

    def check_name(self, path, text):
        """Stops if the text has no such function."""
        if not re.search(rf"(?:fn|macro_rules!) {name_of(path)}\b", text):
            stop(f"{self.name}: there is no function {path}")

    def changed(self, text, after, old, new):
        """Returns the text with `new` in place of `old`, which occurs first after `after`, or once
        in the function, or once in the file."""
        if after and text.count(after) != 1:
            stop(f"{self.name}: this stands {text.count(after)} times, and not once: {after}")
        places = [it.start() for it in re.finditer(re.escape(old), text)]
        if after:
            places = [it for it in places if it >= text.index(after) + len(after)][:1]
        own = [it for it in places if any(it in these for these in spans(text, self.function))]
        places = own if len(own) == 1 else places
        if len(places) != 1:
            stop(f"{self.name}: this stands {len(places)} times, and not once: {old}")
        return text[: places[0]] + new + text[places[0] + len(old) :]


def name_of(path):
    """Returns the name of the function or macro at this path."""
    return (path.partition("::fn::")[2] or path.rpartition("::")[2]).partition("::")[0]


def spans(text, path):
    """Returns where functions of this name stand: in the blocks of the type and trait that the path
    names, if there are any."""
    owner = path.split("::")[-2]
    rows = [(owner_of(head), begin, begin + len(body)) for begin, head, body in blocks(text)]
    rows = [it for it in rows if owner.startswith(it[0])] or [("", 0, len(text))]
    longest = max(len(it[0]) for it in rows)
    signature = rf"^( *)(?:[\w()]+ )*(?:fn|macro_rules!) {name_of(path)}\b"
    whole = re.compile(signature + r"(?:.*\{ .* \}$|(?s:.*?)^\1\})", re.M)
    return [
        range(it.start(), it.end())
        for name, begin, end in rows
        if len(name) == longest
        for it in whole.finditer(text, begin, end)
    ]


def of_kinds(block):
    """Returns the mutants of a block of several kinds of maps and sets: of those that it names, or
    of all."""
    head, _, rest = block.partition("\nkinds: ")
    kinds, _, rest = rest.partition("\n") if rest else (" ".join(KINDS), "", "")
    found = []
    for crate in kinds.split():
        text = "\n".join(filter(None, (head, rest)))
        for word, meaning in zip(WORDS, KINDS[crate]):
            text = text.replace(word, meaning)
        found.append(Mutant(crate, text))
    return found


def mutants():
    """Returns all mutants, whose names differ."""
    found = []
    for file in sorted(os.listdir(os.path.join(ROOT, FOLDER))):
        for block in read(os.path.join(FOLDER, file)).strip("\n").split("\n\n"):
            crate = file.removesuffix(".edits")
            found += of_kinds(block) if file == SHARED else [Mutant(crate, block)]
    names = [it.name for it in found]
    if twice := {it for it in names if names.count(it) > 1}:
        stop(f"two mutants have the same name: {', '.join(sorted(twice))}")
    return found
