"""What the sources of the libraries declare: their public functions, macros and examples."""

import os
import re
from itertools import accumulate, pairwise
from typing import NamedTuple

from common import ROOT, libraries, read

BLOCK = re.compile(r"^(?:impl\b|pub trait\b)", re.M)
EXAMPLE = re.compile(r"^ *//[/!] ```\n((?: *//[/!].*\n)*?) *//[/!] ```\n", re.M)


class Function(NamedTuple):
    """A function that a user can call: of a module, of a type, of a trait, or of a trait for a
    type."""

    file: str
    # The type or the trait that has it, or "".
    owner: str
    # The trait that it implements with its arguments, or "".
    trait: str
    name: str
    # What stands between its name and its body, and where that ends in the file.
    signature: str
    end: int

    def path(self):
        owner = f"{self.trait} for {self.owner}" if self.trait else self.owner
        return "::".join(filter(None, (owner, self.name)))

    def returned(self):
        """Returns the type of what it returns, or ""."""
        head = re.split(r"\s(?:where|requires|ensures)\b", self.signature)[0].replace("->", "\0")
        depths = accumulate((it in "<([") - (it in ">)]") for it in head)
        at = next((at for at, depth in enumerate(depths) if head[at] == "\0" and not depth), None)
        return "" if at is None else head[at + 1 :].replace("\0", "->").strip()

    def is_law(self):
        """Returns whether it is a law: a function of a module that does nothing."""
        return not (self.owner or self.returned() or re.search(r": &mut", self.signature))


def files(crate):
    """Returns the files of a crate, relative to the repository."""
    found = []
    for at, _, names in os.walk(os.path.join(ROOT, "crates", crate, "src")):
        found += [os.path.join(at, it) for it in names if it.endswith(".rt")]
    return sorted(os.path.relpath(it, ROOT) for it in found)


def plain(head):
    """Returns the line that opens a block, without type parameters and conditions."""
    head, was = head.replace("->", ""), ""
    while head != was:
        head, was = re.sub(r"<[^<>]*>", "", head), head
    return head.partition(" where ")[0]


def blocks(text):
    """Yields the blocks of a file: where each begins, the line that opens it, and its text."""
    begins = [it.start() for it in BLOCK.finditer(text)]
    for begin, end in pairwise([*begins, len(text)]):
        body = text[begin:end].partition("\n}")[0]
        head = re.split(r"\{\n|^    ghost ", body, maxsplit=1, flags=re.M)[0]
        yield begin, " ".join(head.split()), body


def functions_in(file, text, indent, words, owner="", trait="", begin=0):
    """Yields the functions of a block that begins there in its file."""
    signature = rf"^{indent}{words}fn (\w+)(.*?)(?=^{indent}\{{|\{{$|;$)"
    for it in re.finditer(signature, text, re.M | re.S):
        yield Function(file, owner, trait, *it.groups(), begin + it.end())


def functions():
    """Yields the functions of the libraries that a user can call."""
    for file in (it for crate in libraries() for it in files(crate)):
        text = read(file)
        yield from functions_in(file, text, "", "pub ")
        for begin, head, body in blocks(text):
            words = plain(head).split()
            if words[0] == "pub":
                kind = ("(?:final )?", words[2].rstrip(":"), "")
            elif "for" in words:
                # with its arguments, since a type may implement a trait several times
                trait = head.partition(" for ")[0]
                trait = trait[trait.rindex(f" {words[1]}") + 1 :]
                kind = ("", words[words.index("for") + 1], trait)
            else:
                kind = ("pub ", words[1], "")
            yield from functions_in(file, body, "    ", *kind, begin)


def macros():
    """Returns the file and the text of each macro of the libraries, by its name."""
    found = {}
    for file in (it for crate in libraries() for it in files(crate)):
        for name, text in re.findall(r"^macro_rules! (\w+) \{\n(.*?)^\}", read(file), re.M | re.S):
            found[name] = (file, text)
    return found
