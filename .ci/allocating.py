"""The public functions that may report a failed allocation, also as the error of a format that is
read, and the names by which the tests with failing allocations report on them; and those that ask
for no memory, with the tests that call them."""

import re
from itertools import accumulate

from common import libraries, read
from kinds import KINDS
from sources import files, functions, macros

# How the tests name a trait's method for a type, and the method that an iterator comes from.
TYPES = {"NEVec": ""} | {
    f"NE{it.type}{kind}": f" of {it.said} {kind.lower()}"
    for it in KINDS.values()
    for kind in ("Map", "Set")
}
ITEMS = {
    "ClonedIter": "NonEmptyIterator::cloned",
    "DividedIter": "GroupBy::next",
    "ProductIter": "NonEmptyItertools::cartesian_product",
    "RawIntersperse": "NonEmptyIterator::intersperse",
}
# And the method whose closure a way of dividing items asks.
DIVISIONS = {
    "ByKey": "GroupBy::next",
    "ByTest": "NonEmptyIterator::runs_by",
    "ByTriedKey": "NonEmptyIterator::try_group_by",
}
# Types that keep the memory of the vector that they are collected from.
DRAINED = ("NEVec", "Vec", "NEVecDeque", "NEBinaryHeap")
# Calls that never allocate, although their type allows an `AllocError`; methods of traits that have
# a body only in an implementation, each of which is tested; what folds by key and what reads a
# collection call, which the tests of those call.
EXCUSED = {
    *("NESlice::clone", "Iter::clone", "NonEmptyIter::clone", "collect into ()"),
    *(f"FromNonEmptyIterator::from_drained of {it}" for it in DRAINED),
    *("FromNonEmptyIterator::from_nonempty_iter", "NonEmptyMap::put", "Division::key"),
    *("KeyedMap::put_value", "KeyedMap::with_entry", "NonEmptySet::add", "NonEmptySet::put"),
    *("Reader::read", "read_map", "read_seq"),
}
# What is called by a sign, by std or by `indexmap`, writes to what it is given, or keeps its room
# if it is refused less.
BY_OTHERS = {"eq", "index", "index_mut", "deref", "hash", "fmt", "serialize", "shrink_to_fit"}
BY_OTHERS |= {"compare", "equivalent", "goes_on"}
# The files of `tests/library/no_memory` with the calls of each crate.
FILES = dict.fromkeys(("ne_iter", "ne_products"), "chains") | dict.fromkeys(
    ("ne_deque", "ne_heap", "ne_string"), "queues"
)


def call_of(it):
    """Returns the name that the tests have for a function."""
    trait = it.trait.partition("<")[0]
    if trait == "Iterator":
        return ITEMS.get(it.owner, it.path())
    if trait == "Division":
        return DIVISIONS[it.owner]
    if trait in ("KeyedMap", "Reader"):
        return f"{trait}::{it.name}"
    if trait in ("Singleton", "NonEmptyMap", "NonEmptySet"):
        return f"{trait}::{it.name}{TYPES.get(it.owner, f' of {it.owner}')}"
    if trait == "FromNonEmptyIterator" and it.name == "from_drained":
        return f"{trait}::{it.name} of {it.owner}"
    if trait == "FromNonEmptyIterator":
        return "NonEmptyIterator::collect" if it.owner == "NEVec" else f"collect into {it.owner}"
    if trait == "NonEmptyArrayExt":
        return f"{trait}::{it.name}"
    return "::".join(filter(None, (it.owner, it.name)))


def may_fail():
    """Returns the functions that may report a failed allocation, except for the excused calls."""
    named = re.compile(r"Alloc(?:Error|Failed)\b|\bF::Error\b")
    every = [it for it in functions() if named.search(it.returned())]
    return [it for it in every if call_of(it) not in EXCUSED]


def due():
    """Returns the names of all calls that may report a failed allocation: of functions, of macros
    that call one, and of the clones that are derived for types with parameters."""
    found = {call_of(it) for it in may_fail()}
    found |= {name for name, (_, text) in macros().items() if "$alloc" in text}
    derived = r"^#\[derive\(.*\bClone\b.*\)\]\npub (?:struct|enum) (\w+)<"
    for file in (it for crate in libraries() for it in files(crate)):
        found |= {f"{it}::clone" for it in re.findall(derived, read(file), re.M)}
    return found - EXCUSED


def reported_on(line, names):
    """Returns the one of these names that the line of a test begins with, or "" if there is
    none."""
    return max((it for it in names if f"{line} ".startswith(f"{it} ")), key=len, default="")


def free(text):
    """Returns the names of the calls in the text that are made without memory."""
    found = set()
    for begin in (it.end() for it in re.finditer(r"\bfree!\(", text)):
        depths = accumulate((it == "(") - (it == ")") for it in text[begin:])
        end = begin + next(at for at, depth in enumerate(depths) if depth < 0)
        found |= {*re.findall(r"\b(\w+)(?:::<[^(]*>)?\(", text[begin:end])}
    return found


def untried():
    """Returns the public functions that ask for no memory and that no test calls without it."""
    calls, lacking = {}, set()
    for name in ("chains", "maps", "queues", "sets", "vectors"):
        calls[name] = free(read(f"tests/library/no_memory/{name}.rt.txt"))
    due = {call_of(it) for it in may_fail()}
    for it in functions():
        crate = it.file.split("/")[1]
        name = "maps" if "Map" in it.owner else "sets" if "Set" in it.owner else "vectors"
        if it.trait == "Iterator" or it.is_law() or call_of(it) in due | EXCUSED:
            continue
        # those of all maps are declared beside the chains
        name = "maps" if it.owner == "KeyedMap" else FILES.get(crate, name)
        if it.name not in calls[name] | BY_OTHERS:
            lacking.add(it.path())
    # it is for the crates of the collections
    return sorted(lacking - {"NonEmptyIter::new"})
