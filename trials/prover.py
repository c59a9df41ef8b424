"""Which mutants the prover refuses. A function is proved from its own body and from the contracts
of what it calls, so one check judges many functions: mutants that change no function and no line in
common are tried together, each check in a copy of the repository that later ones reuse.

The libraries below a crate are those that `rt ci` built in this checkout, of the texts that are
there."""

import os
import re
import subprocess
import tempfile
from concurrent.futures import ThreadPoolExecutor
from queue import SimpleQueue

from common import QUIET, below, copy_crates, errors_of, stop, write
from toolchain import take_libraries


def rounds_of(mutants):
    """Splits the mutants into rounds. Those of a round are of one crate, and change no function and
    no line in common. Lower crates come first."""
    rounds = []
    for mutant in mutants:
        names = {mutant.function, *mutant.lines}
        for these, taken in rounds:
            if these[0].crate == mutant.crate and taken.isdisjoint(names):
                these.append(mutant)
                taken |= names
                break
        else:
            rounds.append(([mutant], names))
    return sorted((these for these, _ in rounds), key=lambda it: len(below(it[0].crate)))


def judged(folder, mutants):
    """Returns what a check says about each function that these mutants change. It uses one job,
    because each further job would read all libraries again."""
    crate, right = mutants[0].crate, {}
    for (file, at), new in (it for mutant in mutants for it in mutant.lines.items()):
        path = os.path.join(folder, file)
        with open(path, encoding="utf-8") as it:
            text = it.read()
        right.setdefault(path, text)
        rows = text.split("\n")
        rows[at] = new
        write(path, "\n".join(rows))
    # of a wrong law of an implementation the whole module is checked
    paths = [(it.function, it.of_impl) for it in mutants]
    names = [path.rpartition("::")[0] if of_impl else path for path, of_impl in paths]
    only = [word for it in names for word in ("--only", it)]
    words = ["rt", "check", "--allow-holes", "--jobs", "1", *only]
    said = subprocess.run(words, **QUIET, cwd=os.path.join(folder, "crates", crate)).stdout
    for path, text in right.items():
        write(path, text)
    if errors := errors_of(said):
        stop("\n".join(["with these mutants the code does not compile:", *errors[:9]]))
    found = dict(re.findall(r"^(?:fn|impl) (\S+): (.*)", said, re.M))
    if not found:
        stop(f"the check has judged no function:\n{said[-2000:]}")
    # if the law of an implementation has no proof, the functions that call its methods say so
    if re.search(r"error: `\w+-value`", said):
        blocks = re.findall(r"passes the block `(\S+)`, which is not proved", said)
        found.update({name: "antt refuses its law" for name in blocks})
    # for some functions whose own proof file has an error, it is only said that they are not proved
    stored = r"^(?:so far: )?(?:\./)?proofs/(\S+)/\w+\.antt:\d+:\d+: error"
    wrong = {it.replace("/", "::") for it in re.findall(stored, said, re.M)}
    for name in found:
        if name.partition("::")[2] in wrong:
            found[name] += "; its proof file, which antt refuses"
    return found


def refused(mutants):
    """Returns, for each mutant, whether the prover refuses the function that it changes."""
    copies, lanes = SimpleQueue(), len(os.sched_getaffinity(0))

    def in_a_copy(these):
        folder = copies.get()
        try:
            said = judged(folder, these)
        finally:
            copies.put(folder)
        # a callee that is not proved is no refusal
        told = re.compile(r"did not prove|antt refuses")
        found = {it: bool(told.search(said.get(it.function, ""))) for it in these}
        print(f"checked {len(these)} mutants of {these[0].crate}")
        return found

    with tempfile.TemporaryDirectory() as room, ThreadPoolExecutor(lanes) as threads:
        for copy in range(lanes):
            copies.put(os.path.join(room, str(copy)))
            copy_crates(os.path.join(room, str(copy)), below(*{it.crate for it in mutants}))
            take_libraries(os.path.join(room, str(copy)))
        found = {}
        for these in threads.map(in_a_copy, rounds_of(mutants)):
            found |= these
        return found
