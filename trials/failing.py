"""Bodies that always report a failed allocation, one for each public function that may report one.
Most contracts allow it at any time, so no proof refuses such a body; tests do."""

import re

from allocating import may_fail
from common import read

FAILED = "return Err(AllocError);"
# The statements of iterators: an `Err` in the place of each item, or one and then `None`.
ITEMS = {
    "ClonedIter": "let _item = self.iter.next()?; return Some(Err(AllocError));",
    "DividedIter": "match mem::replace(&mut self.state, State::Ended) "
    "{ State::Ended => return None, _ => return Some(Err(AllocError)) }",
    **dict.fromkeys(
        ("ProductIter", "RawIntersperse"),
        "if self.is_over { return None; } self.is_over = true; return Some(Err(AllocError));",
    ),
}
# The collected type may not be dropped, and the body of `collect` makes a value of it.
COLLECTED = "B: FromNonEmptyIterator<Self::Item>"


class Failing:
    """A function whose body begins with statements that report a failed allocation."""

    def __init__(self, function):
        self.crate = function.file.split("/")[1]
        self.name = f"{self.crate}/{function.path()} always fails"
        text = read(function.file)
        rows, opening = text.split("\n"), text.index("{", function.end)
        at = text.count("\n", 0, opening) + 1
        self.lines = {(function.file, at): f"{statements(function)} {rows[at]}"}
        if COLLECTED in function.signature:
            begin = function.end - len(function.signature)
            head = text.count("\n", 0, text.index(COLLECTED, begin))
            self.lines[function.file, head] = rows[head].replace(COLLECTED, f"{COLLECTED} + Drop")


def statements(it):
    """Returns the statements. A source of any type may not be dropped: it is used up."""
    if it.trait == "Iterator" and it.owner in ITEMS:
        return ITEMS[it.owner]
    if "F::Error" in it.returned():
        return "return Err(from.no_memory());"
    if COLLECTED in it.signature:
        return f"let _made = B::from_nonempty_iter(alloc, self)?; {FAILED}"
    source = ""
    if "iter: I" in it.signature:
        source = "iter.into_nonempty_iter()" if "IntoNonEmptyIterator" in it.signature else "iter"
    elif re.search(r"\(\s*self,", it.signature) and (not it.trait or it.name == "append_to"):
        source = "self"
    return f"for _item in {source} {{}} {FAILED}" if source else FAILED


def always_failing():
    """Returns the bodies of the functions that have one, and not only a signature."""
    every = may_fail()
    return [Failing(it) for it in every if not read(it.file)[it.end :].lstrip().startswith(";")]
