"""Reads the examples in the comments of the libraries.

An example is a block of code between two lines of three backticks. In it a comment after a
statement says the value of the name that the statement binds or changes: of each name of a pair, or
each item of an iterator, separated by commas and `and`. The value becomes conditions of Rust.
"""

import re

from common import libraries, read
from conditions import UNREACHABLE, conditions, in_any_order_of, in_order, split
from sources import EXAMPLE, files

COMMENT = re.compile(r"^ *//[/!] ?", re.M)
# What a comment is about: the first of these after it.
ITEM = re.compile(r"^ *(?:pub |final )*(?:fn|struct|macro_rules!) (\w+)", re.M)
# A comment that says no value.
SAME = "the same items"
# What a comment says of the capacity of the name that a statement binds or changes.
ROOM = re.compile(r"(?:, with room for|the capacity is now at least) (\d+).*")
# Calls whose result is an iterator or a source, even if the comment has one item.
ITERATORS = re.compile(r"^let \w+ = \w+\.(?:intersection|adjacent_runs)\(")

# Which collections the examples of a crate make, mostly.
COLLECTIONS = {
    "ne_deque": "queue",
    "ne_heap": "heap",
    "ne_index": "index",
    "ne_string": "text",
    "ne_tree": "tree",
}


def bare(code):
    """Returns code without comments, white space, and commas before a closing bracket."""
    code = re.sub(r"(?:^|(?<=\s))//.*", "", code, flags=re.M)
    return re.sub(r",(?=[)\]}>])", "", re.sub(r"\s", "", code))


def kind_of(crate, head):
    """Returns which collections a statement of this crate's examples makes: see `conditions`."""
    if called := re.search(r"run_(map|set|vec)\(", head):
        return f"{called[1].title()}Reply"
    if re.search(r"into_(?:map|set)|: (?:BTree|Hash|Index)(?:Map|Set)<", head):
        return "std"
    if re.search(r"into_deque\(\);|queue\.split_off|: VecDeque<", head):
        return "std_queue"
    if re.search(r": String =|into_string|to_ascii", head):
        return "text"
    if re.search(r"into_vec|into_sorted_vec|NEVec::from|: (?:NE)?Vec<", head):
        return ""
    return COLLECTIONS.get(crate, "")


def conditions_of(crate, comment, head):
    """Returns the conditions that a comment says of the names that a statement binds or changes,
    and the number of values."""
    kind, room = kind_of(crate, head), ROOM.search(comment)
    named = re.fullmatch(r"(.*), and (?:the )?(\w+) is (.*)", comment)
    comment, also = (named[1], [(named[2], named[3])]) if named else (comment, [])
    in_any_order = comment.endswith(", in some order")
    comment = ROOM.sub("", comment).removesuffix(", in some order")
    comment = re.sub(r"^(None|true|false): .*", r"\1", comment)
    is_some = comment.startswith("Some: ")
    wanted = split(comment.removeprefix("Some: ")) if comment else []
    bound = re.match(r"let (?:\(([^)]*)\)|(?:mut )?(\w+))", head)
    lent = re.match(r"(?:for .* in|if let .* =) (?:&mut |&)?(\w+)", head)
    if bound:
        names = (bound[1] or bound[2]).replace("mut ", "").split(", ")
    else:
        names = [lent[1] if lent else re.match(r"\**(\w+)", head)[1]]
    if len(names) < len(wanted) or ITERATORS.match(head):
        each = in_any_order_of if in_any_order else in_order
        found = each(f"{names[0]}.into_iter()", wanted, kind)
        if is_some:
            found = [f"match {names[0]} {{ Some({names[0]}) => {{", *found, UNREACHABLE]
    else:
        found = [it for row in zip(names, wanted) for it in conditions(*row, kind)]
    found += [it for row in also for it in conditions(*row, COLLECTIONS.get(crate, ""))]
    if room:
        found.append(f"prove!({names[0]}.capacity().get() >= {room[1]});")
    return found, len(wanted) + len(also) + bool(room)


class Example:
    """An example: its code, with the conditions after each statement whose comment says values, and
    the number of values."""

    def __init__(self, crate, file, label, block, about):
        lines = COMMENT.sub("", block).rstrip("\n").split("\n")
        self.crate, self.file, self.label, self.about, self.values = crate, file, label, about, 0
        self.bare = bare("\n".join(lines))
        after = {}
        for at, line in enumerate(lines):
            comment = re.search(r"(?:^|[;})] )// (.*)", line)
            if not comment or comment[1] == SAME:
                continue
            # the statement begins at the last line at the margin that begins one, and ends at the
            # next line at the margin that ends one
            back = at if line.startswith("//") else at + 1
            head = next(it for it in reversed(lines[:back]) if re.match(r"[\w*(]", it))
            end = next(
                place
                for place in range(at, len(lines))
                if re.match(r"(?=\S).*[;}](?: //.*)?$|//", lines[place])
            )
            found, values = conditions_of(crate, comment[1], head)
            after.setdefault(end, []).extend(found)
            self.values += values
        code = []
        for at, line in enumerate(lines):
            code += [line, *after.get(at, [])]
        self.code = "".join(f"    {line}\n" if line else "\n" for line in code)


def examples():
    """Returns the examples of each file that has any, by the name of its module."""
    found = {}
    for crate in libraries():
        for file in files(crate):
            text = read(file)
            name = f"{crate}_" + re.sub(r"\W", "_", file.split("/src/")[1].removesuffix(".rt"))
            for block in EXAMPLE.finditer(text):
                about = ITEM.search(text, block.end())[1]
                before = sum(it.about == about for it in found.setdefault(name, []))
                label = f"{name}.{about}.{before + 1}" if before else f"{name}.{about}"
                found[name].append(Example(crate, file, label, block[1], about))
    return found
