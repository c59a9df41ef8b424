"""The calls on vectors that `compare/replay` makes, and its scripts of calls. A call has a name,
the name of its closure or "", and numbers. A script begins with the vector: `vector` and its
items."""

import glob
import itertools
import os
import re
from collections import namedtuple

from program import HERE

NAME = "vectors"
# The reference implementation.
REFERENCE = "replay"
GREATEST = 2**32 - 1
EDGES = sorted(
    {
        x
        for power in range(33)
        for x in (2**power - 1, 2**power, 2**power + 1)
        if x <= GREATEST
    }
    | {0}
)
# The closures, the simplest first. What those of PURE return depends only on the number that they
# are passed; what the others return depends on their state too.
PURE = ["same", "zero", "half", "tens", "digit", "falling"]
ANY = [*PURE, "calls", "pairs", "total"]
NONE = [""]
# What a call does to the vector.
READS, CHANGES, MAKES = range(3)


def lists(shortest, longest, values):
    return [
        it
        for length in range(shortest, longest + 1)
        for it in itertools.product(values, repeat=length)
    ]


def single(values):
    return [(value,) for value in values]


def an_item(chance, items):
    """Returns a number that is often one of the vector's items, or next to one."""
    beside = min(GREATEST, chance.choice(items) + 1)
    return chance.choice(
        [
            chance.choice(items),
            chance.choice(items),
            beside,
            chance.randrange(10),
            chance.choice(EDGES),
            GREATEST,
        ]
    )


def a_place(chance, items):
    """Returns an index that is often near the vector's length."""
    length = len(items)
    known = 0, 1, length // 2, length - 1, length, length + 1, GREATEST
    return chance.choice([*known, chance.randrange(length), chance.choice(EDGES)])


def some_items(chance, items):
    return tuple(an_item(chance, items) for _ in range(chance.choice([0, 1, 2, 3, 5, len(items)])))


def like_vector(chance, items):
    """Returns the vector's items, or nearly the same items."""
    at = chance.randrange(len(items))
    changed = (*items[:at], an_item(chance, items), *items[at + 1 :])
    return chance.choice(
        [
            items,
            items[: at + 1],
            (*items, an_item(chance, items)),
            changed,
            (an_item(chance, items),),
        ]
    )


# What the numbers of a call may be: the values in small scripts, in pairs of calls and in the
# sample, and the random values for a vector.
Kind = namedtuple("Kind", "small few telling random")
KINDS = {
    "item": Kind(
        single(range(4)),
        single([1]),
        single([5, 8]),
        lambda chance, items: (an_item(chance, items),),
    ),
    "pair": Kind(
        lists(2, 2, range(4)),
        [(1, 2)],
        [(1, 4), (3, 9)],
        lambda chance, items: (an_item(chance, items), an_item(chance, items)),
    ),
    "place": Kind(
        single(range(5)),
        single([0, 2]),
        single([2, 7]),
        lambda chance, items: (a_place(chance, items),),
    ),
    "size": Kind(
        single(range(1, 5)),
        single([1, 2]),
        single([3, 9]),
        lambda chance, items: (a_place(chance, items),),
    ),
    # a size of what is made, or how often something is done; never far above the length, see
    # EXCUSED
    "count": Kind(
        single(range(1, 5)),
        single([2]),
        single([3, 9]),
        lambda chance, items: (chance.randrange(len(items) + 2),),
    ),
    "items": Kind(lists(0, 2, range(2)), [(), (0, 2)], [(5, 9, 2), ()], some_items),
    "other": Kind(
        lists(1, 3, range(3)), [(1, 0)], [(3, 1, 4, 1, 5, 9, 2, 6), (7, 7, 0, 13)], like_vector
    ),
}

# Names of calls, the closures that they take, the kinds of their numbers, and what they do to the
# vector. A new call needs a new name.
ROWS = [
    ("new singleton nev_one", NONE, "item", MAKES),
    ("nev_two nev_three", NONE, "pair", MAKES),
    ("from_elem with_capacity nev_many", NONE, "count item", MAKES),
    ("from_parts", NONE, "other", MAKES),
    ("try_from_vec try_from_slice try_from", NONE, "items", MAKES),
    ("first_mut last_mut push extend_one", NONE, "item", CHANGES),
    ("get_mut index_mut insert", NONE, "place item", CHANGES),
    ("remove swap_remove", NONE, "place", CHANGES),
    ("append extend", NONE, "items", CHANGES),
    ("truncate", NONE, "size", CHANGES),
    ("as_mut_slice reverse pop dedup sort", NONE, "", CHANGES),
    (
        "iter_mut nonempty_iter_mut for_mut retain retain_mut dedup_by dedup_by_key",
        ANY,
        "",
        CHANGES,
    ),
    ("sort_by sort_by_key", PURE, "", CHANGES),
    ("binary_search", NONE, "item", READS),
    ("binary_search_by binary_search_by_key partition_point", PURE, "item", READS),
    (
        "first last len is_empty capacity as_ref split_first split clone into_vec debug",
        NONE,
        "",
        READS,
    ),
    ("iter nonempty_iter nonempty_iter_clone into_iter ref_into_iter", NONE, "", READS),
    ("into_nonempty_iter ref_into_nonempty_iter", NONE, "", READS),
    ("get index", NONE, "place", READS),
    ("contains", NONE, "item", READS),
    ("eq cmp partial_cmp lt hash", NONE, "other", READS),
    ("slice_first slice_last slice_len slice_is_empty slice_as_ref slice_clone", NONE, "", READS),
    ("slice_iter slice_nonempty_iter slice_into_iter slice_ref_into_iter", NONE, "", READS),
    ("slice_into_nonempty_iter slice_ref_into_nonempty_iter", NONE, "", READS),
    ("slice_index", NONE, "place", READS),
    ("slice_try_from", NONE, "items", READS),
    ("slice_eq slice_cmp slice_partial_cmp slice_hash", NONE, "other", READS),
    ("slice_chunks nonempty_chunks chunk_sizes", NONE, "size", READS),
    ("all any find reduce", ANY, "", READS),
    ("nth skip", NONE, "place", READS),
    ("count next sum product max min all_unique", NONE, "", READS),
    ("fold", ANY, "item", READS),
    ("max_by min_by max_by_key min_by_key", ANY, "", READS),
    ("filter filter_map skip_while take_while unzip", ANY, "", READS),
    ("sorted_by_key", PURE, "", READS),
    ("collect_nevec collect_vec collect_chars collect_char_refs collect_strs", NONE, "", READS),
    ("collect_strings collect_cows collect_path", NONE, "", READS),
    ("collect_unit collect_result collect_tree_map collect_tree_set", ANY, "", READS),
    ("collect_hash_map collect_hash_set", ANY, "pair", READS),
    ("cloned copied peekable enumerate", NONE, "", READS),
    ("map flat_map", ANY, "", READS),
    ("take", NONE, "size", READS),
    ("chain try_into_nonempty_iter", NONE, "items", READS),
    ("once peek_mut intersperse", NONE, "item", READS),
    ("zip cartesian_product", NONE, "other", READS),
    ("group_by", ANY, "", READS),
    ("group_by_stopped take_runs", ANY, "count", READS),
    ("array_len array_slice array_vec array_iter array_ref_iter", NONE, "pair", READS),
    ("array_longest", NONE, "item", READS),
]
Row = namedtuple("Row", "closures kinds does")
CALLS = {
    name: Row(closures, [KINDS[kind] for kind in kinds.split()], does)
    for names, closures, kinds, does in ROWS
    for name in names.split()
}
NAMES = list(CALLS)
# The sort that comes before each search.
SORTS = {
    "binary_search": "sort",
    "binary_search_by": "sort_by",
    "binary_search_by_key": "sort_by_key",
    "partition_point": "sort_by_key",
}
# Everything that is left out on purpose, and why.
EXCUSED = [
    (
        "sort_by, sort_by_key, sorted_by_key: closures with state",
        "Rust's sorts may panic, and leave the order open, where a closure makes no total order",
    ),
    (
        "binary_search, binary_search_by, binary_search_by_key, partition_point: closures with "
        "state, and vectors in another order",
        "Rust leaves the result open, so the matching sort stands before each",
    ),
    (
        "how often the closure of a sort or a search is called",
        "it is open in both, and tests hold searches and `sort_unstable_by_key` to std's; both "
        "programs call a copy, which is not counted",
    ),
    (
        "from_elem, with_capacity, nev_many: sizes far above the length",
        "where there is no memory the Rust crate ends the process, and the port returns AllocError",
    ),
    (
        "remove, swap_remove, insert, index, index_mut: places out of range, but for the removals "
        "at length one",
        "the Rust crate panics; in the port that they are in range is a condition of the call. "
        "Both programs say so and make no call",
    ),
    (
        "capacity: how much",
        "the standard library's affair; printed is whether it is at least the length",
    ),
    (
        "collect_hash_map, collect_hash_set: the order",
        "it is open in both; printed are the size and what is found",
    ),
    ("shuffle, choose, serde", "features of the Rust crate that ask for crates besides"),
    ("group_by_stopped: far more turns than there are runs", "no difference: each turn is written"),
]


def setting(items):
    return "vector", "", tuple(items)


def prepared(call):
    """Returns the call, after its sort if it is a search."""
    name, closure, _ = call
    return [(SORTS[name], closure, ()), call] if name in SORTS else [call]


def is_allowed(script):
    """Returns whether a script begins with its vector, and has each search right after its sort."""
    behind = zip(script, script[1:])
    searches = all(
        first[:2] == (SORTS[name], closure) for first, (name, closure, _) in behind if name in SORTS
    )
    return script[0][0] == "vector" and bool(script[0][2]) and searches


def each_call(name, values):
    """Yields every call of this name, with these values of each kind of number."""
    row = CALLS[name]
    for closure, *numbers in itertools.product(row.closures, *map(values, row.kinds)):
        yield name, closure, tuple(itertools.chain(*numbers))


def small_scripts():
    """Yields each call on each vector of one to three small items, and each pair of calls that
    change the vector on each vector of one or two."""
    single_calls = [call for name in NAMES for call in each_call(name, lambda kind: kind.small)]
    for items in lists(1, 3, range(3)):
        yield from ([setting(items), *prepared(call)] for call in single_calls)
    changes = [
        call
        for name in NAMES
        if CALLS[name].does != READS
        for call in each_call(name, lambda kind: kind.few)
    ]
    for items, *pair in itertools.product(lists(1, 2, range(3)), changes, changes):
        yield [setting(items), *pair]


def a_vector(chance, length):
    """Returns a vector with few or many different items."""
    few = chance.sample(range(10), chance.randint(1, 4))
    pool = chance.choice(
        [few, range(10), range(100), EDGES, [chance.randrange(2**32) for _ in range(30)]]
    )
    items = chance.choices(pool, k=length)
    return tuple(sorted(items) if chance.random() < 0.2 else items)


def a_call(chance, name, items):
    """Returns a random call of this name on these items, after its sort if it is a search."""
    numbers = itertools.chain(*(kind.random(chance, items) for kind in CALLS[name].kinds))
    return prepared((name, chance.choice(CALLS[name].closures), tuple(numbers)))


def a_script(chance, items, size):
    """Returns a script of so many calls on these items."""
    script = []
    while len(script) < size:
        calls = a_call(chance, chance.choice(NAMES), items)
        script += calls if len(script) + len(calls) <= size else []
    return [setting(items), *script]


def random_scripts(chance, count):
    while count > 0:
        size = min(count, chance.randint(1, 12))
        yield a_script(chance, a_vector(chance, chance.randint(1, 40)), size)
        count -= size


def long_scripts(chance):
    """Yields twenty scripts of ten calls on thousands of items, and each call alone on three such
    vectors."""
    vectors = (a_vector(chance, chance.randint(1000, 5000)) for _ in itertools.count())
    for _ in range(20):
        yield a_script(chance, next(vectors), 10)
    for name, items in zip(NAMES * 3, vectors):
        yield [setting(items), *a_call(chance, name, items)]


# Example cases of a vector's calls, at the front of the sample.
EXAMPLES = """
new 7
push 8
from_elem 3 1
with_capacity 5 1
from_parts 1 2 3 4 5
try_from_slice
try_from_slice 1 2
try_from_vec
try_from
try_from 1 2
into_vec
new 1
split
split_first
first
last
len
is_empty
pop
remove 7
swap_remove 7
remove 0
swap_remove 0
try_from_vec 1 2 3 4
swap_remove 1
swap_remove 2
remove 0
pop
push 5
pop
try_from_vec 1 2 3
insert 1 4
insert 4 5
insert 0 42
new 1
append 2 3
extend 4 5 6
truncate 2
truncate 9
reverse
try_from_vec 1 3
retain
retain_mut
try_from_vec 0 1 2 3
retain tens
retain
try_from_vec 1 2 3 4
retain calls
try_from_vec 10 20 30
contains 20
contains 25
get 2
get 3
index 1
capacity
as_ref
first_mut 11
last_mut 31
index_mut 1 21
get_mut 1 22
get_mut 3 9
as_mut_slice
try_from_vec 1 5 4 3 2 1
sort
try_from_vec 10 20 21 30 20
dedup_by_key tens
try_from_vec 1 2
into_iter
into_nonempty_iter
eq 1 2
eq 1 2 0
lt 1 2 0
cmp 1 2
cmp 1 1
partial_cmp 1 3
hash 1 2
hash 2 1
try_from_vec 1 2 3
find
any
try_from_vec 2 4 7 8 9
skip_while
take_while
try_from_vec 7 5 6
map total
try_from_vec 7 5
flat_map total
try_from_vec 1 2 3 4 1 5
all_unique
try_from_vec 2 3 4 1 5
all_unique
try_from_vec 0 1
cartesian_product 7 8
try_from_vec 1
intersperse 0
try_from_vec 1 2
clone
slice_clone
nonempty_iter_clone
copied
collect_unit
try_from_vec 1 2 3
intersperse 0
flat_map
max_by calls
try_from_vec 0 1 2
nth 2
nth 3
try_from_vec 0 1 2 3
peek_mut 7
try_from_vec 1 1 2
collect_vec
collect_hash_set 1 2
collect_tree_set
try_from_vec 1 1 2 2
group_by
try_from_vec 1 1 2 3
group_by
try_from_vec 9 9 9 9 9
group_by pairs
try_from_vec 4 4
group_by calls
try_from_vec 1 1 1 2 3 2 2 1
dedup
try_from_vec 2 1 8
collect_result
try_from_vec 2 4 8
collect_result
try_from_vec 2 4 6 7 8
take_while
skip_while
try_from_vec 1 2 3 3 5 6 7
partition_point 5
try_from_vec 0 1 1 1 1 2 3 5 8 13 21 34 55
binary_search 13
binary_search 4
binary_search 100
try_from_vec 1 2 3 4 5 6 7
nonempty_chunks 3
nonempty_chunks 4294967295
try_from_vec 20 18 30 30
sorted_by_key falling
try_from_vec 5
chain
"""
# Each call that may report a failed allocation, over twenty thousand items; an array has at most
# 32.
LARGE = """
vector 7
from_elem 20000 7
with_capacity 20000 7
nev_many 20000 7
from_parts 20000*7919
try_from_slice 20000*7919
vector 20000*7919
push 5
extend_one 6
insert 20002 7
append 20000*1
extend 20000*1
iter
sort
sort_by falling
sort_by_key half
iter
vector 20000*1
clone
slice_clone
nonempty_iter_clone
array_longest 7
cloned
all_unique
unzip half
sorted_by_key falling
intersperse 5
cartesian_product 7
group_by
group_by zero
take_runs 20000
take_runs zero 1
collect_nevec
collect_vec
collect_unit
collect_result zero
collect_tree_map
collect_hash_map 5
collect_tree_set
collect_hash_set 5
collect_chars
collect_char_refs
collect_strs
collect_strings
collect_cows
vector 20000*5
collect_path
vector 7
cartesian_product 20000*1
"""


def parsed(table):
    """Returns the script that the rows of a table write."""
    split = [row.split() for row in table.strip().splitlines()]
    return [
        (name, "".join(it for it in words if it in ANY), tuple(it for it in words if it not in ANY))
        for name, *words in split
    ]


def scripts(chance, count):
    return {
        "small": small_scripts(),
        "random": random_scripts(chance, count),
        "long": long_scripts(chance),
    }


def counted(script):
    """Returns what is counted in a script: its calls, without the line that it begins with."""
    return [(script[0][0], name) for name, _, _ in script[1:]]


def sample():
    """Returns the example cases, then two turns of each call, and then the large calls. In a turn,
    all calls but those that make a vector are on the same vector."""
    script = parsed(EXAMPLES)
    for turn, items in enumerate([(3, 1, 4, 1, 5, 9, 2, 6), (7, 7, 0, 12, 12, 35, GREATEST)]):
        is_set = False
        for name, row in CALLS.items():
            closure = {
                1: "",
                len(PURE): ["half", "falling"][turn],
                len(ANY): ["half", "pairs"][turn],
            }[len(row.closures)]
            calls = prepared(
                (name, closure, tuple(itertools.chain(*(kind.telling[turn] for kind in row.kinds))))
            )
            script += calls if is_set or row.does == MAKES else [setting(items), *calls]
            is_set = all(CALLS[it].does == READS for it, _, _ in calls)
    return script + parsed(LARGE)


def line(call):
    return " ".join(map(str, filter(None, (call[0], call[1], *map(str, call[2])))))


def text(scripts):
    """Returns the text that the programs read."""
    return "".join(f"{line(call)}\n" for script in scripts for call in script).encode()


def arms():
    """Returns the names of calls in the match arms of the program."""
    named = set()
    for path in glob.glob(os.path.join(HERE, os.pardir, "tests", "replay", "*.rt.txt")):
        if os.path.basename(path) != "closure.rt.txt":
            with open(path) as it:
                for arm in re.findall(r'^ *(".*?)=>|call\.name [!=]= ("\w+")', it.read(), re.M):
                    named.update(re.findall(r'"(\w+)"', "".join(arm)))
    return named
