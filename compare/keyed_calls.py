"""The calls on maps and sets that `compare/replay` makes, and its scripts of calls, in the form of
`calls.py`. A script begins with the kind of the map or set, and its numbers: for a map, keys and
values in turn. Two keys are equal if their halves are equal."""

import itertools
import os
import sys
from collections import namedtuple

from program import HERE

sys.path.insert(0, os.path.join(HERE, os.pardir, ".ci"))

from kinds import KINDS
from calls import (
    CHANGES,
    EDGES,
    GREATEST,
    MAKES,
    READS,
    Kind,
    a_place,
    an_item,
    counted,
    lists,
    parsed,
    single,
)

NAME = "keyed"
REFERENCE = "replay"
MAPS = [f"{it.users}_map" for it in KINDS.values()]
SETS = [f"{it.users}_set" for it in KINDS.values()]
SUBJECTS = MAPS + SETS
# Shows the keys after a call that leaves many; the programs write only how many there are.
WALK = "iter", "", ()


def valued(keys):
    """Returns a map's numbers. The value of each key is its position, from 1."""
    return tuple(itertools.chain(*((key, place) for place, key in enumerate(keys, 1))))


def some_keys(chance, keys):
    return tuple(an_item(chance, keys) for _ in range(chance.choice([0, 1, 2, 3, 5, len(keys)])))


def like_keys(chance, keys):
    """Returns all keys, or nearly all, or the first of them, or some, in any order. Each is as it
    is, or is replaced by the key that equals it."""
    keys = chance.choice(
        [keys, keys[: len(keys) // 2 + 1], (*keys, an_item(chance, keys)), some_keys(chance, keys)]
    )
    keys = [key ^ chance.choice([0, 0, 1]) for key in keys] or [an_item(chance, [0])]
    return tuple(chance.sample(keys, len(keys)) if chance.random() < 0.5 else keys)


def same_pairs(chance, keys):
    """Returns pairs that make the same map, or nearly the same."""
    pairs = list(enumerate(keys, 1))
    chance.shuffle(pairs)
    pairs = (
        pairs
        if chance.random() < 0.5
        else pairs[1:] + [(chance.randrange(9), an_item(chance, keys))]
    )
    return tuple(itertools.chain(*((key, value) for value, key in pairs)))


SMALL_MAPS = [valued(it) for it in lists(0, 2, range(3))]
# What the numbers of a call may be, as in `calls.py`; the random values are made from the keys.
KINDS = {
    "key": Kind(
        single(range(4)),
        single([0, 3]),
        single([8, 5]),
        lambda chance, keys: (an_item(chance, keys),),
    ),
    "value": Kind(
        single([7]),
        single([7]),
        single([50, 60]),
        lambda chance, keys: (chance.choice([0, 1, 7, GREATEST]),),
    ),
    "place": Kind(
        single(range(3)),
        single([0, 1]),
        single([1, 7]),
        lambda chance, keys: (a_place(chance, keys),),
    ),
    # a size of what is made; never far above the length, see EXCUSED
    "size": Kind(
        single(range(1, 3)),
        single([2]),
        single([3, 9]),
        lambda chance, keys: (chance.randrange(len(keys) + 2),),
    ),
    "keys": Kind(lists(0, 2, range(3)), [(), (1, 4)], [(9, 4, 20), (5, 11)], some_keys),
    "pairs": Kind(
        SMALL_MAPS,
        [(), (1, 8, 4, 9)],
        [(9, 1, 4, 2, 20, 3), (5, 1, 11, 2)],
        lambda *made: valued(some_keys(*made)),
    ),
    "other": Kind(lists(1, 2, range(4)), [(1, 4)], [(3, 1, 4, 15, 9), (13, 0, 2, 9, 7)], like_keys),
    "map": Kind(
        SMALL_MAPS[1:], [(1, 8)], [(9, 2, 3, 1), (13, 6, 0, 4, 2, 2, 9, 7, 7, 5)], same_pairs
    ),
}

# Names of calls, the kinds of maps and sets that have them, the kinds of their numbers, and what
# they do. A new call needs a new name.
ROWS = [
    ("new singleton written_one", MAPS, "key value", MAKES),
    ("written_two", MAPS, "key value key value", MAKES),
    ("collect try_from_map", MAPS, "pairs", MAKES),
    ("try_from", MAPS[:2], "pairs", MAKES),
    ("with_hasher", MAPS[1:], "key value", MAKES),
    ("with_capacity with_capacity_and_hasher", MAPS[1:], "key value size", MAKES),
    ("insert extend_one get_mut", MAPS, "key value", CHANGES),
    ("extend", MAPS, "pairs", CHANGES),
    ("iter_mut nonempty_iter_mut mut_into_iter", MAPS, "value", CHANGES),
    ("values_mut", MAPS[2:], "value", CHANGES),
    ("swap_indices", MAPS[2:], "place place", CHANGES),
    ("shrink_to_fit", MAPS[1:] + SETS[1:], "", CHANGES),
    ("len as_ref debug clone", SUBJECTS, "", READS),
    ("is_empty capacity", MAPS[1:] + SETS[1:], "", READS),
    (
        "iter nonempty_iter ref_into_iter ref_into_nonempty_iter into_iter into_nonempty_iter",
        SUBJECTS,
        "",
        READS,
    ),
    ("keys values into_map", MAPS, "", READS),
    ("contains_key get get_key_value", MAPS, "key", READS),
    ("eq", MAPS, "map", READS),
    ("first last nonempty_iter_clone keys_clone values_clone", MAPS[2:], "", READS),
    ("get_index_of", MAPS[2:], "key", READS),
    ("index", MAPS[2:], "place", READS),
    ("new singleton written_one", SETS, "key", MAKES),
    ("written_two", SETS, "key key", MAKES),
    ("collect try_from_set try_from", SETS, "keys", MAKES),
    ("with_hasher", SETS[1:], "key", MAKES),
    ("with_capacity with_capacity_and_hasher", SETS[1:], "key size", MAKES),
    ("insert extend_one replace", SETS, "key", CHANGES),
    ("extend", SETS, "keys", CHANGES),
    ("reserve", SETS[1:], "size", CHANGES),
    ("into_set", SETS, "", READS),
    ("contains get", SETS, "key", READS),
    (
        "eq is_disjoint is_subset is_superset difference intersection union union_next",
        SETS,
        "other",
        READS,
    ),
]
Row = namedtuple("Row", "kinds does")
CALLS = {
    (subject, name): Row([KINDS[kind] for kind in kinds.split()], does)
    for names, subjects, kinds, does in ROWS
    for subject in subjects
    for name in names.split()
}
# Everything that is left out on purpose, and why.
EXCUSED = [
    (
        "with_capacity, with_capacity_and_hasher, reserve: sizes far above the length",
        "where there is no memory the Rust crate ends the process, and the port returns AllocError",
    ),
    (
        "index, swap_indices: places out of range",
        "the Rust crate panics; in the port that they are in range is a condition of the call. "
        "Both programs say so and make no call",
    ),
    (
        "intersection of tree sets, where one has 16 times the items of the other, or its set is "
        "not known",
        "where the first set is so much larger Rust's std may give the second set's one of two "
        "equal items; the port gives the first set's",
    ),
    (
        "capacity: how much",
        "the standard library's affair; printed is whether it is at least the length",
    ),
    (
        "hashed maps and sets: the order of iterators and of what is printed",
        "it is open in both; printed is what they yield, sorted",
    ),
    (
        "hasher",
        "a hasher has no equality; tests of the crates hold that the one that was given is kept",
    ),
    ("as_mut, Debug of iterators", "the port leaves them out"),
]


def is_open(script, call):
    """Returns whether the call after this script is an intersection of tree sets that EXCUSED
    names. It is one if its set was changed before, or if one set has at least 16 times the items of
    the other."""
    if (script[0][0], call[0]) != ("tree_set", "intersection"):
        return False
    mine, other = ({key // 2 for key in numbers or (0,)} for numbers in (script[0][2], call[2]))
    is_changed = any(CALLS[made].does != READS for made in counted(script))
    return is_changed or len(mine) >= 16 * len(other) or len(other) >= 16 * len(mine)


def is_allowed(script):
    """Returns whether a script begins with its map or set, and makes only calls that it has, none
    of which is open."""
    if (
        script[0][0] not in SUBJECTS
        or not script[0][2]
        or not all(call in CALLS for call in counted(script))
    ):
        return False
    return not any(is_open(script[:place], script[place]) for place in range(1, len(script)))


def setting(subject, keys):
    return subject, "", valued(keys) if subject in MAPS else tuple(keys)


def names_of(subject, *does):
    return [
        name
        for (it, name), row in CALLS.items()
        if it == subject and (row.does in does or not does)
    ]


def each_call(subject, name, values):
    """Yields every call of this name, with these values of each kind of number."""
    for numbers in itertools.product(*map(values, CALLS[subject, name].kinds)):
        yield name, "", tuple(itertools.chain(*numbers))


def small_scripts():
    """Yields each call on each map and set of one to three small keys, and each pair of calls that
    change it on each map and set of one or two."""
    for subject in SUBJECTS:
        single_calls = [
            call
            for name in names_of(subject)
            for call in each_call(subject, name, lambda kind: kind.small)
        ]
        for keys, call in itertools.product(lists(1, 3, range(4)), single_calls):
            yield [setting(subject, keys), call]
        changes = [
            call
            for name in names_of(subject, CHANGES, MAKES)
            for call in each_call(subject, name, lambda kind: kind.few)
        ]
        for keys, *pair in itertools.product(lists(1, 2, range(3)), changes, changes):
            yield [setting(subject, keys), *pair]


def a_call(chance, subject, name, keys):
    return (
        name,
        "",
        tuple(itertools.chain(*(kind.random(chance, keys) for kind in CALLS[subject, name].kinds))),
    )


def random_scripts(chance, count):
    """Yields scripts with so many random calls on each kind of map and set."""
    for subject in SUBJECTS:
        left, names = count, names_of(subject)
        while left > 0:
            size = min(left, chance.randint(1, 12))
            pool = chance.choice(
                [
                    range(10),
                    range(10),
                    range(100),
                    EDGES,
                    [chance.randrange(2**32) for _ in range(30)],
                ]
            )
            keys = tuple(chance.choices(pool, k=chance.randint(1, 40)))
            script = [setting(subject, keys)]
            while len(script) <= size:
                call = a_call(chance, subject, chance.choice(names), keys)
                script += [] if is_open(script, call) else [call]
            yield script
            left -= size


def long_scripts(chance):
    """Yields each call on maps and sets of 1, 2, 10 and 10,000 keys in rising, falling and
    scrambled order."""
    for length, subject in itertools.product((1, 2, 10, 10_000), SUBJECTS):
        rising = [2 * place + chance.randrange(2) for place in range(length)]
        for keys in rising, rising[::-1], chance.sample(rising, length):
            keys = tuple(keys)
            made = [setting(subject, keys)]
            looks = [a_call(chance, subject, name, keys) for name in names_of(subject, READS)]
            yield made + [call for call in looks if not is_open(made, call)]
            for name in names_of(subject, CHANGES, MAKES):
                yield [setting(subject, keys), a_call(chance, subject, name, keys), WALK]


def scripts(chance, count):
    return {
        "small": small_scripts(),
        "random": random_scripts(chance, count),
        "long": long_scripts(chance),
    }


# Example cases, at the front of the sample. Each is a small example of its call. Keys are even,
# except those that equal another key by its half.
MAP_ROWS = """
written_two 2 10 2 12
get 2
new 4 20
insert 2 21
insert 4 22
debug
extend 6 23 2 24
extend_one 8 25
extend_one 5 26
insert 5 28
clone
contains_key 2
contains_key 10
get 10
get_key_value 3
get_mut 4 27
get_mut 10 28
try_from_map
into_map
as_ref
try_from_map 4 1 2 2
collect 2 1 4 2 3 3
eq 4 2 2 3
eq 2 3 4 2
eq 2 2 4 3
eq 2 3 2 3
eq 2 3 6 2
singleton 2 1
debug
"""
SET_ROWS = """
written_two 6 2
debug
insert 3
insert 8
replace 3
replace 10
len
new 2
debug
extend 4 2
extend_one 5
extend_one 6
clone
contains 6
contains 8
get 3
get 0
is_disjoint 6 8 10
is_subset 6 8 10
is_superset 6 4
is_superset 6 8
is_subset 2 4 6 8
difference 6 8 10
intersection 7 8 10
union 7 8 10
union_next 7 8 10
try_from_set
try_from
into_set
as_ref
try_from 2 4
collect 10 2 8 4
intersection 18 5 11 0
difference 18 5 11 0
union 18 5 11 0
eq 4 8 2 10
eq 4 8 2 6
singleton 2
eq 4
eq 3
"""
# Rows for some kinds of maps and sets only. Those with room are hashed or indexed.
TRIED_ROWS = "try_from\ntry_from 4 1 2 2"
WRITTEN_ROWS = "collect 2 0 4 1\niter_mut 1\nnonempty_iter_mut 2\nmut_into_iter 3"
ROOM_ROWS = (
    "with_capacity {numbers} 9\ncapacity 9\nwith_capacity_and_hasher {numbers} 8\ncapacity 8\n"
    "shrink_to_fit\nis_empty"
)
RESERVE_ROWS = "new 2\nreserve 20\ncapacity 21\nextend 4 3\nshrink_to_fit\nlen"
PLACE_ROWS = """
collect 0 1 2 2 4 3 6 4 8 5 10 6
first
last
get_index_of 5
get_index_of 12
index 1
swap_indices 1 2
swap_indices 0 3
swap_indices 4 4
get_index_of 5
values_mut 4
insert 3 7
insert 12 8
extend 14 9 1 10 14 11
keys
values
nonempty_iter_clone
keys_clone
values_clone
"""

# Each call that may report a failed allocation, over twenty thousand keys.
LARGE_ROOM = """
with_capacity {numbers} 20000
capacity 20000
with_capacity_and_hasher {numbers} 20000
capacity 20000
"""
LARGE_MAP = """
clone
insert 80001 7
extend_one 80003 8
extend 60000*7919
"""
LARGE_SET = """
clone
insert 80001
replace 80000
extend_one 80003
extend 60000*7919
"""


def rows():
    """Returns a script of the example cases of each kind. For tree sets, each pair of sets of three
    keys or fewer is compared."""
    script = []
    for subject in SUBJECTS:
        tables = [MAP_ROWS if subject in MAPS else SET_ROWS]
        tables += [TRIED_ROWS] * (subject in MAPS[:2]) + [WRITTEN_ROWS] * (subject in MAPS)
        tables += [ROOM_ROWS.format(numbers="2 1" if subject in MAPS else "2")] * (
            subject not in ("tree_map", "tree_set")
        )
        tables += [RESERVE_ROWS] * (subject in SETS[1:]) + [PLACE_ROWS] * (subject == "indexed_map")
        script += [setting(subject, (2,)), *parsed("\n".join(map(str.strip, tables)))]
    subsets = [keys for length in (1, 2, 3) for keys in itertools.combinations((0, 2, 4), length)]
    for keys in subsets:
        script += [setting("tree_set", keys), *(("eq", "", other) for other in subsets)]
    return script


def scrambled(count):
    """Returns the numbers of each kind for a call on so many keys: a known key and another one, and
    half as many keys again. The programs write out `COUNT*STEP`."""
    keys = f"{3 * count}*7919"
    values = {
        "key": (count, 2 * count),
        "value": (7, 8),
        "place": (0, count - 1),
        "size": (count, 2),
        "map": (f"{2 * count}*7919", keys),
    }
    values |= {"keys": (keys,) * 2, "pairs": (keys,) * 2, "other": (keys, f"{2 * count}*1")}
    return {id(KINDS[kind]): [(number,) for number in numbers] for kind, numbers in values.items()}


def each(subject, turn, begin, values):
    """Returns a script with each call of this kind after its beginning, twice if no other kind has
    it. The calls that make a map or a set come last."""
    script = [begin]
    for does in READS, CHANGES, MAKES:
        for name in names_of(subject, does):
            is_single = sum(it == name for _, it in CALLS) == 1
            for again in range(1 + is_single):
                kinds = CALLS[subject, name].kinds
                numbers = (
                    values(it)[(turn + again + kinds[:place].count(it)) % 2]
                    for place, it in enumerate(kinds)
                )
                script.append((name, "", tuple(itertools.chain(*numbers))))
                is_whole = any(it in (KINDS["keys"], KINDS["pairs"]) for it in kinds)
                script += [WALK] * (is_whole or name.endswith("iter_mut") or name == "swap_indices")
    return script


def large():
    """Returns the large calls of each kind."""
    script = []
    for subject in SUBJECTS:
        is_map, has_room = subject in MAPS, subject not in ("tree_map", "tree_set")
        makes = ["collect 40000*7919"]
        makes += [LARGE_ROOM.format(numbers="2 1" if is_map else "2")] * has_room
        others = [LARGE_MAP if is_map else LARGE_SET]
        others += ["reserve 20000"] * (subject in SETS[1:]) + ["shrink_to_fit"] * has_room
        others += ["nonempty_iter_clone"] * (subject == "indexed_map")
        for keys, tables in ((2,), makes), (("40000*7919",), others):
            script += [(subject, "", keys), *parsed("\n".join(map(str.strip, tables)))]
    return script


def sample():
    """Returns the example cases; each call on a few keys; each call on 1, 2 and 10 keys, in
    scrambled order, and at last in rising and in falling order; and the large calls."""
    script = rows()
    for turn, subject in enumerate(SUBJECTS):
        script += each(
            subject, turn, setting(subject, (6, 3, 8, 1, 7, 12, 9)), lambda kind: kind.telling
        )
    for count in 1, 2, 10:
        values, twice = scrambled(count), 2 * count
        for turn, subject in enumerate(SUBJECTS):
            script += each(
                subject, turn, (subject, "", (f"{twice}*7919",)), lambda kind: values[id(kind)]
            )
            for step in 1, twice - 1:
                script += [(subject, "", (f"{twice}*{step}",)), WALK]
    return script + large()
