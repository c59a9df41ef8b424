"""The calls that `compare/replay` makes and that the Rust crate lacks, a few others to be made
between them, and their scripts, in the form of `calls.py`. All calls on queues and priority queues
are among them. Their reference implementation is `replay_added.rs`, with `replay_queues.rs`. A
script begins with the kind of the collection and its numbers."""

import itertools
from collections import namedtuple

import calls
import keyed_calls
from calls import ANY, CHANGES, EDGES, NONE, PURE, READS
from calls import Kind, a_place, an_item, counted, lists, parsed
from keyed_calls import MAPS, SETS, WALK

NAME = "added"
REFERENCE = "replay_added"
VECTOR = ["vector"]
TREES = ["tree_map", "tree_set"]
DEQUE = ["deque"]
HEAP = ["heap"]
QUEUES = DEQUE + HEAP
# The collections whose numbers are items, and not keys.
ITEMS = VECTOR + QUEUES
SUBJECTS = VECTOR + MAPS + SETS + QUEUES


def a_span(chance, keys):
    """Returns two numbers, mostly in order, that are often near keys."""
    ends = [an_item(chance, keys) for _ in range(2)]
    return tuple(sorted(ends) if chance.random() < 0.9 else ends)


def some_calls(kinds, *draws):
    """Returns a function that draws a list of calls: of each call the number of its kind, of so
    many kinds, and its own numbers, one by each of these functions."""

    def drawn(chance, keys):
        turns = range(chance.choice([0, 1, 2, 5, 12]))
        return tuple(
            x for _ in turns for x in (chance.randrange(kinds), *(it(chance, keys) for it in draws))
        )

    return drawn


def a_number(chance, items):
    """Returns an index, an item, or two small indices."""
    draw = chance.choice([a_place, an_item, lambda chance, _: chance.randrange(64)])
    return draw(chance, items)


# What the numbers of a call may be.
KINDS = keyed_calls.KINDS | calls.KINDS
KINDS["span"] = Kind(lists(2, 2, range(4)), [(0, 2)], [(2, 9), (7, 3)], a_span)
# Lists of calls: of each call the number of its kind, and its own numbers. `tests/replay`
# says which call a kind is.
KINDS["vector_calls"] = Kind(
    [
        (*one, *other)
        for one in itertools.product(range(11), (0, 1, 2, 9))
        for other in [(), (1, 0), (7, 0)]
    ],
    [(0, 5, 8, 1, 9, 1, 1, 0)],
    [(9, 2, 7, 0, 1, 0, 1, 0, 10, 5, 8, 2, 2, 9), (6, 0, 3, 0, 5, 3, 9, 9, 4, 9, 8, 40)],
    some_calls(11, a_number),
)
KINDS["map_calls"] = Kind(
    [
        (kind, key, 7, *other)
        for kind, key in itertools.product(range(5), range(4))
        for other in [(), (0, 2, 8), (4, 2, 0)]
    ],
    [(4, 0, 0, 0, 1, 7, 4, 2, 0)],
    [(0, 8, 50, 1, 5, 60, 4, 9, 0, 3, 0, 0), (4, 7, 0, 4, 3, 0, 0, 30, 3, 2, 31, 0, 3, 0, 0)],
    some_calls(5, an_item, lambda chance, keys: chance.randrange(9)),
)
KINDS["set_calls"] = Kind(
    [
        (kind, item, *other)
        for kind, item in itertools.product(range(5), range(4))
        for other in [(), (2, 3), (1, 0)]
    ],
    [(1, 0, 0, 1, 1, 2)],
    [(0, 8, 1, 9, 2, 7, 3, 6, 4, 0), (1, 6, 1, 3, 1, 8, 2, 31, 3, 30, 4, 0)],
    some_calls(5, an_item),
)

# Names of calls, the kinds of collections that have them, the closures that they take, the kinds of
# their numbers, and what they do.
ROWS = [
    ("run_vec", VECTOR, NONE, "vector_calls", CHANGES),
    ("run_map", MAPS, NONE, "map_calls", CHANGES),
    ("run_set", SETS, NONE, "set_calls", CHANGES),
    ("swap", VECTOR, NONE, "place place", CHANGES),
    ("extend_from_slice", VECTOR, NONE, "items", CHANGES),
    ("split_off", VECTOR, NONE, "size", CHANGES),
    ("sort_unstable", VECTOR, NONE, "", CHANGES),
    ("sort_unstable_by sort_unstable_by_key", VECTOR, PURE, "", CHANGES),
    ("join counts", VECTOR, NONE, "", READS),
    ("partition", VECTOR, ANY, "", READS),
    ("into_group_map_by sum_by_key", VECTOR, ANY, "", READS),
    ("fold_by_key", VECTOR, ANY, "item", READS),
    ("remove remove_entry", MAPS[:2], NONE, "key", CHANGES),
    ("remove take", SETS[:2], NONE, "key", CHANGES),
    ("swap_remove shift_remove", [MAPS[2], SETS[2]], NONE, "key", CHANGES),
    ("swap_remove_entry shift_remove_entry", MAPS[2:], NONE, "key", CHANGES),
    ("swap_take shift_take", SETS[2:], NONE, "key", CHANGES),
    ("pop_first pop_last", TREES, NONE, "", CHANGES),
    ("pop", [MAPS[2], SETS[2]], NONE, "", CHANGES),
    ("retain", [MAPS[0], MAPS[2], SETS[0], SETS[2]], ANY, "", CHANGES),
    ("retain", [MAPS[1], SETS[1]], PURE, "", CHANGES),
    ("or_insert", MAPS[2:], NONE, "key value", CHANGES),
    ("first_mut last_mut", MAPS[2:], NONE, "value", CHANGES),
    ("values_mut", MAPS[:2], NONE, "value", CHANGES),
    ("into_keys into_values", MAPS[:2], NONE, "", READS),
    ("first_key_value last_key_value", MAPS[:1], NONE, "", READS),
    ("first last", SETS[:1], NONE, "", READS),
    ("range", TREES, NONE, "span", READS),
    ("is_empty", TREES, NONE, "", READS),
    ("new singleton push_front push_back front_mut back_mut", DEQUE, NONE, "item", CHANGES),
    ("written_one extend_one", DEQUE, NONE, "item", CHANGES),
    ("written_two", DEQUE, NONE, "pair", CHANGES),
    ("with_capacity", QUEUES, NONE, "count item", CHANGES),
    ("from_parts", DEQUE, NONE, "other", CHANGES),
    ("from_vec from_drained collect", QUEUES, NONE, "other", CHANGES),
    ("try_from_deque", DEQUE, NONE, "items", CHANGES),
    ("try_from append extend", QUEUES, NONE, "items", CHANGES),
    ("get_mut index_mut insert", DEQUE, NONE, "place item", CHANGES),
    ("swap", DEQUE, NONE, "place place", CHANGES),
    ("remove swap_remove_front swap_remove_back", DEQUE, NONE, "place", CHANGES),
    ("rotate_left rotate_right", DEQUE, NONE, "place", CHANGES),
    ("pop_front pop_back make_contiguous", DEQUE, NONE, "", CHANGES),
    ("truncate split_off", DEQUE, NONE, "size", CHANGES),
    ("resize", DEQUE, NONE, "size item", CHANGES),
    ("pop_front_if pop_back_if", DEQUE, ANY, "", CHANGES),
    ("iter_mut nonempty_iter_mut for_mut retain retain_mut", DEQUE, ANY, "", CHANGES),
    ("reserve", QUEUES, NONE, "count", CHANGES),
    ("shrink_to_fit", QUEUES, NONE, "", CHANGES),
    ("get index", DEQUE, NONE, "place", READS),
    ("contains binary_search", DEQUE, NONE, "item", READS),
    ("binary_search_by binary_search_by_key partition_point", DEQUE, PURE, "item", READS),
    ("front back first last as_slices into_deque iter_rev", DEQUE, NONE, "", READS),
    ("nonempty_iter_clone", DEQUE, NONE, "", READS),
    ("len is_empty capacity as_ref clone into_vec debug", QUEUES, NONE, "", READS),
    ("iter nonempty_iter into_iter into_nonempty_iter ref_into_iter", QUEUES, NONE, "", READS),
    ("ref_into_nonempty_iter", QUEUES, NONE, "", READS),
    ("eq cmp partial_cmp lt hash", DEQUE, NONE, "other", READS),
    ("new singleton push extend_one replace_greatest", HEAP, NONE, "item", CHANGES),
    ("try_from_heap", HEAP, NONE, "items", CHANGES),
    ("pop", HEAP, NONE, "", CHANGES),
    ("retain", HEAP, PURE, "", CHANGES),
    ("peek into_sorted_vec into_heap as_nonempty_slice", HEAP, NONE, "", READS),
]
# Other calls, which follow these in scripts.
OTHERS = [
    ("push", VECTOR, NONE, "item", CHANGES),
    ("pop", VECTOR, NONE, "", CHANGES),
    ("insert", MAPS, NONE, "key value", CHANGES),
    ("insert", SETS, NONE, "key", CHANGES),
    ("extend", MAPS, NONE, "pairs", CHANGES),
    ("extend", SETS, NONE, "keys", CHANGES),
    ("get_key_value", MAPS[:2], NONE, "key", READS),
    ("get_mut", MAPS[:2], NONE, "key value", CHANGES),
    ("get_index_of", MAPS[2:], NONE, "key", READS),
    ("get", SETS, NONE, "key", READS),
    ("iter", VECTOR + MAPS + SETS, NONE, "", READS),
]
Row = namedtuple("Row", "closures kinds does is_added")
CALLS = {
    (subject, name): Row(closures, kinds.split(), does, is_added)
    for rows, is_added in ((ROWS, True), (OTHERS, False))
    for names, subjects, closures, kinds, does in rows
    for subject in subjects
    for name in names.split()
}
# Everything that is left out on purpose, and why.
EXCUSED = [
    (
        "sort_unstable_by, sort_unstable_by_key: closures with state, and ties",
        "Rust's sorts may panic, and leave the order open, where a closure makes no total order; "
        "numbers that a closure makes equal are compared themselves",
    ),
    (
        "retain of hashed maps and sets and of heaps: closures with state",
        "in which order the closure is called is open in both",
    ),
    (
        "swap, split_off, rotate_left, rotate_right, and insert, index and index_mut of queues: "
        "places out of range; range: ends out of order",
        "Rust panics; in the port that they are in range and in order is a condition of the call. "
        "Both programs say so and make no call",
    ),
    (
        "searches in queues: which of several items is found, and queues in another order",
        "Rust leaves them open; both programs sort a copy, and write the key of what is found",
    ),
    (
        "reserve, with_capacity: sizes far above the length",
        "without memory Rust ends the process",
    ),
]


def setting(subject, keys):
    return (subject, "", tuple(keys)) if subject in ITEMS else keyed_calls.setting(subject, keys)


def is_allowed(script):
    """Returns whether a script begins with its collection, and makes only calls that it has."""
    begins = script[0][0] in SUBJECTS and script[0][2]
    return bool(begins) and all(call in CALLS for call in counted(script))


def names_of(subject, does=None):
    return [
        name for (it, name), row in CALLS.items() if it == subject and does in (None, row.does)
    ]


def each_call(subject, name, values):
    """Yields every call of this name, with these values of each kind of number."""
    row = CALLS[subject, name]
    kinds = (values(KINDS[it]) for it in row.kinds)
    for closure, *numbers in itertools.product(row.closures, *kinds):
        yield name, closure, tuple(itertools.chain(*numbers))


def a_call(chance, subject, name, keys):
    row = CALLS[subject, name]
    numbers = itertools.chain(*(KINDS[it].random(chance, keys) for it in row.kinds))
    return name, chance.choice(row.closures), tuple(numbers)


def small_scripts():
    """Yields each call on each collection of one to three small keys, and each pair of calls that
    change it on each collection of one or two."""
    for subject in SUBJECTS:
        single_calls = [
            call
            for name in names_of(subject)
            for call in each_call(subject, name, lambda kind: kind.small)
        ]
        for keys, call in itertools.product(lists(1, 3, range(4)), single_calls):
            yield [setting(subject, keys), call]
        changes = [
            call
            for name in names_of(subject, CHANGES)
            for call in each_call(subject, name, lambda kind: kind.few)
        ]
        for keys, *pair in itertools.product(lists(1, 2, range(3)), changes, changes):
            yield [setting(subject, keys), *pair]


def random_scripts(chance, count):
    """Yields scripts with so many random calls on each kind of collection."""
    for subject in SUBJECTS:
        left, names = count, names_of(subject)
        while left > 0:
            size = min(left, chance.randint(1, 12))
            pool = chance.choice([range(10), range(10), range(100), EDGES])
            keys = tuple(chance.choices(pool, k=chance.randint(1, 40)))
            drawn = (a_call(chance, subject, chance.choice(names), keys) for _ in range(size))
            yield [setting(subject, keys), *drawn]
            left -= size


def long_scripts(chance):
    """Yields each call on collections of 1, 2, 10 and 10,000 keys in scrambled order."""
    for length, subject in itertools.product((1, 2, 10, 10_000), SUBJECTS):
        rising = [2 * place + chance.randrange(2) for place in range(length)]
        for name in names_of(subject):
            keys = tuple(chance.sample(rising, length))
            yield [setting(subject, keys), a_call(chance, subject, name, keys), WALK]


def scripts(chance, count):
    return {
        "small": small_scripts(),
        "random": random_scripts(chance, count),
        "long": long_scripts(chance),
    }


# Example cases, at the front of the sample, each after the collection that it begins with. Keys are
# even, except those that equal another key by its half.
VECTOR_ROWS = """
vector 1
run_vec
run_vec 1 0 0 2 2 0
run_vec 10 5 8 10 8 24 9 2 9 4 1 0 1 0 7 0
vector 4 6 8
swap 0 2
swap 1 1
swap 0 3
extend_from_slice 8 9
extend_from_slice
split_off 1
split_off 1
split_off 2
vector 4 6 8 9
split_off 4
split_off 3
vector 3 1 4 1 5 9 2 6
sort_unstable
sort_unstable_by falling
sort_unstable_by_key digit
"""
TREE_MAP_ROWS = """
tree_map 2 24
run_map
run_map 4 2 0 0 4 26 4 2 0 4 4 0 2 4 0
tree_map 2 24
is_empty
remove 2
remove_entry 3
pop_first
pop_last
insert 4 26
remove 6
remove 3
insert 8 23
insert 0 22
remove_entry 9
first_key_value
last_key_value
values_mut 2
into_keys
into_values
tree_map 2 24 4 26 6 23 8 22
range 4 8
range 5 6
range 4 4
range 8 4
pop_first
pop_last
retain
tree_map 2 24 5 26 6 23
retain
retain zero
retain calls
tree_map 7 24
retain
iter
"""
HASHED_MAP_ROWS = """
hashed_map 2 24
run_map 4 3 0 0 4 26 4 3 0 4 5 0 3 0 0
hashed_map 2 24
remove 2
remove_entry 3
insert 4 26
remove 6
remove 3
insert 8 23
remove_entry 9
values_mut 2
into_keys
into_values
hashed_map 2 24 5 26 6 23
retain
retain zero
hashed_map 7 24
retain
iter
"""
INDEXED_MAP_ROWS = """
indexed_map 2 24 4 26 6 23
run_map 4 3 0 4 9 0 4 6 0 4 4 0 1 4 7
indexed_map 2 24
swap_remove 2
shift_remove 3
swap_remove_entry 2
shift_remove_entry 3
pop
or_insert 4 26
or_insert 5 7
or_insert 8 23
swap_remove 6
swap_remove 2
indexed_map 2 24 4 26 6 23 8 22
shift_remove 3
first_mut 5
last_mut 7
swap_remove_entry 5
indexed_map 2 24 4 26 6 23 8 22
shift_remove_entry 3
get_index_of 6
pop
get_index_of 9
insert 9 25
indexed_map 6 24 2 26 5 23
retain
retain zero
retain calls
indexed_map 7 24
retain
iter
"""
TREE_SET_ROWS = """
tree_set 2
run_set
run_set 1 2 0 4 1 2 1 4 3 5 2 5 4 0
tree_set 2
is_empty
remove 2
take 3
pop_first
pop_last
insert 4
remove 6
remove 3
tree_set 2 4 6 8
take 5
first
last
range 2 6
range 3 3
range 6 2
range 4 4
pop_first
pop_last
tree_set 2 5 6
retain
retain zero
retain calls
tree_set 7
retain
iter
"""
HASHED_SET_ROWS = """
hashed_set 2
run_set 1 3 0 4 0 5 2 5 1 3 1 4 3 2
hashed_set 2
remove 2
take 3
insert 4
remove 6
remove 3
hashed_set 2 4 6 8
take 5
hashed_set 2 5 6
retain
retain zero
hashed_set 7
retain
iter
"""
INDEXED_SET_ROWS = """
indexed_set 2 4 6
run_set 1 3 2 5 1 9 1 6 1 4 4 0
indexed_set 2
swap_remove 2
shift_remove 3
swap_take 2
shift_take 3
pop
indexed_set 2 4 6 8
swap_remove 3
swap_remove 3
indexed_set 2 4 6 8
shift_remove 3
swap_take 5
get 8
indexed_set 2 4 6 8
shift_take 3
pop
insert 9
indexed_set 6 2 5
retain
retain zero
retain calls
indexed_set 7
retain
iter
"""
DEQUE_ROWS = """
deque 1
pop_front
pop_back
remove 0
swap_remove_front 0
swap_remove_back 7
push_front 0
push_back 2
as_slices
make_contiguous
pop_back
deque 4 6 8
insert 1 5
insert 4 9
insert 6 0
rotate_left 2
rotate_left 6
rotate_right 1
swap_remove_front 3
swap_remove_back 1
remove 1
append 7 5
split_off 2
split_off 9
truncate 1
retain falling
retain
deque 2 3
debug
deque 7 1 1 2 1
debug
binary_search 1
partition_point half 1
retain_mut calls
iter_mut total
deque 4 6 7
pop_front_if
pop_front_if falling
pop_back_if half
resize 5 8
resize 1 8
pop_back_if
pop_front_if
"""
HEAP_ROWS = """
heap 1
pop
replace_greatest 0
push 2
pop
heap 3 1 4 1 5 9 2 6
pop
replace_greatest 7
replace_greatest 0
into_sorted_vec
append 8 8
pop
pop
pop
retain
retain digit
retain falling
debug
heap 7
retain
debug
"""
# Each call that may report a failed allocation, and some others, over twenty thousand items or
# keys.
LARGE_ROWS = """
vector 7
run_vec 40000*11
iter
vector 20000*7919
extend_from_slice 20000*1
split_off 20000
sort_unstable
join
counts
partition half
fold_by_key tens 7
into_group_map_by digit
sum_by_key digit
iter
tree_map 2
run_map 60000*1
iter
tree_map 40000*7919
insert 40001 7
remove 20000
retain tens
iter
hashed_map 2
run_map 60000*1
iter
hashed_map 40000*7919
insert 40001 7
remove 20000
retain tens
iter
indexed_map 2
run_map 6000*1
iter
indexed_map 40000*7919
or_insert 40001 7
swap_remove 20000
shift_remove 20002
retain tens
iter
tree_set 2
run_set 40000*7
iter
tree_set 40000*7919
remove 20000
retain half
iter
hashed_set 2
run_set 40000*7
iter
hashed_set 40000*7919
remove 20000
retain half
iter
indexed_set 2
run_set 4000*7
iter
indexed_set 40000*7919
swap_remove 20000
shift_remove 20002
retain half
iter
deque 7
new 7
singleton 7
written_two 7 8
with_capacity 20000 7
from_parts 20000*1
collect 20000*1
clone
deque 20000*7919
push_front 5
push_back 6
extend_one 7
insert 10000 8
reserve 20000
extend 20000*1
append 20000*1
split_off 30000
shrink_to_fit
iter
heap 7
new 7
singleton 7
with_capacity 20000 7
collect 20000*7919
clone
push 24166
extend_one 7
reserve 20000
extend 20000*1
append 20000*3
shrink_to_fit
pop
replace_greatest 3
retain half
into_sorted_vec
iter
"""
EXAMPLES = [
    VECTOR_ROWS,
    *(TREE_MAP_ROWS, HASHED_MAP_ROWS, INDEXED_MAP_ROWS),
    *(TREE_SET_ROWS, HASHED_SET_ROWS, INDEXED_SET_ROWS),
    *(DEQUE_ROWS, HEAP_ROWS),
]


def each(begin, numbers):
    """Returns a script with each call that the Rust crate lacks on the collection that this line
    makes. There are two values of each kind of number, and a call that has some is made with both,
    or, if it changes the collection, made twice."""
    reads, changes = [begin], []
    for (subject, name), row in CALLS.items():
        if subject != begin[0] or not row.is_added:
            continue
        made = []
        for turn in range(1 if row.does == READS and not row.kinds else 2):
            closure = "" if row.closures == NONE else ["half", "falling"][turn]
            chosen = (
                numbers[kind][(turn + row.kinds[:place].count(kind)) % 2]
                for place, kind in enumerate(row.kinds)
            )
            made.append((name, closure, tuple(itertools.chain(*chosen))))
        if row.does == READS:
            reads += made
        else:
            changes += [begin, *made]
    return reads[len(reads) == 1 :] + changes


def numbers_for(count):
    """Returns two values of each kind of number for a call on so many keys: of keys one that is
    there, and another."""
    return {
        "key": [(count,), (2 * count,)],
        "value": [(7,), (8,)],
        "place": [(0,), (count - 1,)],
        "size": [(count,), (1,)],
        "item": [(count // 2,), (count,)],
        "pair": [(5, 9), (count, 0)],
        "count": [(count,), (1,)],
        "items": [(5, 9), ()],
        "other": [(f"{count}*7919",), (f"{count}*1", 3)],
        "span": [(1, 2 * count), (count, count)],
        "vector_calls": [(0, 7, 8, count, 9, 1, 1, 0, 1, 0), (10, 5, 2, count, 6, 0, 7, 0)],
        "map_calls": [(4, count, 0, 4, 0, 0, 3, 0, 0), (0, 4 * count, 8, 4, 1, 0, 2, count, 0)],
        "set_calls": [(1, count, 1, 0, 4, 0), (0, 4 * count, 2, 1, 1, 2, 3, count)],
    }


def sample():
    """Returns the example cases; each call on a few keys, and on 1, 2 and 10 keys in scrambled
    order; and the large calls."""
    script = [call for rows in EXAMPLES for call in parsed(rows)]
    for subject in SUBJECTS:
        telling = {name: kind.telling for name, kind in KINDS.items()}
        script += each(setting(subject, (6, 3, 8, 1, 7, 12, 9)), telling)
        for count in 1, 2, 10:
            size = count if subject in ITEMS else 2 * count
            script += each((subject, "", (f"{size}*7919",)), numbers_for(count))
    return script + parsed(LARGE_ROWS)
