"""The kinds of maps and sets, by crate: what the scripts, the tests and users' files call them."""

from typing import NamedTuple


class Kind(NamedTuple):
    # How the names of its modules begin, and what stands in the names of its types, and of the
    # types that these wrap: `btree_map`, `NEBTreeMap`, `BTreeMap`.
    module: str
    type: str
    std: str
    # What users' files and the stored run call it, and how it is named in a sentence.
    users: str
    said: str


KINDS = {
    "ne_tree": Kind("btree_", "BTree", "BTree", "tree", "a tree"),
    "ne_hash": Kind("", "", "Hash", "hashed", "a hashed"),
    "ne_index": Kind("index_", "Index", "Index", "indexed", "an index"),
}
