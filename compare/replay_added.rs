// Calls of `crates/test_replay` that the Rust crate lacks, with a few others between them. They are
// made on std's collections, and for index maps and sets on lists. The only entry is never removed:
// a removal returns `None` or `false` if there is no other. This program reads scripts and prints
// results in the form of `replay.rs`, and needs no crate.
#[path = "replay_queues.rs"]
mod queues;
#[allow(dead_code)] // The other program uses the rest.
#[path = "replay_script.rs"]
mod script;

use script::{write, Call, Key, Transcript};
use std::collections::{BTreeMap, BTreeSet, BinaryHeap, HashMap, HashSet, VecDeque};
use std::fmt::Debug;
use std::io::{self, Read, Write as _};

type TreeMap = BTreeMap<Key, u32>;
type HashedMap = HashMap<Key, u32>;
// Pairs with different keys, in the order of insertion.
type IndexedMap = Vec<(Key, u32)>;
type TreeSet = BTreeSet<Key>;
type HashedSet = HashSet<Key>;
// Different items, in the order of insertion.
type IndexedSet = Vec<Key>;

fn main() -> io::Result<()> {
    let mut script = String::new();
    io::stdin().read_to_string(&mut script)?;
    io::stdout().write_all(replayed(&script).as_bytes())
}

fn replayed(script: &str) -> String {
    let mut out = Transcript::default();
    let mut subject = Subject::Vector(vec![0]);
    for line in script.lines() {
        let call = Call::parsed(line);
        answered(&mut subject, &call, &mut out);
        out.said(" | ");
        out.is_sorted =
            matches!(subject, Subject::HashedMap(_) | Subject::HashedSet(_) | Subject::Heap(_));
        out.is_brief = true;
        subject.write(&call, &mut out);
        out.is_brief = false;
        out.said("\n");
    }
    out.text
}

// The items, or the one item if there are none.
fn or_one<T>(items: Vec<T>, one: T) -> Vec<T> {
    if items.is_empty() {
        vec![one]
    } else {
        items
    }
}

fn answered(subject: &mut Subject, call: &Call, out: &mut Transcript) {
    let pairs = || or_one(call.pairs(), (call.key(0), 0));
    let items = || or_one(call.items(), call.key(0));
    match call.name {
        "vector" => *subject = Subject::Vector(or_one(call.numbers.clone(), 0)),
        "tree_map" => *subject = Subject::TreeMap(pairs().into_iter().collect()),
        "hashed_map" => *subject = Subject::HashedMap(pairs().into_iter().collect()),
        "indexed_map" => *subject = Subject::IndexedMap(each_key(pairs())),
        "tree_set" => *subject = Subject::TreeSet(items().into_iter().collect()),
        "hashed_set" => *subject = Subject::HashedSet(items().into_iter().collect()),
        "indexed_set" => *subject = Subject::IndexedSet(each_once(items())),
        "deque" => *subject = Subject::Deque(queues::some_numbers(call)),
        "heap" => *subject = Subject::Heap(queues::some_numbers(call)),
        _ => subject.answered(call, out),
    }
}

enum Subject {
    Vector(Vec<u32>),
    TreeMap(TreeMap),
    HashedMap(HashedMap),
    IndexedMap(IndexedMap),
    TreeSet(TreeSet),
    HashedSet(HashedSet),
    IndexedSet(IndexedSet),
    Deque(VecDeque<u32>),
    Heap(BinaryHeap<u32>),
}

impl Subject {
    fn answered(&mut self, call: &Call, out: &mut Transcript) {
        match self {
            Subject::Vector(items) => vector(items, call, out),
            Subject::TreeMap(map) => tree_map(map, call, out),
            Subject::HashedMap(map) => hashed_map(map, call, out),
            Subject::IndexedMap(map) => indexed_map(map, call, out),
            Subject::TreeSet(set) => tree_set(set, call, out),
            Subject::HashedSet(set) => hashed_set(set, call, out),
            Subject::IndexedSet(set) => indexed_set(set, call, out),
            Subject::Deque(items) => queues::deque(items, call, out),
            Subject::Heap(heap) => queues::heap(heap, call, out),
        }
    }

    fn write(&self, call: &Call, out: &mut Transcript) {
        match self {
            Subject::Vector(items) => {
                out.yielded(items);
                out.said(&format!(" | {}", call.closure.calls()))
            }
            Subject::TreeMap(map) => out.yielded(map),
            Subject::HashedMap(map) => out.yielded(map),
            Subject::IndexedMap(pairs) => {
                out.yielded(pairs.iter().map(|(key, value)| (key, value)))
            }
            Subject::TreeSet(set) => out.yielded(set),
            Subject::HashedSet(set) => out.yielded(set),
            Subject::IndexedSet(items) => out.yielded(items),
            Subject::Deque(items) => {
                out.yielded(items);
                out.said(&format!(" | {}", call.closure.calls()))
            }
            Subject::Heap(heap) => {
                out.yielded(heap);
                out.said(&format!(" | {}", call.closure.calls()))
            }
        }
    }
}

// The reply to a call of a list of calls. It is only printed.
#[allow(dead_code)]
#[derive(Debug)]
enum Reply<T> {
    Done,
    Taken(Option<T>),
    Split(Vec<T>),
    Refused,
    Old(Option<T>),
    Added(bool),
    Removed(bool),
    Has(bool),
    Len(usize),
}

// Makes a list of calls on a vector.
fn run_vec(items: &mut Vec<u32>, call: &Call) -> Vec<Reply<u32>> {
    let mut replies = Vec::new();
    for pair in call.numbers.chunks(2) {
        let (number, len) = (pair.get(1).copied().unwrap_or(0), items.len());
        let place = number as usize;
        let mut reply = Reply::Done;
        match pair[0] % 11 {
            0 => items.push(number),
            1 => reply = Reply::Taken(unless_last(len, || items.pop())),
            2 | 3 if len == 1 => reply = Reply::Taken(None),
            2 if place < len => reply = Reply::Taken(Some(items.remove(place))),
            3 if place < len => reply = Reply::Taken(Some(items.swap_remove(place))),
            4 if place <= len => items.insert(place, number),
            5 => items.truncate(place.max(1)),
            6 => items.reverse(),
            7 => reply = Reply::Len(len),
            8 if place / 8 < len && place % 8 < len => items.swap(place / 8, place % 8),
            9 if place.max(1) <= len => reply = Reply::Split(items.split_off(place.max(1))),
            10 => items.extend([number, number / 2]),
            _ => reply = Reply::Refused,
        }
        replies.push(reply);
    }
    replies
}

// The calls on a map that a list may have. `delete` may remove the only key.
trait Map {
    fn put(&mut self, key: Key, value: u32) -> Option<u32>;
    fn value_of(&mut self, key: Key) -> Option<&mut u32>;
    fn delete(&mut self, key: Key) -> Option<u32>;
    fn size(&self) -> usize;
}

// Makes a list of calls on a map.
fn run_map<M: Map>(map: &mut M, call: &Call) -> Vec<Reply<u32>> {
    let mut replies = Vec::new();
    for three in call.numbers.chunks(3) {
        let key = Key::new(three.get(1).copied().unwrap_or(0));
        let value = three.get(2).copied().unwrap_or(0);
        replies.push(match three[0] % 5 {
            0 => Reply::Old(map.put(key, value)),
            1 => Reply::Old(map.value_of(key).map(|place| std::mem::replace(place, value))),
            2 => Reply::Has(map.value_of(key).is_some()),
            3 => Reply::Len(map.size()),
            _ => Reply::Old(unless_last(map.size(), || map.delete(key))),
        });
    }
    replies
}

// The calls on a set that a list may have. `delete` may remove the only item.
trait Set {
    fn add(&mut self, item: Key) -> bool;
    fn put(&mut self, item: Key) -> Option<Key>;
    fn holds(&self, item: Key) -> bool;
    fn delete(&mut self, item: Key) -> bool;
    fn size(&self) -> usize;
}

// Makes a list of calls on a set.
fn run_set<S: Set>(set: &mut S, call: &Call) -> Vec<Reply<Key>> {
    let mut replies = Vec::new();
    for pair in call.numbers.chunks(2) {
        let item = Key::new(pair.get(1).copied().unwrap_or(0));
        replies.push(match pair[0] % 5 {
            0 => Reply::Added(set.add(item)),
            1 => Reply::Removed(unless_last(set.size(), || set.delete(item))),
            2 => Reply::Old(set.put(item)),
            3 => Reply::Has(set.holds(item)),
            _ => Reply::Len(set.size()),
        });
    }
    replies
}

macro_rules! std_types {
    ($($Map:ty, $Set:ty;)*) => {$(
        impl Map for $Map {
            fn put(&mut self, key: Key, value: u32) -> Option<u32> {
                self.insert(key, value)
            }
            fn value_of(&mut self, key: Key) -> Option<&mut u32> {
                self.get_mut(&key)
            }
            fn delete(&mut self, key: Key) -> Option<u32> {
                self.remove(&key)
            }
            fn size(&self) -> usize {
                self.len()
            }
        }

        impl Set for $Set {
            fn add(&mut self, item: Key) -> bool {
                self.insert(item)
            }
            fn put(&mut self, item: Key) -> Option<Key> {
                self.replace(item)
            }
            fn holds(&self, item: Key) -> bool {
                self.contains(&item)
            }
            fn delete(&mut self, item: Key) -> bool {
                self.remove(&item)
            }
            fn size(&self) -> usize {
                self.len()
            }
        }
    )*};
}
std_types! { TreeMap, TreeSet; HashedMap, HashedSet; }

impl Map for IndexedMap {
    fn put(&mut self, key: Key, value: u32) -> Option<u32> {
        put(self, (key, value))
    }
    fn value_of(&mut self, key: Key) -> Option<&mut u32> {
        place_of(self, key).map(|place| &mut self[place].1)
    }
    fn delete(&mut self, key: Key) -> Option<u32> {
        place_of(self, key).map(|place| self.swap_remove(place).1)
    }
    fn size(&self) -> usize {
        self.len()
    }
}

impl Set for IndexedSet {
    fn add(&mut self, item: Key) -> bool {
        let is_new = !self.contains(&item);
        if is_new {
            self.push(item);
        }
        is_new
    }
    fn put(&mut self, item: Key) -> Option<Key> {
        match self.iter().position(|other| *other == item) {
            Some(place) => Some(std::mem::replace(&mut self[place], item)),
            None => {
                self.push(item);
                None
            }
        }
    }
    fn holds(&self, item: Key) -> bool {
        self.contains(&item)
    }
    fn delete(&mut self, item: Key) -> bool {
        let place = self.iter().position(|other| *other == item);
        place.map(|place| self.swap_remove(place)).is_some()
    }
    fn size(&self) -> usize {
        self.len()
    }
}

// Removes nothing if there is one entry.
fn unless_last<T: Default>(len: usize, removal: impl FnOnce() -> T) -> T {
    if len > 1 {
        removal()
    } else {
        T::default()
    }
}

// Puts what `retain` kept in place of the current collection, and writes how often the closure was
// called. If nothing was kept, writes that, and the current collection stays.
fn put_kept<C: Debug>(there: &mut C, kept: C, len: usize, call: &Call, out: &mut Transcript) {
    out.said(&format!("{} ", call.closure.calls()));
    if len == 0 {
        out.told(kept)
    } else {
        *there = kept
    }
}

// Whether a pair is kept. Its value is changed.
fn keeps(call: &Call, key: &Key, value: &mut u32) -> bool {
    *value = call.closure.of(value.wrapping_add(key.number()));
    *value % 2 == 0
}

// Changes each value to one that depends on the old one and on the number.
fn rewrite<'a>(values: impl IntoIterator<Item = &'a mut u32>, number: u32) {
    for value in values {
        *value = value.wrapping_mul(31).wrapping_add(number);
    }
}

fn vector(items: &mut Vec<u32>, call: &Call, out: &mut Transcript) {
    let (len, a, b) = (items.len(), call.place, call.last as usize);
    let closure = call.closure.anew();
    match call.name {
        "run_vec" => out.told(run_vec(items, call)),
        "swap" if a < len && b < len => items.swap(a, b),
        "swap" => out.said("out of range"),
        "extend_from_slice" => items.extend_from_slice(&call.numbers),
        "split_off" if call.size.get() <= len => out.told(items.split_off(call.size.get())),
        "split_off" => out.said("out of range"),
        "sort_unstable" => items.sort_unstable(),
        // Equal numbers are the same, and closures make no ties.
        "sort_unstable_by" => items.sort_unstable_by(|x, y| closure.order(*x, *y).then(x.cmp(y))),
        "sort_unstable_by_key" => items.sort_unstable_by_key(|x| (closure.of(*x), *x)),
        "push" => items.push(call.first),
        "pop" => out.told(unless_last(len, || items.pop())),
        "iter" => out.yielded(items),
        _ => consumed(items, call, out),
    }
}

// Consumers of the vector's items.
fn consumed(items: &[u32], call: &Call, out: &mut Transcript) {
    let key = |x: &u32| call.closure.of(*x);
    match call.name {
        "partition" => {
            let parts: (Vec<u32>, Vec<u32>) = items.iter().partition(|x| call.closure.holds(**x));
            out.told(parts)
        }
        "join" => out.told(items.iter().map(u32::to_string).collect::<Vec<_>>().join(", ")),
        "counts" => {
            let mut counts = IndexedMap::new();
            for x in items.iter().map(|x| Key::new(*x)) {
                match place_of(&counts, x) {
                    Some(place) => counts[place].1 += 1,
                    None => counts.push((x, 1)),
                }
            }
            out.yielded(counts)
        }
        "fold_by_key" => {
            let mut folds = HashMap::new();
            for x in items {
                let fold = folds.entry(key(x)).or_insert(7u32);
                *fold = fold.wrapping_mul(31).wrapping_add(*x);
            }
            out.told((folds.len(), folds.get(&call.first).copied()))
        }
        "sum_by_key" => {
            let mut sums: BTreeMap<u32, u64> = BTreeMap::new();
            for x in items {
                *sums.entry(key(x)).or_default() += u64::from(*x);
            }
            out.told(sums)
        }
        "into_group_map_by" => {
            let mut groups: BTreeMap<u32, Vec<u32>> = BTreeMap::new();
            for x in items {
                groups.entry(key(x)).or_default().push(*x);
            }
            out.told(groups)
        }
        _ => out.said("no such call"),
    }
}

// Calls that std's maps have.
macro_rules! std_map {
    ($map:expr, $call:expr, $out:expr) => {{
        let (map, call, out) = ($map, $call, $out);
        let (key, value) = (call.key(0), call.number(1));
        match call.name {
            "run_map" => out.told(run_map(map, call)),
            "remove" => out.told(unless_last(map.len(), || map.remove(&key))),
            "remove_entry" => out.told(unless_last(map.len(), || map.remove_entry(&key))),
            "retain" => {
                let mut kept = map.clone();
                kept.retain(|key, value| keeps(call, key, value));
                let len = kept.len();
                put_kept(map, kept, len, call, out)
            }
            "values_mut" => rewrite(map.values_mut(), call.first),
            "into_keys" => out.yielded(map.clone().into_keys()),
            "into_values" => out.yielded(map.clone().into_values()),
            "insert" => out.told(map.insert(key, value)),
            "extend" => map.extend(call.pairs()),
            "get_key_value" => out.told(map.get_key_value(&key)),
            "get_mut" => write(map.get_mut(&key), value, out),
            "iter" => out.yielded(map.iter()),
            _ => out.said("no such call"),
        }
    }};
}

fn tree_map(map: &mut TreeMap, call: &Call, out: &mut Transcript) {
    let (key, other) = (call.key(0), call.key(1));
    match call.name {
        "pop_first" => out.told(unless_last(map.len(), || map.pop_first())),
        "pop_last" => out.told(unless_last(map.len(), || map.pop_last())),
        "first_key_value" => out.told(map.iter().next().unwrap()),
        "last_key_value" => out.told(map.iter().next_back().unwrap()),
        "is_empty" => out.told(map.is_empty()),
        "range" if key <= other => out.yielded(map.range(key..other)),
        "range" => out.said("out of order"),
        _ => std_map!(map, call, out),
    }
}

fn hashed_map(map: &mut HashedMap, call: &Call, out: &mut Transcript) {
    std_map!(map, call, out)
}

// The place of a key.
fn place_of(pairs: &[(Key, u32)], key: Key) -> Option<usize> {
    pairs.iter().position(|(other, _)| *other == key)
}

// Puts a pair in. A key that is there gets the value, and the old value is returned.
fn put(pairs: &mut IndexedMap, (key, value): (Key, u32)) -> Option<u32> {
    match place_of(pairs, key) {
        Some(place) => Some(std::mem::replace(&mut pairs[place].1, value)),
        None => {
            pairs.push((key, value));
            None
        }
    }
}

// Each key once, as it came first, with the last of its values.
fn each_key(pairs: Vec<(Key, u32)>) -> IndexedMap {
    let (mut places, mut made) = (HashMap::new(), IndexedMap::new());
    for (key, value) in pairs {
        let place = *places.entry(key).or_insert(made.len());
        if place < made.len() {
            made[place] = (made[place].0, value);
        } else {
            made.push((key, value));
        }
    }
    made
}

fn indexed_map(map: &mut IndexedMap, call: &Call, out: &mut Transcript) {
    let (key, value, len) = (call.key(0), call.number(1), map.len());
    // the place of a key that may be removed
    let place = place_of(map, key).filter(|_| len > 1);
    match call.name {
        "run_map" => out.told(run_map(map, call)),
        "swap_remove" => out.told(place.map(|place| map.swap_remove(place).1)),
        "shift_remove" => out.told(place.map(|place| map.remove(place).1)),
        "swap_remove_entry" => out.told(place.map(|place| map.swap_remove(place))),
        "shift_remove_entry" => out.told(place.map(|place| map.remove(place))),
        "pop" => out.told(unless_last(len, || map.pop())),
        "first_mut" => map[0].1 = call.first,
        "last_mut" => map[len - 1].1 = call.first,
        "retain" => {
            let mut kept = map.clone();
            kept.retain_mut(|(key, value)| keeps(call, key, value));
            indexed_kept(map, kept, call, out)
        }
        "or_insert" => {
            let place = place_of(map, key).unwrap_or(len);
            if place == len {
                map.push((key, value));
            }
            out.told(map[place].1);
            rewrite([&mut map[place].1], value)
        }
        "insert" => out.told(put(map, (key, value))),
        "extend" => {
            for pair in call.pairs() {
                put(map, pair);
            }
        }
        "get_index_of" => out.told(place_of(map, key)),
        "iter" => out.yielded(map.iter().map(|(key, value)| (key, value))),
        _ => out.said("no such call"),
    }
}

// As `put_kept` does. An empty list is written as an empty map or set.
fn indexed_kept<T>(there: &mut Vec<T>, kept: Vec<T>, call: &Call, out: &mut Transcript) {
    out.said(&format!("{} ", call.closure.calls()));
    if kept.is_empty() {
        out.said("{}")
    } else {
        *there = kept
    }
}

// Each item once: of equal ones the first, at its place.
fn each_once(items: Vec<Key>) -> IndexedSet {
    let mut found = HashSet::new();
    items.into_iter().filter(|item| found.insert(*item)).collect()
}

// Calls that std's sets have.
macro_rules! std_set {
    ($set:expr, $call:expr, $out:expr) => {{
        let (set, call, out) = ($set, $call, $out);
        let item = call.key(0);
        match call.name {
            "run_set" => out.told(run_set(set, call)),
            "remove" => out.told(unless_last(set.len(), || set.remove(&item))),
            "take" => out.told(unless_last(set.len(), || set.take(&item))),
            "retain" => {
                let mut kept = set.clone();
                kept.retain(|item| call.closure.holds(item.number()));
                let len = kept.len();
                put_kept(set, kept, len, call, out)
            }
            "insert" => out.told(set.insert(item)),
            "extend" => set.extend(call.items()),
            "get" => out.told(set.get(&item)),
            "iter" => out.yielded(set.iter()),
            _ => out.said("no such call"),
        }
    }};
}

fn tree_set(set: &mut TreeSet, call: &Call, out: &mut Transcript) {
    let (item, other) = (call.key(0), call.key(1));
    match call.name {
        "pop_first" => out.told(unless_last(set.len(), || set.pop_first())),
        "pop_last" => out.told(unless_last(set.len(), || set.pop_last())),
        "first" => out.told(set.iter().next().unwrap()),
        "last" => out.told(set.iter().next_back().unwrap()),
        "is_empty" => out.told(set.is_empty()),
        "range" if item <= other => out.yielded(set.range(item..=other)),
        "range" => out.said("out of order"),
        _ => std_set!(set, call, out),
    }
}

fn hashed_set(set: &mut HashedSet, call: &Call, out: &mut Transcript) {
    std_set!(set, call, out)
}

fn indexed_set(set: &mut IndexedSet, call: &Call, out: &mut Transcript) {
    let (item, len) = (call.key(0), set.len());
    let found = set.iter().position(|other| *other == item);
    // the place of an item that may be removed
    let place = found.filter(|_| len > 1);
    match call.name {
        "run_set" => out.told(run_set(set, call)),
        "swap_remove" => out.told(place.map(|place| set.swap_remove(place)).is_some()),
        "shift_remove" => out.told(place.map(|place| set.remove(place)).is_some()),
        "swap_take" => out.told(place.map(|place| set.swap_remove(place))),
        "shift_take" => out.told(place.map(|place| set.remove(place))),
        "pop" => out.told(unless_last(len, || set.pop())),
        "retain" => {
            let mut kept = set.clone();
            kept.retain(|item| call.closure.holds(item.number()));
            indexed_kept(set, kept, call, out)
        }
        "insert" => {
            if found.is_none() {
                set.push(item);
            }
            out.told(found.is_none())
        }
        "extend" => *set = each_once(set.iter().copied().chain(call.items()).collect()),
        "get" => out.told(found.map(|place| &set[place])),
        "iter" => out.yielded(set),
        _ => out.said("no such call"),
    }
}
