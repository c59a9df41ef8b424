// The workloads on the Rust crate `nonempty-collections`, with which the port's speed is compared.
// The steps and the numbers are those of the port. Further adapters and collecting are in
// `bench_chains`, consumers in `bench_passes`, texts and large items in `bench_texts`.
mod bench_chains;
mod bench_passes;
mod bench_texts;

use indexmap::{IndexMap, IndexSet};
use nonempty_collections::{
    IntoNonEmptyIterator, NEBTreeMap, NEBTreeSet, NEIndexMap, NEIndexSet, NEMap, NESet, NEVec,
    NonEmptyIterator, NonEmptyItertools,
};
use std::collections::{BTreeMap, BTreeSet, HashMap, HashSet};
use std::hash::{BuildHasher, BuildHasherDefault, Hasher, RandomState};
use std::num::NonZeroUsize;
use std::process::ExitCode;

const MOST: usize = 10_000_000;

fn main() -> ExitCode {
    match told() {
        Some(checksum) => {
            println!("{checksum}");
            ExitCode::SUCCESS
        }
        None => {
            eprintln!("usage: bench WORKLOAD SIZE");
            ExitCode::from(2)
        }
    }
}

fn told() -> Option<u64> {
    let words: Vec<String> = std::env::args().skip(1).collect();
    match words.as_slice() {
        [workload, size] => checksum(workload, sized(size)?),
        _ => None,
    }
}

fn sized(word: &str) -> Option<NonZeroUsize> {
    match word.parse::<usize>() {
        Ok(n) if n <= MOST => NonZeroUsize::new(n),
        _ => None,
    }
}

fn next(state: u64) -> u64 {
    state.wrapping_mul(6_364_136_223_846_793_005).wrapping_add(1_442_695_040_888_963_407)
}

fn mixed(checksum: u64, x: u64) -> u64 {
    checksum.wrapping_mul(31).wrapping_add(x)
}

// not inlined, so that it takes the same time in each workload
#[inline(never)]
fn scrambled(n: NonZeroUsize) -> NEVec<u64> {
    let mut state = 1u64;
    let mut items = NEVec::with_capacity(n, 0);
    for _ in 1..n.get() {
        state = next(state);
        items.push(state >> 11);
    }
    items
}

#[inline(never)]
fn rising(n: NonZeroUsize, mask: u64) -> NEVec<u64> {
    let mut state = 1u64;
    let mut item = 0u64;
    let mut items = NEVec::with_capacity(n, 0);
    for _ in 1..n.get() {
        state = next(state);
        if (state >> 40) & mask == 0 {
            item = item.wrapping_add(1);
        }
        items.push(item);
    }
    items
}

#[inline(never)]
fn nested(n: NonZeroUsize) -> Vec<Vec<u64>> {
    let first = Vec::from(scrambled(NonZeroUsize::MIN.saturating_add(15)));
    let mut lists = vec![first.clone()];
    for _ in 1..n.get() {
        lists.push(first.clone());
    }
    lists
}

#[inline(never)]
fn paired(n: NonZeroUsize) -> NEVec<(u64, u64)> {
    let keys = n.get() as u64 / 2 + 1;
    let mut state = 1u64;
    let mut items = NEVec::with_capacity(n, (0, 0));
    for _ in 1..n.get() {
        state = next(state);
        items.push(((state >> 11) % keys, state));
    }
    items
}

fn checksum(name: &str, n: NonZeroUsize) -> Option<u64> {
    Some(match name {
        "scrambled" => length_and_last(&scrambled(n)),
        "rising" => length_and_last(&rising(n, 3)),
        "paired" => {
            let (key, value) = *paired(n).last();
            mixed(key, value)
        }
        "nested" => nested(n).len() as u64,
        "push_pop" => push_pop(n),
        "sort" => sort(n),
        "dedup" => dedup(n),
        "retain" => retain(n),
        "chunks" => chunks(n),
        "chain" => chain(n),
        "zip_max" => zip_max(n),
        "flat_map" => flat_map(n),
        "group_short" => group(n, 3),
        "group_long" => group(n, 1023),
        "intersperse" => intersperse(n),
        "runs_by" => runs_by(n),
        "adjacent_runs" => adjacent_runs(n),
        "flatten" => flatten(n),
        "scan" => scan(n),
        "hash_map" => hash_map::<Folding>(n),
        "hash_map_default" => hash_map::<RandomState>(n),
        "tree_map" => tree_map(n),
        _ => {
            return bench_chains::checksum(name, n)
                .or_else(|| listed(name, n))
                .or_else(|| keyed(name, n))
                .or_else(|| bench_passes::checksum(name, n))
                .or_else(|| bench_texts::checksum(name, n))
        }
    })
}

fn length_and_last(items: &NEVec<u64>) -> u64 {
    mixed(items.len().get() as u64, *items.last())
}

fn combined<'a, I: IntoIterator<Item = &'a u64>>(items: I) -> u64 {
    let mut checksum = 0u64;
    for x in items {
        checksum = mixed(checksum, *x);
    }
    checksum
}

fn push_pop(n: NonZeroUsize) -> u64 {
    let mut state = 1u64;
    let mut checksum = 0u64;
    let mut items = NEVec::new(0);
    for _ in 0..n.get() {
        state = next(state);
        items.push(state);
    }
    for _ in 0..n.get() {
        if let Some(x) = items.pop() {
            checksum = mixed(checksum, x);
        }
    }
    checksum
}

fn sort(n: NonZeroUsize) -> u64 {
    let mut items = scrambled(n);
    items.sort();
    combined(&items)
}

fn dedup(n: NonZeroUsize) -> u64 {
    let mut items = rising(n, 3);
    items.dedup();
    combined(&items)
}

fn retain(n: NonZeroUsize) -> u64 {
    match scrambled(n).retain(|x| x % 2 == 0) {
        Ok(even) => combined(&even),
        Err(_) => 0,
    }
}

fn chunks(n: NonZeroUsize) -> u64 {
    let items = scrambled(n);
    let mut checksum = 0u64;
    for chunk in items.nonempty_chunks(NonZeroUsize::MIN.saturating_add(15)) {
        let mut sum = 0u64;
        for x in chunk.iter() {
            sum = sum.wrapping_add(*x);
        }
        checksum = mixed(checksum, sum);
    }
    checksum
}

fn chain(n: NonZeroUsize) -> u64 {
    let items = scrambled(n).into_nonempty_iter();
    let kept: Vec<u64> = items.map(|x| x.wrapping_mul(3)).take(n).filter(|x| *x % 4 != 0).collect();
    combined(&kept)
}

fn zip_max(n: NonZeroUsize) -> u64 {
    let items = scrambled(n);
    let others = rising(n, 3).into_nonempty_iter();
    let (x, y) = items.into_nonempty_iter().zip(others).max();
    mixed(x, y)
}

fn flat_map(n: NonZeroUsize) -> u64 {
    let items = scrambled(n).into_nonempty_iter();
    let twice: NEVec<u64> = items.flat_map(|x| [x, x >> 1]).collect();
    combined(&twice)
}

fn group(n: NonZeroUsize, mask: u64) -> u64 {
    let items = rising(n, mask).into_nonempty_iter();
    let mut checksum = 0u64;
    for run in items.group_by(|x| *x) {
        checksum = mixed(mixed(checksum, *run.first()), run.len().get() as u64);
    }
    checksum
}

fn intersperse(n: NonZeroUsize) -> u64 {
    let items = scrambled(n).into_nonempty_iter();
    let mut checksum = 0u64;
    for x in items.intersperse(7) {
        checksum = mixed(checksum, x);
    }
    checksum
}

// The Rust crate has none of the next four. These are plain Rust, on std's slices and iterators.

fn runs_by(n: NonZeroUsize) -> u64 {
    let items = rising(n, 3);
    let mut checksum = 0u64;
    let mut rest: &[u64] = items.as_ref();
    while let [first, others @ ..] = rest {
        let mut length = 1;
        for x in others {
            if first != x {
                break;
            }
            length += 1;
        }
        checksum = mixed(mixed(checksum, *first), length as u64);
        rest = &rest[length..];
    }
    checksum
}

fn adjacent_runs(n: NonZeroUsize) -> u64 {
    let items = rising(n, 3);
    let items: &[u64] = items.as_ref();
    let mut checksum = 0u64;
    for run in items.chunk_by(|x, y| x == y) {
        checksum = mixed(mixed(checksum, run[0]), run.len() as u64);
    }
    checksum
}

fn flatten(n: NonZeroUsize) -> u64 {
    let lists = nested(n);
    combined(lists.iter().flatten())
}

fn scan(n: NonZeroUsize) -> u64 {
    let items = scrambled(n);
    let totals = items.iter().scan(0u64, |total, x| {
        *total = total.wrapping_add(*x);
        Some(*total)
    });
    let mut checksum = 0u64;
    for total in totals {
        checksum = mixed(checksum, total);
    }
    checksum
}

fn hash_map<S: BuildHasher + Default>(n: NonZeroUsize) -> u64 {
    let items = paired(n).into_nonempty_iter();
    let map: HashMap<u64, u64, S> = items.collect();
    let mut sum = 0u64;
    for (key, value) in &map {
        sum = sum.wrapping_add(mixed(*key, *value));
    }
    mixed(sum, map.len() as u64)
}

fn tree_map(n: NonZeroUsize) -> u64 {
    let items = paired(n).into_nonempty_iter();
    let map: BTreeMap<u64, u64> = items.collect();
    let mut checksum = 0u64;
    for (key, value) in &map {
        checksum = mixed(mixed(checksum, *key), *value);
    }
    checksum
}

// Products, whether items are distinct, and lists of calls. The Rust crate has no function that
// makes a list of calls, so `*_run` is `*_directly` here.

fn listed(name: &str, n: NonZeroUsize) -> Option<u64> {
    Some(match name {
        "product" => product(n),
        "all_unique" => u64::from(scrambled(n).into_nonempty_iter().all_unique()),
        "vector_calls" => vector_calls(n).len() as u64,
        "vector_run" | "vector_directly" => vector_directly(vector_calls(n)),
        "map_calls" => map_calls(n).len() as u64,
        "tree_run" | "tree_directly" => map_directly(NEBTreeMap::new(0, 0), map_calls(n)),
        "hash_run" | "hash_directly" => {
            map_directly(NEMap::with_hasher(Folding::default(), 0, 0), map_calls(n))
        }
        "index_run" | "index_directly" => {
            map_directly(NEIndexMap::with_hasher(Folding::default(), 0, 0), map_calls(n))
        }
        _ => return None,
    })
}

fn product(n: NonZeroUsize) -> u64 {
    let rows = scrambled(n);
    let rows = rows.nonempty_iter().copied();
    let columns = scrambled(NonZeroUsize::MIN.saturating_add(15));
    let columns = columns.nonempty_iter().copied();
    let mut checksum = 0u64;
    for (x, y) in rows.cartesian_product(columns) {
        checksum = mixed(checksum, x ^ y);
    }
    checksum
}

// The calls of the port's enum, of which `vector_calls` makes some, here as there.
#[allow(dead_code)]
enum VecCall {
    Push(u64),
    Pop,
    Remove(usize),
    SwapRemove(usize),
    Insert(usize, u64),
    Swap(usize, usize),
    Append(Vec<u64>),
    Truncate(NonZeroUsize),
    SplitOff(NonZeroUsize),
    Reverse,
    Len,
}

#[inline(never)]
fn vector_calls(n: NonZeroUsize) -> Vec<VecCall> {
    let mut state = 1u64;
    let mut calls = Vec::with_capacity(n.get());
    for _ in 0..n.get() {
        state = next(state);
        let (place, x) = ((state >> 40) as usize % 16, state >> 11);
        calls.push(match (state >> 60) % 8 {
            0 | 1 => VecCall::Push(x),
            2 => VecCall::Pop,
            3 => VecCall::Remove(place),
            4 => VecCall::SwapRemove(place),
            5 => VecCall::Insert(place, x),
            6 => VecCall::Truncate(NonZeroUsize::MIN.saturating_add(place)),
            _ => VecCall::Len,
        });
    }
    calls
}

enum VecReply {
    Done,
    Taken(Option<u64>),
    Split(Vec<u64>),
    Len(NonZeroUsize),
    Refused,
}

fn vector_directly(calls: Vec<VecCall>) -> u64 {
    let mut items = NEVec::new(0);
    let mut replies = Vec::new();
    for call in calls {
        replies.push(made_directly(&mut items, call));
    }
    let mut checksum = 0u64;
    for reply in replies {
        let told = match reply {
            VecReply::Done => 1,
            VecReply::Taken(taken) => taken.unwrap_or(2),
            VecReply::Split(rest) => rest.len() as u64,
            VecReply::Len(len) => len.get() as u64,
            VecReply::Refused => 3,
        };
        checksum = mixed(checksum, told);
    }
    checksum
}

fn made_directly(items: &mut NEVec<u64>, call: VecCall) -> VecReply {
    let len = items.len().get();
    match call {
        VecCall::Push(x) => items.push(x),
        VecCall::Pop => return VecReply::Taken(items.pop()),
        VecCall::Remove(i) if len == 1 || i < len => return VecReply::Taken(items.remove(i)),
        VecCall::SwapRemove(i) if len == 1 || i < len => {
            return VecReply::Taken(items.swap_remove(i))
        }
        VecCall::Insert(i, x) if i <= len => items.insert(i, x),
        VecCall::Swap(i, j) if i < len && j < len => items.as_mut().swap(i, j),
        VecCall::Append(mut more) => items.append(&mut more),
        VecCall::Truncate(n) => items.truncate(n),
        VecCall::SplitOff(n) if n.get() <= len => {
            return VecReply::Split(items.as_mut().split_off(n.get()))
        }
        VecCall::Reverse => items.reverse(),
        VecCall::Len => return VecReply::Len(items.len()),
        _ => return VecReply::Refused,
    }
    VecReply::Done
}

enum MapCall {
    Insert(u64, u64),
    Write(u64, u64),
    Has(u64),
    Len,
}

#[inline(never)]
fn map_calls(n: NonZeroUsize) -> Vec<MapCall> {
    let mut state = 1u64;
    let mut calls = Vec::with_capacity(n.get());
    for _ in 0..n.get() {
        state = next(state);
        let (key, value) = ((state >> 40) % 4_096, state >> 11);
        calls.push(match (state >> 60) % 4 {
            0 => MapCall::Insert(key, value),
            1 => MapCall::Write(key, value),
            2 => MapCall::Has(key),
            _ => MapCall::Len,
        });
    }
    calls
}

enum MapReply {
    Old(Option<u64>),
    Has(bool),
    Len(u64),
}

fn map_directly<M: Table>(mut map: M, calls: Vec<MapCall>) -> u64 {
    let mut replies = Vec::new();
    for call in calls {
        replies.push(match call {
            MapCall::Insert(key, value) => MapReply::Old(map.replaced(key, value)),
            MapCall::Write(key, value) => MapReply::Old(map.written(key, value)),
            MapCall::Has(key) => MapReply::Has(map.has(key)),
            MapCall::Len => MapReply::Len(map.length()),
        });
    }
    let mut checksum = 0u64;
    for reply in replies {
        let told = match reply {
            MapReply::Old(old) => old.unwrap_or(2),
            MapReply::Has(has) => u64::from(has),
            MapReply::Len(len) => len,
        };
        checksum = mixed(checksum, told);
    }
    checksum
}

// Maps and sets. `hash_*` and `index_*` use the hashes of the port's default hasher; with
// `_default` at the end of the name they use those of the Rust crate's own.

type Folding = BuildHasherDefault<Fold>;

// The port's default hasher, for keys of eight bytes.
struct Fold(u64);

impl Default for Fold {
    fn default() -> Fold {
        Fold(0x243f_6a88_85a3_08d3)
    }
}

impl Hasher for Fold {
    fn finish(&self) -> u64 {
        self.0
    }
    fn write(&mut self, bytes: &[u8]) {
        let mut word = [0; 8];
        word.copy_from_slice(bytes);
        let product = u128::from(self.0 ^ u64::from_le_bytes(word))
            * u128::from(0x9e37_79b9_7f4a_7c15 ^ 16u64);
        self.0 = product as u64 ^ (product >> 64) as u64;
    }
}

fn keyed(name: &str, n: NonZeroUsize) -> Option<u64> {
    let (kind, step) = name.split_once('_')?;
    match (kind, step.strip_suffix("_default")) {
        ("tree", None) => of::<NEBTreeMap<u64, u64>, NEBTreeSet<u64>>(step, n),
        ("hash", None) => of::<NEMap<u64, u64, Folding>, NESet<u64, Folding>>(step, n),
        ("hash", Some(step)) => of::<NEMap<u64, u64>, NESet<u64>>(step, n),
        ("index", None) => of::<NEIndexMap<u64, u64, Folding>, NEIndexSet<u64, Folding>>(step, n),
        ("index", Some(step)) => {
            of::<NEIndexMap<u64, u64, RandomState>, NEIndexSet<u64, RandomState>>(step, n)
        }
        _ => None,
    }
}

fn of<M: Table, S: Bag>(step: &str, n: NonZeroUsize) -> Option<u64> {
    let half = n.get() as u64 / 2;
    Some(match step {
        "insert" => inserted::<M>(n).length(),
        "collect" => M::of_all(paired(n)).length(),
        "look_up" => {
            let map = M::of_all(paired(n));
            asked(n, |key| map.found(key))
        }
        "remove" => M::of_all(paired(n)).removed(n),
        "iterate" => M::of_all(paired(n)).combined(),
        "maps" => mixed(M::of_all(paired(n)).length(), M::of_all(paired(n)).length()),
        "equal" => u64::from(M::of_all(paired(n)).is_same(&M::of_all(paired(n)))),
        "set_rising" => S::of_all(rising(n, 3)).length(),
        "set_collect" => numbers::<S>(n, half).length(),
        "set_contains" => {
            let set = numbers::<S>(n, half);
            asked(n, |key| set.found(key))
        }
        "set_remove" => numbers::<S>(n, half).removed(n),
        "sets" => mixed(numbers::<S>(n, 0).length(), numbers::<S>(n, half).length()),
        "union" => numbers::<S>(n, 0).united(&numbers::<S>(n, half)),
        "set_equal" => u64::from(numbers::<S>(n, 0).is_same(&numbers::<S>(n, 0))),
        _ => return None,
    })
}

fn inserted<M: Table>(n: NonZeroUsize) -> M {
    let mut map = M::of_one(0, 0);
    for (key, value) in paired(n) {
        map.put(key, value);
    }
    map
}

fn asked<F: FnMut(u64) -> u64>(n: NonZeroUsize, mut call: F) -> u64 {
    let mut state = 1u64;
    let mut checksum = 0u64;
    for _ in 0..n.get() {
        state = next(state);
        checksum = mixed(checksum, call((state >> 11) % n.get() as u64));
    }
    checksum
}

fn numbers<S: Bag>(n: NonZeroUsize, least: u64) -> S {
    let mut items = scrambled(n);
    for x in &mut items {
        *x = (*x % n.get() as u64).wrapping_add(least);
    }
    S::of_all(items)
}

trait Table {
    fn of_one(key: u64, value: u64) -> Self;
    fn of_all(pairs: NEVec<(u64, u64)>) -> Self;
    fn put(&mut self, key: u64, value: u64);
    fn replaced(&mut self, key: u64, value: u64) -> Option<u64>;
    fn written(&mut self, key: u64, value: u64) -> Option<u64>;
    fn has(&self, key: u64) -> bool;
    fn found(&self, key: u64) -> u64;
    fn length(&self) -> u64;
    fn combined(&self) -> u64;
    fn is_same(&self, other: &Self) -> bool;
    // The Rust crate's maps have no removals. These are those of the map inside.
    fn removed(self, n: NonZeroUsize) -> u64;
}

trait Bag {
    fn of_all(items: NEVec<u64>) -> Self;
    fn length(&self) -> u64;
    fn found(&self, key: u64) -> u64;
    fn united(&self, other: &Self) -> u64;
    fn is_same(&self, other: &Self) -> bool;
    fn removed(self, n: NonZeroUsize) -> u64;
}

// Adds a pair or an item to a checksum: so that their order counts, or so that it does not.
fn in_order(checksum: u64, x: u64) -> u64 {
    mixed(checksum, x)
}

fn in_any(checksum: u64, x: u64) -> u64 {
    checksum.wrapping_add(x)
}

macro_rules! table {
    ($map:ty, $one:expr, $pair:expr, $inner:ident, $remove:ident) => {
        impl Table for $map {
            fn of_one(key: u64, value: u64) -> Self {
                $one(key, value)
            }
            fn of_all(pairs: NEVec<(u64, u64)>) -> Self {
                pairs.into_nonempty_iter().collect()
            }
            fn put(&mut self, key: u64, value: u64) {
                self.insert(key, value);
            }
            fn replaced(&mut self, key: u64, value: u64) -> Option<u64> {
                self.insert(key, value)
            }
            fn written(&mut self, key: u64, value: u64) -> Option<u64> {
                let place = self.get_mut(&key)?;
                Some(std::mem::replace(place, value))
            }
            fn has(&self, key: u64) -> bool {
                self.contains_key(&key)
            }
            fn found(&self, key: u64) -> u64 {
                self.get(&key).copied().unwrap_or(1)
            }
            fn length(&self) -> u64 {
                self.len().get() as u64
            }
            fn combined(&self) -> u64 {
                let mut checksum = 0u64;
                for (key, value) in self {
                    checksum = $pair(checksum, *key, *value);
                }
                checksum
            }
            fn is_same(&self, other: &Self) -> bool {
                *self == *other
            }
            fn removed(self, n: NonZeroUsize) -> u64 {
                let mut map = $inner::from(self);
                asked(n, |key| (map.len() > 1).then(|| map.$remove(&key)).flatten().unwrap_or(1))
            }
        }
    };
}

fn pair_in_order(checksum: u64, key: u64, value: u64) -> u64 {
    mixed(mixed(checksum, key), value)
}

fn pair_in_any(checksum: u64, key: u64, value: u64) -> u64 {
    checksum.wrapping_add(mixed(key, value))
}

table!(NEBTreeMap<u64, u64>, NEBTreeMap::new, pair_in_order, BTreeMap, remove);
table!(NEMap<u64, u64>, NEMap::new, pair_in_any, HashMap, remove);
table!(
    NEMap<u64, u64, Folding>,
    |k, v| NEMap::with_hasher(Folding::default(), k, v),
    pair_in_any,
    HashMap,
    remove
);
table!(
    NEIndexMap<u64, u64, RandomState>,
    NEIndexMap::new,
    pair_in_order,
    IndexMap,
    swap_remove
);
table!(
    NEIndexMap<u64, u64, Folding>,
    |k, v| NEIndexMap::with_hasher(Folding::default(), k, v),
    pair_in_order,
    IndexMap,
    swap_remove
);

macro_rules! bag {
    ($set:ty, $item:expr, $inner:ident, $remove:ident) => {
        impl Bag for $set {
            fn of_all(items: NEVec<u64>) -> Self {
                items.into_nonempty_iter().collect()
            }
            fn length(&self) -> u64 {
                self.len().get() as u64
            }
            fn found(&self, key: u64) -> u64 {
                u64::from(self.contains(&key))
            }
            fn united(&self, other: &Self) -> u64 {
                let mut checksum = 0u64;
                for x in self.union(other) {
                    checksum = $item(checksum, *x);
                }
                checksum
            }
            fn is_same(&self, other: &Self) -> bool {
                *self == *other
            }
            fn removed(self, n: NonZeroUsize) -> u64 {
                let mut set = $inner::from(self);
                asked(n, |key| u64::from(set.len() > 1 && set.$remove(&key)))
            }
        }
    };
}

bag!(NEBTreeSet<u64>, in_order, BTreeSet, remove);
bag!(NESet<u64>, in_any, HashSet, remove);
bag!(NESet<u64, Folding>, in_any, HashSet, remove);
bag!(NEIndexSet<u64>, in_order, IndexSet, swap_remove);
bag!(NEIndexSet<u64, Folding>, in_order, IndexSet, swap_remove);
