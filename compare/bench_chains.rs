// One adapter each, what items are collected into, and whole vectors.
use crate::{combined, mixed, rising, scrambled, Folding};
use nonempty_collections::{IntoNonEmptyIterator, NEVec, NonEmptyIterator, NonEmptyItertools};
use std::collections::{BTreeSet, HashSet};
use std::hash::{BuildHasher, RandomState};
use std::num::NonZeroUsize;

pub fn checksum(name: &str, n: NonZeroUsize) -> Option<u64> {
    Some(match name {
        "map" => map(n),
        "map_references" => map_references(n),
        "map_result" => map_result(n),
        "all_or_errors" => all_or_errors(n, 0),
        "all_or_errors_some" => all_or_errors(n, 1),
        "cloned" => cloned(n),
        "chain_collect" => chain_collect(n),
        "zip" => zip(n),
        "take" => take(n),
        "peekable" => peekable(n),
        "intersperse_collect" => intersperse_collect(n),
        "product_collect" => product_collect(n),
        "sorted_by_key" => sorted_by_key(n),
        "unzip" => unzip(n),
        "collect_vec" => collect_vec(n),
        "collect_string" => collect_string(n),
        "collect_unit" => collect_unit(n),
        "tree_set" => tree_set(n),
        "hash_set" => hash_set::<Folding>(n),
        "hash_set_default" => hash_set::<RandomState>(n),
        "map_in_place" => map(n),
        "clone" => combined(&scrambled(n).clone()),
        "extend" => extend(n),
        _ => return None,
    })
}

fn collected<S: NonEmptyIterator<Item = u64>>(source: S) -> u64 {
    let items: NEVec<u64> = source.collect();
    combined(&items)
}

fn combined_pairs(pairs: &NEVec<(u64, u64)>) -> u64 {
    let mut checksum = 0u64;
    for (x, y) in pairs {
        checksum = mixed(checksum, *x ^ *y);
    }
    checksum
}

fn map(n: NonZeroUsize) -> u64 {
    let items = scrambled(n).into_nonempty_iter();
    collected(items.map(|x| x.wrapping_mul(3)))
}

fn map_references(n: NonZeroUsize) -> u64 {
    let items = scrambled(n);
    collected(items.nonempty_iter().map(|x| x.wrapping_mul(3)))
}

fn map_result(n: NonZeroUsize) -> u64 {
    let items = scrambled(n).into_nonempty_iter();
    let checked = items.map(|x| if x == u64::MAX { Err(x) } else { Ok(x) });
    match checked.collect::<Result<NEVec<u64>, u64>>() {
        Ok(items) => combined(&items),
        Err(_) => 0,
    }
}

fn all_or_errors(n: NonZeroUsize, refused: u64) -> u64 {
    let items = scrambled(n).into_iter();
    let checked = items.map(|x| if x % 128 < refused { Err(x) } else { Ok(x) });
    let (mut values, mut errors) = (Vec::with_capacity(checked.size_hint().0), Vec::new());
    for item in checked {
        match item {
            Ok(value) if errors.is_empty() => values.push(value),
            Ok(_) => {}
            Err(e) => {
                values = Vec::new();
                errors.push(e);
            }
        }
    }
    combined(if errors.is_empty() { &values } else { &errors })
}

fn cloned(n: NonZeroUsize) -> u64 {
    let items = scrambled(n);
    collected(items.nonempty_iter().cloned())
}

fn chain_collect(n: NonZeroUsize) -> u64 {
    let items = scrambled(n).into_nonempty_iter();
    collected(items.chain(rising(n, 3)))
}

fn zip(n: NonZeroUsize) -> u64 {
    let items = scrambled(n).into_nonempty_iter();
    let pairs: NEVec<(u64, u64)> = items.zip(rising(n, 3)).collect();
    combined_pairs(&pairs)
}

fn take(n: NonZeroUsize) -> u64 {
    let items = scrambled(n);
    let half = NonZeroUsize::MIN.saturating_add(n.get() / 2);
    collected(items.nonempty_iter().copied().take(half))
}

fn peekable(n: NonZeroUsize) -> u64 {
    let items = scrambled(n).into_nonempty_iter().peekable();
    let first = *items.peek();
    mixed(first, collected(items))
}

fn intersperse_collect(n: NonZeroUsize) -> u64 {
    let items = scrambled(n).into_nonempty_iter();
    collected(items.intersperse(7))
}

fn product_collect(n: NonZeroUsize) -> u64 {
    let rows = scrambled(n);
    let columns = scrambled(NonZeroUsize::MIN.saturating_add(15));
    let columns = columns.nonempty_iter().copied();
    let pairs = rows.nonempty_iter().copied().cartesian_product(columns);
    let pairs: NEVec<(u64, u64)> = pairs.collect();
    combined_pairs(&pairs)
}

fn sorted_by_key(n: NonZeroUsize) -> u64 {
    let items = scrambled(n).into_nonempty_iter();
    let mut checksum = 0u64;
    for x in items.sorted_by_key(|x| *x % 1024) {
        checksum = mixed(checksum, x);
    }
    checksum
}

fn unzip(n: NonZeroUsize) -> u64 {
    let pairs = scrambled(n).into_nonempty_iter().map(|x| (x, x >> 1));
    let (items, halves): (NEVec<u64>, NEVec<u64>) = pairs.unzip();
    mixed(combined(&items), combined(&halves))
}

fn collect_vec(n: NonZeroUsize) -> u64 {
    let items = scrambled(n);
    let list: Vec<u64> = items.nonempty_iter().copied().collect();
    combined(&list)
}

fn letter(x: u64) -> char {
    match x % 4 {
        0 => 'a',
        1 => 'b',
        2 => 'é',
        _ => 'z',
    }
}

fn collect_string(n: NonZeroUsize) -> u64 {
    let items = scrambled(n).into_nonempty_iter();
    let text: String = items.map(letter).collect();
    text.len() as u64
}

fn collect_unit(n: NonZeroUsize) -> u64 {
    let items = scrambled(n).into_nonempty_iter();
    let checked = items.map(|x| if x == u64::MAX { Err(x) } else { Ok(()) });
    match checked.collect::<Result<(), u64>>() {
        Ok(()) => 1,
        Err(x) => x,
    }
}

fn tree_set(n: NonZeroUsize) -> u64 {
    let items = scrambled(n).into_nonempty_iter();
    let set: BTreeSet<u64> = items.collect();
    combined(&set)
}

fn hash_set<S: BuildHasher + Default>(n: NonZeroUsize) -> u64 {
    let items = scrambled(n).into_nonempty_iter();
    let set: HashSet<u64, S> = items.collect();
    let mut sum = 0u64;
    for x in &set {
        sum = sum.wrapping_add(*x);
    }
    sum
}

fn extend(n: NonZeroUsize) -> u64 {
    let mut items = scrambled(n);
    items.extend(rising(n, 3));
    combined(&items)
}
