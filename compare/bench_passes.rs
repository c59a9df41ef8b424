// Consumers and look-ups, which only read a vector. Each is repeated over the same items.
use crate::{combined, mixed, rising, scrambled};
use nonempty_collections::{NEVec, NonEmptyIterator};
use std::num::{NonZeroUsize, Wrapping};

const PASSES: u64 = 16;

pub fn checksum(name: &str, n: NonZeroUsize) -> Option<u64> {
    let items = match name {
        "skip_while" | "take_while" => rising(n, 3),
        _ => scrambled(n),
    };
    let mut checksum = 0u64;
    for pass in 0..PASSES {
        checksum = mixed(checksum, consumed(&items, name, pass)?);
    }
    Some(checksum)
}

fn consumed(items: &NEVec<u64>, name: &str, pass: u64) -> Option<u64> {
    Some(match name {
        "fold" => fold(items, pass),
        "reduce" => reduce(items, pass),
        "sum" => sum(items, pass),
        "max" => max(items, pass),
        "max_by_key" => max_by_key(items, pass),
        "min_by_key" => min_by_key(items, pass),
        "all" => all(items, pass),
        "any" => any(items, pass),
        "find" => find(items, pass),
        "filter_count" => filter_count(items, pass),
        "filter_map" => filter_map(items, pass),
        "skip_while" => skip_while(items, pass),
        "take_while" => take_while(items, pass),
        "enumerate_skip" => enumerate_skip(items, pass),
        "nth" => nth(items, pass),
        "get" => get(items, pass),
        "contains" => u64::from(items.contains(&(u64::MAX ^ pass))),
        _ => return None,
    })
}

fn fold(items: &NEVec<u64>, pass: u64) -> u64 {
    items.nonempty_iter().copied().fold(pass, |total, x| mixed(total, x))
}

fn reduce(items: &NEVec<u64>, pass: u64) -> u64 {
    items.nonempty_iter().copied().reduce(|total, x| mixed(total, x ^ pass))
}

fn sum(items: &NEVec<u64>, pass: u64) -> u64 {
    let changed = items.nonempty_iter().copied().map(|x| Wrapping(x ^ pass));
    changed.sum::<Wrapping<u64>>().0
}

fn max(items: &NEVec<u64>, pass: u64) -> u64 {
    items.nonempty_iter().map(|x| *x ^ pass).max()
}

fn max_by_key(items: &NEVec<u64>, pass: u64) -> u64 {
    items.nonempty_iter().copied().max_by_key(|x| (*x % 1024) ^ pass)
}

fn min_by_key(items: &NEVec<u64>, pass: u64) -> u64 {
    items.nonempty_iter().copied().min_by_key(|x| (*x % 1024) ^ pass)
}

fn all(items: &NEVec<u64>, pass: u64) -> u64 {
    u64::from(items.nonempty_iter().all(|x| *x != (u64::MAX ^ pass)))
}

fn any(items: &NEVec<u64>, pass: u64) -> u64 {
    u64::from(items.nonempty_iter().any(|x| *x == (u64::MAX ^ pass)))
}

fn find(items: &NEVec<u64>, pass: u64) -> u64 {
    let found = items.nonempty_iter().copied().find(|x| *x == (u64::MAX ^ pass));
    found.unwrap_or(1)
}

fn filter_count(items: &NEVec<u64>, pass: u64) -> u64 {
    items.nonempty_iter().filter(|x| **x % 2 == pass % 2).count() as u64
}

fn filter_map(items: &NEVec<u64>, pass: u64) -> u64 {
    combined(items.nonempty_iter().filter_map(|x| (*x % 2 == pass % 2).then_some(x)))
}

fn skip_while(items: &NEVec<u64>, pass: u64) -> u64 {
    let half = (*items.last() / 2).wrapping_add(pass);
    combined(items.nonempty_iter().skip_while(|x| **x < half))
}

fn take_while(items: &NEVec<u64>, pass: u64) -> u64 {
    let half = (*items.last() / 2).wrapping_add(pass);
    combined(items.nonempty_iter().take_while(|x| **x < half))
}

fn enumerate_skip(items: &NEVec<u64>, pass: u64) -> u64 {
    let mut checksum = pass;
    for (place, x) in items.nonempty_iter().enumerate().skip(3) {
        checksum = mixed(checksum, *x ^ place as u64);
    }
    checksum
}

fn nth(items: &NEVec<u64>, pass: u64) -> u64 {
    let mut checksum = pass;
    for place in 0..items.len().get() {
        let found = items.nonempty_iter().copied().nth(place % 64);
        checksum = mixed(checksum, found.unwrap_or(1));
    }
    checksum
}

fn get(items: &NEVec<u64>, pass: u64) -> u64 {
    let mut checksum = pass;
    for place in 0..items.len().get() {
        let found = items.get(place ^ 5).copied();
        checksum = mixed(checksum, found.unwrap_or(1));
    }
    checksum
}
