// Texts, large items, and what is collected by key.
use crate::{mixed, next, scrambled};
use nonempty_collections::NEVec;
use std::collections::BTreeMap;
use std::num::NonZeroUsize;

pub fn checksum(name: &str, n: NonZeroUsize) -> Option<u64> {
    Some(match name {
        "large" => large(n).last().first,
        "retain_large" => retain_large(large(n)),
        "texts" => texts(n).last().len() as u64,
        "retain_texts" => retain_texts(texts(n)),
        "runs_by_texts" => runs_by_texts(&texts(n)),
        "counts_texts" => counts_texts(texts(n)),
        "group_map" => group_map(scrambled(n)),
        _ => return None,
    })
}

struct Words {
    first: u64,
    others: [u64; 15],
}

#[inline(never)]
fn large(n: NonZeroUsize) -> NEVec<Words> {
    let mut state = 1u64;
    let mut items = NEVec::with_capacity(n, Words { first: 0, others: [0; 15] });
    for _ in 1..n.get() {
        state = next(state);
        items.push(Words { first: state >> 11, others: [state; 15] });
    }
    items
}

fn retain_large(items: NEVec<Words>) -> u64 {
    let mut checksum = 0u64;
    if let Ok(items) = items.retain(|x| x.first % 2 == 0) {
        for x in &items {
            checksum = mixed(checksum, x.first ^ x.others[14]);
        }
    }
    checksum
}

#[inline(never)]
fn texts(n: NonZeroUsize) -> NEVec<String> {
    let mut state = 1u64;
    let mut item = 0u64;
    let mut items = NEVec::with_capacity(n, item.to_string());
    for _ in 1..n.get() {
        state = next(state);
        if (state >> 40) & 3 == 0 {
            item = item.wrapping_add(1);
        }
        items.push(item.to_string());
    }
    items
}

fn last_byte(text: &str) -> u8 {
    text.as_bytes().last().copied().unwrap_or(0)
}

fn retain_texts(items: NEVec<String>) -> u64 {
    let mut checksum = 0u64;
    if let Ok(even) = items.retain(|text| last_byte(text) % 2 == 0) {
        for text in &even {
            checksum = mixed(checksum, last_byte(text) as u64);
        }
    }
    checksum
}

fn runs_by_texts(items: &NEVec<String>) -> u64 {
    let mut checksum = 0u64;
    let mut rest: &[String] = items.as_ref();
    while let [first, others @ ..] = rest {
        let mut length = 1;
        for x in others {
            if first != x {
                break;
            }
            length += 1;
        }
        let byte = last_byte(first) as u64;
        checksum = mixed(mixed(checksum, byte), length as u64);
        rest = &rest[length..];
    }
    checksum
}

fn counts_texts(items: NEVec<String>) -> u64 {
    let mut counts: BTreeMap<String, usize> = BTreeMap::new();
    for text in items {
        *counts.entry(text).or_insert(0) += 1;
    }
    let mut checksum = 0u64;
    for (text, count) in &counts {
        checksum = mixed(mixed(checksum, last_byte(text) as u64), *count as u64);
    }
    checksum
}

fn group_map(items: NEVec<u64>) -> u64 {
    let mut groups: BTreeMap<u64, Vec<u64>> = BTreeMap::new();
    for x in items {
        groups.entry(x % 1024).or_default().push(x);
    }
    let mut checksum = 0u64;
    for (key, group) in &groups {
        checksum = mixed(mixed(checksum, *key), group[group.len() - 1]);
        checksum = mixed(checksum, group.len() as u64);
    }
    checksum
}
