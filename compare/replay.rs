// The calls of `crates/test_replay` on the Rust crate `nonempty-collections`, with which the port
// is compared. It reads and prints the same.
#![allow(deprecated)]
#[path = "replay_keyed.rs"]
mod keyed;
#[allow(dead_code)] // The other program uses the rest.
#[path = "replay_script.rs"]
mod script;
#[path = "replay_vector.rs"]
mod vector;

use keyed::{HashedMap, HashedSet, IndexedMap, IndexedSet, TreeMap, TreeSet};
use nonempty_collections::{
    Error, FromNonEmptyIterator, IntoNonEmptyIterator, NEVec, NonEmptyIterator,
};
use script::{write, Call, Key, Transcript};
use std::fmt::Debug;
use std::io::{self, Read, Write as _};

fn main() -> io::Result<()> {
    let mut script = String::new();
    io::stdin().read_to_string(&mut script)?;
    io::stdout().write_all(replayed(&script).as_bytes())
}

fn replayed(script: &str) -> String {
    let mut out = Transcript::default();
    let mut subject = Subject::Vector(NEVec::new(0));
    for line in script.lines() {
        let call = Call::parsed(line);
        answered(&mut subject, &call, &mut out);
        out.said(" | ");
        out.is_sorted = subject.is_hashed();
        out.is_brief = true;
        subject.write(&call, &mut out);
        out.is_brief = false;
        out.said("\n");
    }
    out.text
}

fn answered(subject: &mut Subject, call: &Call, out: &mut Transcript) {
    match call.name {
        "vector" => *subject = Subject::Vector(call.vector()),
        "tree_map" => *subject = Subject::TreeMap(collected(call.some_pairs())),
        "hashed_map" => *subject = Subject::HashedMap(collected(call.some_pairs())),
        "indexed_map" => *subject = Subject::IndexedMap(collected(call.some_pairs())),
        "tree_set" => *subject = Subject::TreeSet(collected(call.some_items())),
        "hashed_set" => *subject = Subject::HashedSet(collected(call.some_items())),
        "indexed_set" => *subject = Subject::IndexedSet(collected(call.some_items())),
        _ => subject.answered(call, out),
    }
}

enum Subject {
    Vector(NEVec<u32>),
    TreeMap(TreeMap),
    HashedMap(HashedMap),
    IndexedMap(IndexedMap),
    TreeSet(TreeSet),
    HashedSet(HashedSet),
    IndexedSet(IndexedSet),
}

impl Subject {
    // Returns whether its order of iteration is unspecified.
    fn is_hashed(&self) -> bool {
        matches!(self, Subject::HashedMap(_) | Subject::HashedSet(_))
    }

    fn answered(&mut self, call: &Call, out: &mut Transcript) {
        match self {
            Subject::Vector(items) => vector::made(items, call, out),
            Subject::TreeMap(map) => keyed::tree_map(map, call, out),
            Subject::HashedMap(map) => keyed::hashed_map(map, call, out),
            Subject::IndexedMap(map) => keyed::indexed_map(map, call, out),
            Subject::TreeSet(set) => keyed::tree_set(set, call, out),
            Subject::HashedSet(set) => keyed::hashed_set(set, call, out),
            Subject::IndexedSet(set) => keyed::indexed_set(set, call, out),
        }
    }

    fn write(&self, call: &Call, out: &mut Transcript) {
        match self {
            Subject::Vector(items) => {
                out.yielded(items.iter());
                out.said(&format!(" | {}", call.closure.calls()))
            }
            Subject::TreeMap(map) => out.yielded(map.iter()),
            Subject::HashedMap(map) => out.yielded(map.iter()),
            Subject::IndexedMap(map) => out.yielded(map.iter()),
            Subject::TreeSet(set) => out.yielded(set.iter()),
            Subject::HashedSet(set) => out.yielded(set.iter()),
            Subject::IndexedSet(set) => out.yielded(set.iter()),
        }
    }
}

// What a call's numbers make with the Rust crate.
trait NonEmptyNumbers {
    fn vector(&self) -> NEVec<u32>;

    fn some_items(&self) -> NEVec<Key>;

    fn some_pairs(&self) -> NEVec<(Key, u32)>;
}

impl NonEmptyNumbers for Call<'_> {
    fn vector(&self) -> NEVec<u32> {
        NEVec::from((self.first, self.numbers.get(1..).unwrap_or(&[]).to_vec()))
    }

    fn some_items(&self) -> NEVec<Key> {
        NEVec::try_from_vec(self.items()).unwrap_or_else(|| NEVec::new(self.key(0)))
    }

    fn some_pairs(&self) -> NEVec<(Key, u32)> {
        NEVec::try_from_vec(self.pairs()).unwrap_or_else(|| NEVec::new((self.key(0), 0)))
    }
}

// Writes the vector into which a source is collected.
trait Collected {
    fn collected<T: Debug, S: NonEmptyIterator<Item = T>>(&mut self, source: S);
}

impl Collected for Transcript {
    fn collected<T: Debug, S: NonEmptyIterator<Item = T>>(&mut self, source: S) {
        self.told(source.collect::<NEVec<T>>())
    }
}

fn put_some<C>(there: &mut C, out: &mut Transcript, made: Option<C>) {
    match made {
        Some(made) => *there = made,
        None => out.said("None"),
    }
}

fn put_ok<C>(there: &mut C, out: &mut Transcript, made: Result<C, Error>) {
    match made {
        Ok(made) => *there = made,
        Err(error) => out.said(&format!("{error}, {error:?}")),
    }
}

fn collected<T, C: FromNonEmptyIterator<T>>(source: NEVec<T>) -> C {
    source.into_nonempty_iter().collect()
}
