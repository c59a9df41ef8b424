// The calls on maps and sets.
use crate::{collected, put_ok, put_some, write, Call, Key, NonEmptyNumbers, Transcript};
use indexmap::{IndexMap, IndexSet};
use nonempty_collections::{
    nebtm, nebts, neim, neis, nem, nes, IntoNonEmptyIterator, NEBTreeMap, NEBTreeSet, NEIndexMap,
    NEIndexSet, NEMap, NESet, NonEmptyIterator, Singleton,
};
use std::collections::hash_map::RandomState;
use std::collections::{BTreeMap, BTreeSet, HashMap, HashSet};

pub type TreeMap = NEBTreeMap<Key, u32>;
pub type HashedMap = NEMap<Key, u32>;
pub type IndexedMap = NEIndexMap<Key, u32>;
pub type TreeSet = NEBTreeSet<Key>;
pub type HashedSet = NESet<Key>;
pub type IndexedSet = NEIndexSet<Key>;

// Calls that all maps have.
macro_rules! any_map {
    ($map:expr, $call:expr, $out:expr, $Map:ident, $written:ident, $Std:ident) => {{
        let (map, call, out) = ($map, $call, $out);
        let (key, value) = (call.key(0), call.number(1));
        match call.name {
            "new" => *map = $Map::new(key, value),
            "singleton" => *map = $Map::singleton((key, value)),
            "written_one" => *map = $written![key => value],
            "written_two" => *map = $written![key => value, call.key(2) => call.number(3)],
            "collect" => *map = collected(call.some_pairs()),
            "try_from_map" => {
                put_some(map, out, $Map::try_from_map(call.pairs().into_iter().collect()))
            }
            "insert" => out.told(map.insert(key, value)),
            "extend_one" => map.extend([(key, value)]),
            "extend" => map.extend(call.pairs()),
            "get_mut" => write(map.get_mut(&key), value, out),
            "iter_mut" => rewrite(map.iter_mut(), call.first),
            "nonempty_iter_mut" => rewrite(map.nonempty_iter_mut(), call.first),
            "mut_into_iter" => rewrite((&mut *map).into_iter(), call.first),
            "contains_key" => out.told(map.contains_key(&key)),
            "get" => out.told(map.get(&key)),
            "get_key_value" => out.told(map.get_key_value(&key)),
            "keys" => out.yielded(map.keys()),
            "values" => out.yielded(map.values()),
            "eq" => out.told(*map == collected(call.some_pairs())),
            _ => iterated!(map, call, out, $Std),
        }
    }};
}

// Calls that all maps and sets have.
macro_rules! iterated {
    ($it:expr, $call:expr, $out:expr, $Std:ident) => {{
        let (it, out) = ($it, $out);
        match $call.name {
            "len" => out.told(it.len()),
            "as_ref" => out.told(it.as_ref().len()),
            "debug" => out.printed(it),
            "clone" => out.told(it.clone() == *it),
            "iter" => out.yielded(it.iter()),
            "nonempty_iter" => out.yielded(it.nonempty_iter()),
            "ref_into_iter" => out.yielded((&*it).into_iter()),
            "ref_into_nonempty_iter" => out.yielded((&*it).into_nonempty_iter()),
            "into_iter" => out.yielded(it.clone().into_iter()),
            "into_nonempty_iter" => out.yielded(it.clone().into_nonempty_iter()),
            "into_map" | "into_set" => out.yielded($Std::from(it.clone())),
            _ => out.said("no such call"),
        }
    }};
}

// Calls that only maps and sets without an order by keys have.
macro_rules! with_room {
    ($it:expr, $call:expr, $out:expr, $Kind:ident, ($($part:expr),*), $next:expr) => {{
        let (it, room, hasher) = (&mut *$it, $call.room, RandomState::new());
        match $call.name {
            "with_capacity" => *it = $Kind::with_capacity(room, $($part),*),
            "with_hasher" => *it = $Kind::with_hasher(hasher, $($part),*),
            "with_capacity_and_hasher" => {
                *it = $Kind::with_capacity_and_hasher(room, hasher, $($part),*)
            }
            "shrink_to_fit" => it.shrink_to_fit(),
            "capacity" => {
                $out.told((it.capacity() >= it.len(), it.capacity().get() >= $call.place))
            }
            "is_empty" => $out.told(it.is_empty()),
            _ => $next,
        }
    }};
}

// A call that index maps lack.
macro_rules! std_map {
    ($map:expr, $call:expr, $out:expr, $Map:ident, $Std:ident, $next:expr) => {
        match $call.name {
            "try_from" => {
                let pairs: $Std<Key, u32> = $call.pairs().into_iter().collect();
                put_ok($map, $out, $Map::try_from(pairs))
            }
            _ => $next,
        }
    };
}

fn rewrite<'a, I: IntoIterator<Item = (&'a Key, &'a mut u32)>>(iter: I, number: u32) {
    for (_key, value) in iter {
        *value = value.wrapping_mul(31).wrapping_add(number);
    }
}

pub fn tree_map(map: &mut TreeMap, call: &Call, out: &mut Transcript) {
    let next = |map: &mut TreeMap, out: &mut Transcript| {
        any_map!(map, call, out, TreeMap, nebtm, BTreeMap)
    };
    std_map!(map, call, out, TreeMap, BTreeMap, next(map, out))
}

pub fn hashed_map(map: &mut HashedMap, call: &Call, out: &mut Transcript) {
    let next = |map: &mut HashedMap, out: &mut Transcript| {
        any_map!(map, call, out, HashedMap, nem, HashMap)
    };
    let parts = (call.key(0), call.number(1));
    with_room!(
        map,
        call,
        out,
        HashedMap,
        (parts.0, parts.1),
        std_map!(map, call, out, HashedMap, HashMap, next(map, out))
    )
}

pub fn indexed_map(map: &mut IndexedMap, call: &Call, out: &mut Transcript) {
    let (a, b, len) = (call.place, call.last as usize, map.len().get());
    match call.name {
        "swap_indices" if a < len && b < len => map.swap_indices(a, b),
        "index" if a < len => out.told(map[a]),
        "swap_indices" | "index" => out.said("out of range"),
        "first" => out.told(map.first()),
        "last" => out.told(map.last()),
        "get_index_of" => out.told(map.get_index_of(&call.key(0))),
        "values_mut" => {
            for value in map.values_mut() {
                *value = value.wrapping_mul(31).wrapping_add(call.first);
            }
        }
        "nonempty_iter_clone" => out.yielded(map.nonempty_iter().clone()),
        "keys_clone" => out.yielded(map.keys().clone()),
        "values_clone" => out.yielded(map.values().clone()),
        _ => with_room!(
            map,
            call,
            out,
            IndexedMap,
            (call.key(0), call.number(1)),
            any_map!(map, call, out, IndexedMap, neim, IndexMap)
        ),
    }
}

// Calls that all sets have.
macro_rules! any_set {
    ($set:expr, $call:expr, $out:expr, $Set:ident, $written:ident, $Std:ident) => {{
        let (set, call, out) = ($set, $call, $out);
        let item = call.key(0);
        let other = || -> $Set { collected(call.some_items()) };
        match call.name {
            "new" => *set = $Set::new(item),
            "singleton" => *set = $Set::singleton(item),
            "written_one" => *set = $written![item],
            "written_two" => *set = $written![item, call.key(1)],
            "collect" => *set = other(),
            "try_from_set" => {
                put_some(set, out, $Set::try_from_set(call.items().into_iter().collect()))
            }
            "try_from" => {
                put_ok(set, out, $Set::try_from(call.items().into_iter().collect::<$Std<Key>>()))
            }
            "insert" => out.told(set.insert(item)),
            "replace" => out.told(set.replace(item)),
            "extend_one" => set.extend([item]),
            "extend" => set.extend(call.items()),
            "contains" => out.told(set.contains(&item)),
            "get" => out.told(set.get(&item)),
            "eq" => out.told(*set == other()),
            "is_disjoint" => out.told(set.is_disjoint(&other())),
            "is_subset" => out.told(set.is_subset(&other())),
            "is_superset" => out.told(set.is_superset(&other())),
            "difference" => out.yielded(set.difference(&other())),
            "intersection" => out.yielded(set.intersection(&other())),
            "union" => out.yielded(set.union(&other())),
            "union_next" => {
                let other = other();
                let (first, rest) = set.union(&other).next();
                out.yielded([first].into_iter().chain(rest))
            }
            _ => iterated!(set, call, out, $Std),
        }
    }};
}

pub fn tree_set(set: &mut TreeSet, call: &Call, out: &mut Transcript) {
    any_set!(set, call, out, TreeSet, nebts, BTreeSet)
}

pub fn hashed_set(set: &mut HashedSet, call: &Call, out: &mut Transcript) {
    match call.name {
        "reserve" => set.reserve(call.place),
        _ => with_room!(
            set,
            call,
            out,
            HashedSet,
            (call.key(0)),
            any_set!(set, call, out, HashedSet, nes, HashSet)
        ),
    }
}

pub fn indexed_set(set: &mut IndexedSet, call: &Call, out: &mut Transcript) {
    match call.name {
        "reserve" => set.reserve(call.place),
        _ => with_room!(
            set,
            call,
            out,
            IndexedSet,
            (call.key(0)),
            any_set!(set, call, out, IndexedSet, neis, IndexSet)
        ),
    }
}
