// The calls on vectors, slices and chains.
use crate::{put_ok, put_some, write, Call, Collected, NonEmptyNumbers, Transcript};
use nonempty_collections::iter::once;
use nonempty_collections::vector::IntoIter;
use nonempty_collections::{
    nev, IntoIteratorExt, IntoNonEmptyIterator, NESlice, NEVec, NonEmptyArrayExt, NonEmptyIterator,
    NonEmptyItertools, Singleton,
};
use std::borrow::Cow;
use std::collections::{BTreeMap, BTreeSet, HashMap, HashSet};
use std::hash::{DefaultHasher, Hash, Hasher};
use std::num::Wrapping;
use std::path::PathBuf;

pub fn made(items: &mut NEVec<u32>, call: &Call, out: &mut Transcript) {
    let (first, last) = (call.first, call.last);
    match call.name {
        "new" => *items = NEVec::new(first),
        "from_elem" => *items = NEVec::from_elem(last, call.size),
        "with_capacity" => *items = NEVec::with_capacity(call.size, last),
        "from_parts" => *items = call.vector(),
        "singleton" => *items = NEVec::singleton(first),
        "nev_one" => *items = nev![first],
        "nev_two" => *items = nev![first, last],
        "nev_three" => *items = nev![first, last, first],
        // The Rust crate's macro takes a constant.
        "nev_many" if call.size.get() == 3 => *items = nev![last; 3],
        "nev_many" => *items = NEVec::from_elem(last, call.size),
        "try_from_vec" => put_some(items, out, NEVec::try_from_vec(call.numbers.clone())),
        "try_from_slice" => put_some(items, out, NEVec::try_from_slice(call.numbers.as_slice())),
        "try_from" => put_ok(items, out, NEVec::try_from(call.numbers.clone())),
        _ => written(items, call, out),
    }
}

fn written(items: &mut NEVec<u32>, call: &Call, out: &mut Transcript) {
    match call.name {
        "first_mut" => *items.first_mut() = call.last,
        "last_mut" => *items.last_mut() = call.last,
        "get_mut" => write(items.get_mut(call.place), call.last, out),
        "index_mut" if call.place < items.len().get() => items[call.place] = call.last,
        "index_mut" => out.said("out of range"),
        "as_mut_slice" => items.as_mut().reverse(),
        "iter_mut" => rewrite(items.iter_mut(), call),
        "nonempty_iter_mut" => rewrite(items.nonempty_iter_mut(), call),
        "for_mut" => rewrite(&mut *items, call),
        "reverse" => items.reverse(),
        _ => edited(items, call, out),
    }
}

fn rewrite<'a, I: IntoIterator<Item = &'a mut u32>>(iter: I, call: &Call) {
    for item in iter {
        *item = call.closure.of(*item);
    }
}

fn edited(items: &mut NEVec<u32>, call: &Call, out: &mut Transcript) {
    let len = items.len().get();
    match call.name {
        "push" => items.push(call.first),
        "extend_one" => items.extend([call.first]),
        "pop" => out.told(items.pop()),
        "remove" if len == 1 || call.place < len => out.told(items.remove(call.place)),
        "swap_remove" if len == 1 || call.place < len => out.told(items.swap_remove(call.place)),
        "insert" if call.place <= len => items.insert(call.place, call.last),
        "remove" | "swap_remove" | "insert" => out.said("out of range"),
        "append" => {
            let mut other = call.numbers.clone();
            items.append(&mut other);
            out.told(other)
        }
        "extend" => items.extend(call.numbers.iter().copied()),
        "truncate" => items.truncate(call.size),
        _ => kept(items, call, out),
    }
}

fn kept(items: &mut NEVec<u32>, call: &Call, out: &mut Transcript) {
    let closure = &call.closure;
    let kept = match call.name {
        "retain" => items.clone().retain(|x| closure.holds(*x)),
        "retain_mut" => items.clone().retain_mut(|x| {
            *x = closure.of(*x);
            *x % 2 == 0
        }),
        _ => return sorted(items, call, out),
    };
    match kept {
        Ok(kept) => *items = kept,
        Err(nothing) => out.told(nothing),
    }
}

fn sorted(items: &mut NEVec<u32>, call: &Call, out: &mut Transcript) {
    let (counted, closure) = (&call.closure, call.closure.anew());
    match call.name {
        "dedup" => items.dedup(),
        "dedup_by" => items.dedup_by(|x, y| counted.of(*x) == counted.of(*y)),
        "dedup_by_key" => items.dedup_by_key(|x| counted.of(*x)),
        "sort" => items.sort(),
        "sort_by" => items.sort_by(|x, y| closure.order(*x, *y)),
        "sort_by_key" => items.sort_by_key(|x| closure.of(*x)),
        _ => read(items, call, out),
    }
}

fn read(items: &NEVec<u32>, call: &Call, out: &mut Transcript) {
    match call.name {
        "first" => out.told(items.first()),
        "last" => out.told(items.last()),
        "get" => out.told(items.get(call.place)),
        "index" if call.place < items.len().get() => out.told(items[call.place]),
        "index" => out.said("out of range"),
        "len" => out.told(items.len()),
        "is_empty" => out.told(items.is_empty()),
        "capacity" => out.told(items.capacity() >= items.len()),
        "contains" => out.told(items.contains(&call.first)),
        "as_ref" => out.told(items.as_ref()),
        "split_first" => out.told(items.split_first()),
        "split" => out.told(items.split()),
        "clone" => out.told(items.clone()),
        "into_vec" => out.told(Vec::from(items.clone())),
        "debug" => out.printed(items),
        "iter" => out.yielded(items.iter()),
        "nonempty_iter" => out.yielded(items.nonempty_iter()),
        "nonempty_iter_clone" => out.yielded(items.nonempty_iter().clone()),
        "into_iter" => out.yielded(items.clone().into_iter()),
        "ref_into_iter" => out.yielded(items.into_iter()),
        "into_nonempty_iter" => out.yielded(items.clone().into_nonempty_iter()),
        "ref_into_nonempty_iter" => out.yielded(items.into_nonempty_iter()),
        _ => compared(items, call, out),
    }
}

fn hashed<T: Hash>(value: &T) -> u64 {
    let mut hasher = DefaultHasher::new();
    value.hash(&mut hasher);
    hasher.finish()
}

fn compared(items: &NEVec<u32>, call: &Call, out: &mut Transcript) {
    let (closure, x) = (call.closure.anew(), call.first);
    match call.name {
        "eq" => out.told(*items == call.vector()),
        "cmp" => out.told(items.cmp(&call.vector())),
        "partial_cmp" => out.told(items.partial_cmp(&call.vector())),
        "lt" => out.told(*items < call.vector()),
        "hash" => out.told(hashed(items) == hashed(&call.vector())),
        "binary_search" => out.told(items.binary_search(&x)),
        "binary_search_by" => out.told(items.binary_search_by(|y| closure.of(*y).cmp(&x))),
        "binary_search_by_key" => out.told(items.binary_search_by_key(&x, |y| closure.of(*y))),
        "partition_point" => out.told(items.partition_point(|y| closure.of(*y) < x)),
        _ => slice_read(items, call, out),
    }
}

fn slice_read(items: &NEVec<u32>, call: &Call, out: &mut Transcript) {
    let slice = items.as_nonempty_slice();
    match call.name {
        "slice_first" => out.told(slice.first()),
        "slice_last" => out.told(slice.last()),
        "slice_len" => out.told(slice.len()),
        "slice_is_empty" => out.told(slice.is_empty()),
        "slice_index" if call.place < slice.len().get() => out.told(slice[call.place]),
        "slice_index" => out.said("out of range"),
        "slice_as_ref" => out.told(slice.as_ref()),
        "slice_clone" => out.told(slice.clone()),
        "slice_iter" => out.yielded(slice.iter()),
        "slice_nonempty_iter" => out.yielded(slice.nonempty_iter()),
        "slice_into_iter" => out.yielded(slice.into_iter()),
        "slice_ref_into_iter" => out.yielded((&slice).into_iter()),
        "slice_into_nonempty_iter" => out.yielded(slice.into_nonempty_iter()),
        "slice_ref_into_nonempty_iter" => out.yielded((&slice).into_nonempty_iter()),
        "slice_chunks" => out.collected(slice.nonempty_chunks(call.size)),
        "nonempty_chunks" => out.collected(items.nonempty_chunks(call.size)),
        "chunk_sizes" => {
            out.collected(items.nonempty_chunks(call.size).map(|chunk| chunk.len().get()))
        }
        _ => slice_compared(items, call, out),
    }
}

fn slice_compared(items: &NEVec<u32>, call: &Call, out: &mut Transcript) {
    let slice = items.as_nonempty_slice();
    match (call.name, NESlice::try_from_slice(call.numbers.as_slice())) {
        ("slice_try_from", None) => out.said("None"),
        ("slice_try_from", Some(other)) => out.told(other),
        ("slice_eq", Some(other)) => out.told(slice == other),
        ("slice_cmp", Some(other)) => out.told(slice.cmp(&other)),
        ("slice_partial_cmp", Some(other)) => out.told(slice.partial_cmp(&other)),
        ("slice_hash", Some(other)) => out.told(hashed(&slice) == hashed(&other)),
        _ => other(items, call, out),
    }
}

fn other(items: &NEVec<u32>, call: &Call, out: &mut Transcript) {
    let array = [call.first, call.last, call.first];
    match call.name {
        "array_len" => out.told(array.nonzero_len()),
        "array_slice" => out.told(array.as_nonempty_slice()),
        "array_vec" => out.told(array.into_nonempty_vec()),
        "array_longest" => out.told([call.first; 32].into_nonempty_vec()),
        "array_iter" => out.collected(array.into_nonempty_iter()),
        "array_ref_iter" => out.collected((&array).into_nonempty_iter()),
        "once" => out.collected(once(call.first)),
        "try_into_nonempty_iter" => match call.numbers.clone().try_into_nonempty_iter() {
            Some(numbers) => out.collected(numbers),
            None => out.said("None"),
        },
        _ => referenced(items, call, out),
    }
}

fn referenced(items: &NEVec<u32>, call: &Call, out: &mut Transcript) {
    let source = items.nonempty_iter();
    match call.name {
        "cloned" => out.collected(source.cloned()),
        "copied" => out.collected(source.copied()),
        "collect_nevec" => out.collected(source),
        "collect_vec" => out.told(source.collect::<Vec<&u32>>()),
        "cartesian_product" => {
            let other = call.vector();
            out.collected(source.copied().cartesian_product(other.nonempty_iter().copied()))
        }
        "all_unique" => out.told(source.copied().all_unique()),
        _ => alone(items.clone().into_nonempty_iter(), call, out),
    }
}

fn alone(source: IntoIter<u32>, call: &Call, out: &mut Transcript) {
    let of = |x: u32| call.closure.of(x);
    let other = call.numbers.clone();
    match call.name {
        "map" => out.collected(source.map(of)),
        "take" => out.collected(source.take(call.size)),
        "chain" => out.collected(source.chain(other)),
        "flat_map" => out.collected(source.flat_map(|x| [x, of(x)])),
        "enumerate" => out.collected(source.enumerate()),
        "zip" => out.collected(source.zip(call.vector())),
        "peekable" | "peek_mut" => {
            let mut source = source.peekable();
            out.said(&format!("{} ", source.peek()));
            if call.name == "peek_mut" {
                *source.peek_mut() = call.first;
            }
            out.collected(source)
        }
        _ => divided(source, call, out),
    }
}

fn divided(source: IntoIter<u32>, call: &Call, out: &mut Transcript) {
    let key = |x: &u32| call.closure.of(*x);
    match call.name {
        "group_by" => out.collected(source.group_by(key)),
        "group_by_stopped" => {
            let mut runs = source.group_by(key).into_iter();
            for _ in 0..call.place {
                match runs.next() {
                    Some(run) => out.said(&format!("{run:?} ")),
                    None => out.said("None "),
                }
            }
        }
        // The Rust crate has no function that takes runs.
        "take_runs" => {
            out.told(source.group_by(key).into_iter().take(call.place).collect::<Vec<_>>())
        }
        "intersperse" => out.collected(source.intersperse(call.first)),
        _ => answered(source, call, out),
    }
}

fn answered(source: IntoIter<u32>, call: &Call, out: &mut Transcript) {
    let holds = |x: u32| call.closure.holds(x);
    let of = |total: u32, x| total.wrapping_mul(31).wrapping_add(call.closure.of(x));
    match call.name {
        "all" => out.told(source.all(holds)),
        "any" => out.told(source.any(holds)),
        "find" => out.told(source.find(|x| holds(*x))),
        "nth" => out.told(source.nth(call.place)),
        "count" => out.told(source.count()),
        "next" => {
            let (first, others) = NonEmptyIterator::next(source);
            out.yielded([first].into_iter().chain(others))
        }
        "fold" => out.told(source.fold(call.first, of)),
        "reduce" => out.told(source.reduce(of)),
        "sum" => out.told(source.map(Wrapping).sum::<Wrapping<u32>>().0),
        "product" => out.told(source.map(Wrapping).product::<Wrapping<u32>>().0),
        "max" => out.told(source.max()),
        "min" => out.told(source.min()),
        _ => extreme(source, call, out),
    }
}

fn extreme(source: IntoIter<u32>, call: &Call, out: &mut Transcript) {
    let order = |x: &(usize, u32), y: &(usize, u32)| call.closure.order(x.1, y.1);
    let key = |x: &(usize, u32)| call.closure.of(x.1);
    let holds = |x: &u32| call.closure.holds(*x);
    match call.name {
        "max_by" => out.told(source.enumerate().max_by(order)),
        "min_by" => out.told(source.enumerate().min_by(order)),
        "max_by_key" => out.told(source.enumerate().max_by_key(key)),
        "min_by_key" => out.told(source.enumerate().min_by_key(key)),
        "filter" => out.yielded(source.filter(holds)),
        "filter_map" => out.yielded(source.filter_map(|x| x.checked_sub(call.closure.of(x)))),
        "skip" => out.yielded(source.skip(call.place)),
        "skip_while" => out.yielded(source.skip_while(holds)),
        "take_while" => out.yielded(source.take_while(holds)),
        "unzip" => {
            let both: (NEVec<u32>, NEVec<u32>) = source.map(|x| (call.closure.of(x), x)).unzip();
            out.told(both)
        }
        "sorted_by_key" => {
            let key = call.closure.anew();
            out.collected(source.enumerate().sorted_by_key(|x| key.of(x.1)))
        }
        _ => collected(source, call, out),
    }
}

fn letter(x: u32) -> char {
    match x % 4 {
        0 => 'a',
        1 => 'b',
        2 => 'é',
        _ => '/',
    }
}

fn letters(x: u32) -> &'static str {
    match x % 5 {
        0 => "a",
        1 => "bc",
        2 => "",
        3 => "é",
        _ => "/d",
    }
}

fn collected(source: IntoIter<u32>, call: &Call, out: &mut Transcript) {
    let of = |x: u32| call.closure.of(x);
    let pair = |x: (usize, u32)| (call.closure.of(x.1), x);
    match call.name {
        "collect_unit" => source.map(|x| _ = of(x)).collect(),
        "collect_result" => {
            let holds = |x| if call.closure.holds(x) { Ok(x) } else { Err(x) };
            out.told(source.map(holds).collect::<Result<NEVec<u32>, u32>>())
        }
        "collect_tree_map" => {
            out.told(source.enumerate().map(pair).collect::<BTreeMap<u32, (usize, u32)>>())
        }
        "collect_hash_map" => {
            let map: HashMap<u32, (usize, u32)> = source.enumerate().map(pair).collect();
            out.told((map.len(), map.get(&call.first), map.get(&call.last)))
        }
        "collect_tree_set" => out.told(source.map(of).collect::<BTreeSet<u32>>()),
        "collect_hash_set" => {
            let set: HashSet<u32> = source.map(of).collect();
            out.told((set.len(), set.contains(&call.first), set.contains(&call.last)))
        }
        "collect_chars" => out.told(source.map(letter).collect::<String>()),
        "collect_char_refs" => {
            let letters: NEVec<char> = source.map(letter).collect();
            out.told(letters.nonempty_iter().collect::<String>())
        }
        "collect_strs" => out.told(source.map(letters).collect::<String>()),
        "collect_strings" => out.told(source.map(|x| letters(x).to_string()).collect::<String>()),
        "collect_cows" => {
            out.told(source.map(|x| Cow::Borrowed(letters(x))).collect::<String>())
        }
        "collect_path" => out.told(source.map(letters).collect::<PathBuf>()),
        _ => out.said("no such call"),
    }
}
