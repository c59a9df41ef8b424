// Calls on queues and on priority queues, made on std's.
use crate::script::{write, Call, Closure, Transcript};
use crate::unless_last;
use std::collections::{BinaryHeap, VecDeque};
use std::hash::{DefaultHasher, Hash, Hasher};

// The call's numbers, or 0 if there are none.
pub fn some_numbers<C: FromIterator<u32>>(call: &Call) -> C {
    call.numbers.iter().copied().chain(call.numbers.is_empty().then_some(0)).collect()
}

fn hashed<T: Hash>(value: &T) -> u64 {
    let mut hasher = DefaultHasher::new();
    value.hash(&mut hasher);
    hasher.finish()
}

// Puts in what was made, or writes the error or `None` if that is empty.
fn put_some<C>(there: &mut C, made: C, len: usize, none: &str, out: &mut Transcript) {
    if len == 0 {
        out.said(none)
    } else {
        *there = made
    }
}

const EMPTY: &str = "Given collection was empty, Empty";

// Writes what the closure returns in place of each item.
fn rewrite(items: &mut VecDeque<u32>, closure: &Closure) {
    for item in items.iter_mut() {
        *item = closure.of(*item);
    }
}

// Calls that make a queue, and calls that write items in place or move them.
pub fn deque(items: &mut VecDeque<u32>, call: &Call, out: &mut Transcript) {
    let (a, b, len) = (call.place, call.last as usize, items.len());
    match call.name {
        "new" | "singleton" | "written_one" => *items = VecDeque::from([call.first]),
        "written_two" => *items = VecDeque::from([call.first, call.last]),
        "with_capacity" => *items = VecDeque::from([call.last]),
        "from_parts" => {
            *items = some_numbers(call);
            items.push_front(call.first)
        }
        "from_vec" | "from_drained" | "collect" => *items = some_numbers(call),
        "try_from_deque" => {
            put_some(items, call.numbers.clone().into(), call.numbers.len(), "None", out)
        }
        "try_from" => put_some(items, call.numbers.clone().into(), call.numbers.len(), EMPTY, out),
        "front_mut" => *items.front_mut().unwrap() = call.last,
        "back_mut" => *items.back_mut().unwrap() = call.last,
        "get_mut" => write(items.get_mut(a), call.last, out),
        "index_mut" if a < len => items[a] = call.last,
        "iter_mut" | "nonempty_iter_mut" | "for_mut" => rewrite(items, &call.closure),
        "make_contiguous" => items.make_contiguous().reverse(),
        "swap" if a < len && b < len => items.swap(a, b),
        "rotate_left" if a <= len => items.rotate_left(a),
        "rotate_right" if a <= len => items.rotate_right(a),
        "index_mut" | "swap" | "rotate_left" | "rotate_right" => out.said("out of range"),
        _ => edited(items, call, out),
    }
}

// Calls that add and remove items.
fn edited(items: &mut VecDeque<u32>, call: &Call, out: &mut Transcript) {
    let (place, len) = (call.place, items.len());
    match call.name {
        "push_front" => items.push_front(call.first),
        "push_back" | "extend_one" => items.push_back(call.first),
        "extend" => items.extend(&call.numbers),
        "append" => {
            let mut other = some_numbers(call);
            items.append(&mut other);
            out.told(other)
        }
        "insert" if place <= len => items.insert(place, call.last),
        "insert" => out.said("out of range"),
        "reserve" => items.reserve(place),
        "shrink_to_fit" => items.shrink_to_fit(),
        "pop_front" => out.told(unless_last(len, || items.pop_front())),
        "pop_back" => out.told(unless_last(len, || items.pop_back())),
        "remove" => out.told(unless_last(len, || items.remove(place))),
        "swap_remove_front" => out.told(unless_last(len, || items.swap_remove_front(place))),
        "swap_remove_back" => out.told(unless_last(len, || items.swap_remove_back(place))),
        "truncate" => items.truncate(call.size.get()),
        "resize" => items.resize(call.size.get(), call.last),
        "pop_front_if" | "pop_back_if" => out.told(unless_last(len, || pop_if(items, call))),
        "split_off" if call.size.get() <= len => out.told(items.split_off(call.size.get())),
        "split_off" => out.said("out of range"),
        "retain" | "retain_mut" => retain(items, call, out),
        _ => read(items, call, out),
    }
}

// Removes the item at an end if what the closure returns for it is even, and else puts that there.
fn pop_if(items: &mut VecDeque<u32>, call: &Call) -> Option<u32> {
    let is_front = call.name == "pop_front_if";
    let item = if is_front { items.pop_front() } else { items.pop_back() };
    let changed = call.closure.of(item?);
    if changed % 2 == 0 {
        return Some(changed);
    }
    if is_front {
        items.push_front(changed);
    } else {
        items.push_back(changed);
    }
    None
}

fn retain(items: &mut VecDeque<u32>, call: &Call, out: &mut Transcript) {
    let mut kept = items.clone();
    if call.name == "retain" {
        kept.retain(|x| call.closure.holds(*x));
    } else {
        kept.retain_mut(|x| {
            *x = call.closure.of(*x);
            *x % 2 == 0
        });
    }
    let len = kept.len();
    put_some(items, kept, len, "[]", out)
}

// Calls that read a queue.
fn read(items: &VecDeque<u32>, call: &Call, out: &mut Transcript) {
    match call.name {
        "get" => out.told(items.get(call.place)),
        "index" if call.place < items.len() => out.told(items[call.place]),
        "index" => out.said("out of range"),
        "front" | "first" => out.told(items.front().unwrap()),
        "back" | "last" => out.told(items.back().unwrap()),
        "len" => out.told(items.len()),
        "is_empty" => out.told(items.is_empty()),
        "capacity" => out.told(items.capacity() >= items.len()),
        "contains" => out.told(items.contains(&call.first)),
        "as_ref" | "as_slices" | "clone" | "into_deque" | "into_vec" => out.told(items),
        "debug" => out.printed(items),
        "iter" | "nonempty_iter" | "nonempty_iter_clone" => out.yielded(items),
        "ref_into_iter" | "ref_into_nonempty_iter" => out.yielded(items),
        "iter_rev" => out.yielded(items.iter().rev()),
        "into_iter" | "into_nonempty_iter" => out.yielded(items.clone()),
        "eq" => out.told(*items == some_numbers::<VecDeque<u32>>(call)),
        "cmp" => out.told(items.cmp(&some_numbers(call))),
        "partial_cmp" => out.told(items.partial_cmp(&some_numbers(call))),
        "lt" => out.told(*items < some_numbers(call)),
        "hash" => out.told(hashed(items) == hashed(&some_numbers::<VecDeque<u32>>(call))),
        _ => searched(items, call, out),
    }
}

// Searches in a sorted copy. What is written is the key of the item that is found.
fn searched(items: &VecDeque<u32>, call: &Call, out: &mut Transcript) {
    let (closure, x) = (call.closure.anew(), call.first);
    let mut sorted = items.clone();
    sorted.make_contiguous().sort_by_key(|y| closure.of(*y));
    let found = match call.name {
        "binary_search" => sorted.binary_search(&x),
        "binary_search_by" => sorted.binary_search_by(|y| closure.of(*y).cmp(&x)),
        "binary_search_by_key" => sorted.binary_search_by_key(&x, |y| closure.of(*y)),
        "partition_point" => Err(sorted.partition_point(|y| closure.of(*y) < x)),
        _ => return out.said("no such call"),
    };
    match found {
        Ok(place) => out.told(sorted.get(place).map(|y| closure.of(*y))),
        Err(place) => out.told(place),
    }
}

// Calls that change a priority queue.
pub fn heap(heap: &mut BinaryHeap<u32>, call: &Call, out: &mut Transcript) {
    let numbers = || BinaryHeap::from(call.numbers.clone());
    match call.name {
        "new" | "singleton" => *heap = BinaryHeap::from([call.first]),
        "with_capacity" => *heap = BinaryHeap::from([call.last]),
        "from_vec" | "from_drained" | "collect" => *heap = some_numbers(call),
        "try_from_heap" => put_some(heap, numbers(), call.numbers.len(), "None", out),
        "try_from" => put_some(heap, numbers(), call.numbers.len(), EMPTY, out),
        "push" | "extend_one" => heap.push(call.first),
        "extend" => heap.extend(&call.numbers),
        "append" => {
            let mut other = numbers();
            heap.append(&mut other);
            out.told(other.len())
        }
        "pop" => out.told(unless_last(heap.len(), || heap.pop())),
        "replace_greatest" => {
            out.told(std::mem::replace(&mut *heap.peek_mut().unwrap(), call.first))
        }
        "retain" => {
            let mut kept = heap.clone();
            kept.retain(|x| call.closure.holds(*x));
            let len = kept.len();
            put_some(heap, kept, len, "[]", out)
        }
        "reserve" => heap.reserve(call.place),
        "shrink_to_fit" => heap.shrink_to_fit(),
        _ => heap_read(heap, call, out),
    }
}

// Calls that read a priority queue.
fn heap_read(heap: &BinaryHeap<u32>, call: &Call, out: &mut Transcript) {
    match call.name {
        "peek" => out.told(heap.peek().unwrap()),
        "len" | "as_ref" => out.told(heap.len()),
        "is_empty" => out.told(heap.is_empty()),
        "capacity" => out.told(heap.capacity() >= heap.len()),
        "clone" | "into_sorted_vec" => out.told(heap.clone().into_sorted_vec()),
        "debug" => out.printed(heap),
        "iter" | "nonempty_iter" | "as_nonempty_slice" => out.yielded(heap),
        "ref_into_iter" | "ref_into_nonempty_iter" => out.yielded(heap),
        "into_iter" | "into_nonempty_iter" | "into_heap" => out.yielded(heap.clone()),
        "into_vec" => out.yielded(heap.clone().into_vec()),
        _ => out.said("no such call"),
    }
}
