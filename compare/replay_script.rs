// What the two reference programs share: how a line of a script is read, its closures and keys, and
// how results are written.
use std::cell::Cell;
use std::cmp::Ordering;
use std::fmt::{self, Debug};
use std::hash::{Hash, Hasher};
use std::num::NonZeroUsize;

// A named closure on numbers. It counts its calls and adds up the numbers that it was passed. What
// some closures return depends on this state.
pub struct Closure {
    rule: Rule,
    calls: Cell<u32>,
    total: Cell<u32>,
}

#[derive(Clone, Copy)]
enum Rule {
    Same,
    Zero,
    Half,
    Tens,
    Digit,
    Falling,
    Calls,
    Pairs,
    Total,
}

impl Default for Closure {
    fn default() -> Closure {
        Closure::new(Rule::Same)
    }
}

impl Closure {
    // Returns the closure of this name, before its first call, or `None` if there is none.
    fn named(name: &str) -> Option<Closure> {
        let rule = match name {
            "same" => Rule::Same,
            "zero" => Rule::Zero,
            "half" => Rule::Half,
            "tens" => Rule::Tens,
            "digit" => Rule::Digit,
            "falling" => Rule::Falling,
            "calls" => Rule::Calls,
            "pairs" => Rule::Pairs,
            "total" => Rule::Total,
            _ => return None,
        };
        Some(Closure::new(rule))
    }

    fn new(rule: Rule) -> Closure {
        Closure { rule, calls: Cell::new(0), total: Cell::new(0) }
    }

    pub fn anew(&self) -> Closure {
        Closure::new(self.rule)
    }

    pub fn calls(&self) -> u32 {
        self.calls.get()
    }

    pub fn of(&self, x: u32) -> u32 {
        let calls = self.calls.get();
        self.calls.set(calls.wrapping_add(1));
        self.total.set(self.total.get().wrapping_add(x));
        match self.rule {
            Rule::Same => x,
            Rule::Zero => 0,
            Rule::Half => x / 2,
            Rule::Tens => x / 10,
            Rule::Digit => x % 10,
            Rule::Falling => u32::MAX - x,
            Rule::Calls => calls,
            Rule::Pairs => calls / 2,
            Rule::Total => self.total.get(),
        }
    }

    // Returns whether its result for `x` is even.
    pub fn holds(&self, x: u32) -> bool {
        self.of(x) % 2 == 0
    }

    pub fn order(&self, x: u32, y: u32) -> Ordering {
        let first = self.of(x);
        first.cmp(&self.of(y))
    }
}

// A number that equals another if their halves are the same. It is ordered and hashed by its half.
#[derive(Clone, Copy)]
pub struct Key {
    half: u32,
    number: u32,
}

impl Key {
    pub fn new(number: u32) -> Key {
        Key { half: number / 2, number }
    }

    pub fn number(&self) -> u32 {
        self.number
    }
}

impl PartialEq for Key {
    fn eq(&self, other: &Key) -> bool {
        self.half == other.half
    }
}

impl Eq for Key {}

impl PartialOrd for Key {
    fn partial_cmp(&self, other: &Key) -> Option<Ordering> {
        Some(self.cmp(other))
    }
}

impl Ord for Key {
    fn cmp(&self, other: &Key) -> Ordering {
        self.half.cmp(&other.half)
    }
}

impl Hash for Key {
    fn hash<H: Hasher>(&self, state: &mut H) {
        state.write_u32(self.half);
    }
}

impl Debug for Key {
    fn fmt(&self, f: &mut fmt::Formatter) -> fmt::Result {
        write!(f, "{}", self.number)
    }
}

// A call, as a line of a script writes it: a name, perhaps a closure's name, and numbers. A word
// `COUNT*STEP` means COUNT numbers, the multiples of STEP modulo COUNT. If a line has no number,
// the number is 0.
pub struct Call<'t> {
    pub name: &'t str,
    // The closure that it takes. If none is named, it is the one that returns what it is passed.
    pub closure: Closure,
    pub numbers: Vec<u32>,
    pub first: u32,
    pub last: u32,
    pub place: usize,
    // The first of the numbers as a size, which is at least 1.
    pub size: NonZeroUsize,
    // The last of the numbers as a size, which is at least 1.
    pub room: NonZeroUsize,
}

fn put_multiples(numbers: &mut Vec<u32>, count: &str, step: &str) {
    let (count, step): (u32, u32) = (count.parse().unwrap_or(0), step.parse().unwrap_or(0));
    numbers.extend((0..count).map(|place| place.wrapping_mul(step) % count));
}

fn sized(number: u32) -> NonZeroUsize {
    NonZeroUsize::new(number as usize).unwrap_or(NonZeroUsize::MIN)
}

impl<'t> Call<'t> {
    pub fn parsed(line: &'t str) -> Call<'t> {
        let mut words = line.split(' ');
        let name = words.next().unwrap_or("");
        let mut closure = Closure::default();
        let mut numbers = Vec::new();
        for word in words {
            if let Some((count, step)) = word.split_once('*') {
                put_multiples(&mut numbers, count, step);
            } else if let Ok(number) = word.parse::<u32>() {
                numbers.push(number);
            } else if let Some(named) = Closure::named(word) {
                closure = named;
            }
        }
        let first = numbers.first().copied().unwrap_or(0);
        let last = numbers.last().copied().unwrap_or(0);
        let (place, size, room) = (first as usize, sized(first), sized(last));
        Call { name, closure, numbers, first, last, place, size, room }
    }

    pub fn number(&self, place: usize) -> u32 {
        self.numbers.get(place).copied().unwrap_or(0)
    }

    pub fn key(&self, place: usize) -> Key {
        Key::new(self.number(place))
    }

    pub fn items(&self) -> Vec<Key> {
        self.numbers.iter().map(|number| Key::new(*number)).collect()
    }

    pub fn pairs(&self) -> Vec<(Key, u32)> {
        self.numbers
            .chunks(2)
            .map(|pair| (Key::new(pair[0]), pair.get(1).copied().unwrap_or(0)))
            .collect()
    }
}

// How results are written.
#[derive(Default)]
pub struct Transcript {
    pub text: String,
    pub is_sorted: bool,
    pub is_brief: bool,
}

impl Transcript {
    pub fn told<T: Debug>(&mut self, answer: T) {
        let text = format!("{answer:?}");
        if text.len() <= LONGEST {
            self.said(&text)
        } else {
            self.said(&format!("{} bytes, {}", text.len(), checksum(&text)))
        }
    }

    pub fn said(&mut self, words: &str) {
        self.text.push_str(words);
    }

    pub fn yielded<T: Ord + Debug, I: IntoIterator<Item = T>>(&mut self, iter: I) {
        let mut list: Vec<T> = iter.into_iter().collect();
        if self.is_brief && list.len() > MOST {
            return self.told(list.len());
        }
        if self.is_sorted {
            list.sort();
        }
        if list.len() <= MOST {
            return self.told(list);
        }
        let text = format!("{list:?}");
        self.told((list.len(), list.first(), list.last(), checksum(&text)))
    }

    pub fn printed<T: Debug>(&mut self, value: &T) {
        let short = format!("{value:?}");
        if short.len() <= MOST && !(self.is_sorted && short.contains(',')) {
            self.said(&format!("{short} "));
        }
        self.yielded(format!("{:#?}", [value]).lines())
    }
}

const LONGEST: usize = 1000;
const MOST: usize = 100;

fn checksum(text: &str) -> u32 {
    text.bytes().fold(0, |sum: u32, byte| sum.wrapping_mul(31).wrapping_add(byte.into()))
}

pub fn write(place: Option<&mut u32>, number: u32, out: &mut Transcript) {
    match place {
        Some(place) => *place = number,
        None => out.said("None"),
    }
}
