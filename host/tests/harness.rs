//! What every section needs: random numbers from a seed, lent memory with guards, cases that are made smaller when they
//! fail, and the counting.

use crate::interface::Interface;
use crate::library::Library;
use crate::reference::{body, Kind, Reference};
use std::fmt::{self, Debug};
use std::io::Write;
use std::time::{Duration, Instant};

// ---- Random numbers

/// Xorshift: the same seed gives the same cases on every machine.
#[derive(Clone)]
pub struct Random(u64);

impl Random {
    /// A generator for one section: sections can be run alone and still see the same cases.
    pub fn new(seed: u64, section: &str) -> Random {
        let mixed = section.bytes().fold(seed ^ 0x9E37_79B9_7F4A_7C15, |so_far, byte| {
            (so_far ^ u64::from(byte)).wrapping_mul(0x0000_0100_0000_01B3).rotate_left(23)
        });
        Random(mixed | 1)
    }

    pub fn next(&mut self) -> u64 {
        self.0 ^= self.0 << 13;
        self.0 ^= self.0 >> 7;
        self.0 ^= self.0 << 17;
        self.0.wrapping_mul(0x2545_F491_4F6C_DD1D)
    }

    /// A number below n.
    pub fn below(&mut self, n: usize) -> usize {
        ((self.next() >> 32) as usize) % n.max(1)
    }

    /// A number from a first to a last, both possible.
    pub fn between(&mut self, least: usize, most: usize) -> usize {
        least + self.below(most - least + 1)
    }

    /// True once in n times.
    pub fn one_in(&mut self, n: usize) -> bool {
        self.below(n) == 0
    }

    pub fn byte(&mut self) -> u8 {
        (self.next() >> 32) as u8
    }

    pub fn u16(&mut self) -> u16 {
        (self.next() >> 32) as u16
    }

    pub fn u32(&mut self) -> u32 {
        (self.next() >> 32) as u32
    }

    pub fn pick<T: Copy>(&mut self, among: &[T]) -> T {
        among[self.below(among.len())]
    }
}

// ---- Lent memory

/// Elements of lent slices: how a pattern fills them.
pub trait Element: Copy + PartialEq + fmt::UpperHex {
    fn from_pattern(byte: u8) -> Self;
}

impl Element for u8 {
    fn from_pattern(byte: u8) -> u8 {
        byte
    }
}

impl Element for u16 {
    fn from_pattern(byte: u8) -> u16 {
        (u16::from(byte) * 257) ^ 0x5A00
    }
}

const PATTERN: [u8; 1024] = pattern();

const fn pattern() -> [u8; 1024] {
    let mut bytes = [0; 1024];
    let mut state: u32 = 0x1234_5677;
    let mut at = 0;
    while at < bytes.len() {
        state ^= state << 13;
        state ^= state >> 17;
        state ^= state << 5;
        bytes[at] = (state >> 11) as u8;
        at += 1;
    }
    bytes
}

/// A lent slice between two guards. Guards and unwritten room hold a pattern, so that a stray write is seen wherever it
/// lands; the slice's start moves with the salt, so that no alignment is taken for granted.
#[derive(Clone, PartialEq)]
pub struct Lent<T> {
    memory: Vec<T>,
    start: usize,
    length: usize,
}

const GUARD: usize = 32;

impl<T: Element> Lent<T> {
    /// Room with a pattern in it.
    pub fn room(length: usize, salt: u32) -> Lent<T> {
        let start = GUARD + salt as usize % 8;
        let total = start + length + GUARD;
        let mut memory: Vec<T> = Vec::with_capacity(total);
        let mut pattern = &PATTERN[salt as usize % PATTERN.len()..];
        while memory.len() < total {
            memory.extend(pattern.iter().take(total - memory.len()).map(|&byte| T::from_pattern(byte)));
            pattern = &PATTERN;
        }
        Lent { memory, start, length }
    }

    /// A slice with contents of its own.
    pub fn holding(contents: &[T], salt: u32) -> Lent<T> {
        let mut lent = Lent::room(contents.len(), salt);
        lent.slice().copy_from_slice(contents);
        lent
    }

    pub fn slice(&mut self) -> &mut [T] {
        &mut self.memory[self.start..self.start + self.length]
    }

    pub fn contents(&self) -> &[T] {
        &self.memory[self.start..self.start + self.length]
    }

    /// Where another differs first, in words; none where the whole memory is equal.
    pub fn difference(&self, other: &Lent<T>) -> Option<String> {
        let at = self.memory.iter().zip(&other.memory).position(|(a, b)| a != b)?;
        let (expected, found) = (self.memory[at], other.memory[at]);
        let place = if at < self.start {
            format!("{} before its start", self.start - at)
        } else if at >= self.start + self.length {
            format!("{} past its end (length {})", at - self.start - self.length, self.length)
        } else {
            format!("at {}", at - self.start)
        };
        Some(format!("{place}: expected {expected:02X}, found {found:02X}"))
    }
}

impl Lent<u8> {
    /// The same with every bit the other way round: a byte that is written as it was before in one is not in the other.
    pub fn inverted(mut self) -> Lent<u8> {
        self.memory.iter_mut().for_each(|byte| *byte = !*byte);
        self
    }
}

// ---- Cases

/// A byte string that is printed in hex, 00*260 for a byte many times.
#[derive(Clone, PartialEq, Eq, Default)]
pub struct Hex(pub Vec<u8>);

impl Debug for Hex {
    fn fmt(&self, f: &mut fmt::Formatter) -> fmt::Result {
        write!(f, "[{} bytes:", self.0.len())?;
        let mut rest = &self.0[..];
        while let Some(byte) = rest.first() {
            let times = rest.iter().take_while(|other| *other == byte).count();
            if times > 3 {
                write!(f, " {byte:02X}*{times}")?;
                rest = &rest[times..];
            } else {
                write!(f, " {byte:02X}")?;
                rest = &rest[1..];
            }
        }
        write!(f, "]")
    }
}

/// Values that a failing case may be made smaller by; each is nearer to the smallest than the one it comes from.
pub trait Smaller: Sized {
    fn smaller(&self) -> Vec<Self>;
}

macro_rules! smaller_number {
    ($($number:ty),*) => {$(
        impl Smaller for $number {
            fn smaller(&self) -> Vec<$number> {
                let mut all = vec![0, self / 2, self - self.signum_or_one()];
                all.retain(|n| n != self);
                all.dedup();
                all
            }
        }
    )*};
}

/// One step towards zero, for signed and unsigned numbers alike.
trait Step {
    fn signum_or_one(&self) -> Self;
}

macro_rules! step_unsigned {
    ($($number:ty),*) => {$(impl Step for $number { fn signum_or_one(&self) -> $number { (*self).min(1) } })*};
}
macro_rules! step_signed {
    ($($number:ty),*) => {$(impl Step for $number { fn signum_or_one(&self) -> $number { self.signum() } })*};
}
step_unsigned!(u8, u16, u32, usize);
step_signed!(i16, i32);
smaller_number!(u8, u16, u32, usize, i16, i32);

impl Smaller for bool {
    fn smaller(&self) -> Vec<bool> {
        if *self {
            vec![false]
        } else {
            vec![]
        }
    }
}

/// In longer lists only large parts are left out or set to zero, since each try is a copy of the list.
const LONG: usize = 600;

/// A list without one of its parts: the whole, the halves, and so on down to single elements.
pub fn without_parts<T: Clone>(list: &[T]) -> Vec<Vec<T>> {
    parts(list.len()).into_iter().map(|(from, to)| [&list[..from], &list[to..]].concat()).collect()
}

/// Bytes with one of their parts set to zero, where it is not zero already.
fn zeroed_parts(bytes: &[u8]) -> Vec<Vec<u8>> {
    let not_zero = |part: &(usize, usize)| bytes[part.0..part.1].iter().any(|&byte| byte != 0);
    let zeroed = |(from, to): (usize, usize)| {
        let mut changed = bytes.to_vec();
        changed[from..to].fill(0);
        changed
    };
    parts(bytes.len()).into_iter().filter(not_zero).map(zeroed).collect()
}

fn parts(length: usize) -> Vec<(usize, usize)> {
    let mut all = Vec::new();
    let mut size = length;
    let smallest = if length > LONG { length / 8 } else { 1 };
    while size >= smallest {
        all.extend((0..length).step_by(size).map(|from| (from, (from + size).min(length))));
        size /= 2;
    }
    all
}

impl<T: Smaller + Clone> Smaller for Vec<T> {
    fn smaller(&self) -> Vec<Vec<T>> {
        let mut all = without_parts(self);
        for at in 0..self.len() {
            for element in self[at].smaller() {
                let mut changed = self.clone();
                changed[at] = element;
                all.push(changed);
            }
        }
        all
    }
}

impl Smaller for Hex {
    fn smaller(&self) -> Vec<Hex> {
        let bytes = &self.0;
        let mut all = without_parts(bytes);
        all.extend(zeroed_parts(bytes));
        let single = if bytes.len() > LONG { 0 } else { bytes.len() };
        for at in 0..single {
            for byte in bytes[at].smaller() {
                let mut changed = bytes.clone();
                changed[at] = byte;
                all.push(changed);
            }
        }
        all.into_iter().map(Hex).collect()
    }
}

/// An unstuffed body: made smaller as it is, and with its L and its checksum put right again.
#[derive(Clone)]
pub struct Body(pub Vec<u8>, pub Kind);

impl Debug for Body {
    fn fmt(&self, f: &mut fmt::Formatter) -> fmt::Result {
        Hex(self.0.clone()).fmt(f)
    }
}

impl Body {
    fn put_right(mut bytes: Vec<u8>, kind: Kind) -> Vec<u8> {
        let header = if kind == Kind::Request { 3 } else { 4 };
        if let Some(data) = bytes.len().checked_sub(header + 1) {
            bytes[header - 1] = data as u8;
            bytes.pop();
            bytes = body(&bytes);
        }
        bytes
    }
}

impl Smaller for Body {
    fn smaller(&self) -> Vec<Body> {
        let plain: Vec<Vec<u8>> = Hex(self.0.clone()).smaller().into_iter().map(|hex| hex.0).collect();
        let right = plain.iter().map(|bytes| Body::put_right(bytes.clone(), self.1));
        // What is put right must still come nearer to the smallest: shorter, or of a smaller sum before its checksum.
        let size = |bytes: &[u8]| {
            let before = &bytes[..bytes.len().saturating_sub(1)];
            (bytes.len(), before.iter().map(|&byte| usize::from(byte)).sum::<usize>())
        };
        let nearer = right.filter(|bytes| size(bytes) < size(&self.0));
        nearer.chain(plain.iter().cloned()).map(|bytes| Body(bytes, self.1)).collect()
    }
}

/// Something that can be tried on the reference and on the library.
pub trait Case: Clone + Debug + Smaller {
    /// What differs, in words.
    fn fault(&self) -> Option<String>;
    /// How many calls of the library it makes.
    fn calls(&self) -> u64 {
        1
    }
}

/// What a call left behind: its answer and all that was lent to it.
pub struct Outcome<A> {
    pub answer: A,
    pub lent: Vec<Lent<u8>>,
    pub words: Vec<Lent<u16>>,
}

pub fn outcome<A>(answer: A, lent: Vec<Lent<u8>>) -> Outcome<A> {
    Outcome { answer, lent, words: Vec::new() }
}

/// A single call of one exported function.
pub trait Call {
    type Answer: PartialEq + Debug;
    fn salt(&self) -> u32;
    fn call(&self, on: &dyn Interface) -> Outcome<Self::Answer>;
}

/// Makes a call on both and says what differs.
pub fn compare<C: Call>(call: &C) -> Option<String> {
    let expected = call.call(&Reference);
    let found = call.call(&Library { null_for_empty: call.salt() % 2 == 1 });
    if expected.answer != found.answer {
        return Some(format!("answer: expected {:?}, found {:?}", expected.answer, found.answer));
    }
    let bytes = expected.lent.iter().zip(&found.lent).map(|(a, b)| a.difference(b));
    let words = expected.words.iter().zip(&found.words).map(|(a, b)| a.difference(b));
    let all: Vec<Option<String>> = bytes.chain(words).collect();
    let which = all.iter().position(Option::is_some)?;
    Some(format!("lent slice {which}, {}", all[which].clone().unwrap_or_default()))
}

/// A struct of fields that can each be made smaller; the salt chooses the pattern, the alignment and NULL.
#[macro_export]
macro_rules! case {
    ($(#[$doc:meta])* $name:ident { $($field:ident: $type:ty),* $(,)? }) => {
        $(#[$doc])*
        #[derive(Clone, Debug)]
        pub struct $name { $(pub $field: $type),* }
        impl $crate::harness::Smaller for $name {
            fn smaller(&self) -> Vec<$name> {
                let mut all = Vec::new();
                $(for smaller in $crate::harness::Smaller::smaller(&self.$field) {
                    let mut changed = self.clone();
                    changed.$field = smaller;
                    all.push(changed);
                })*
                all
            }
        }
    };
}

/// A case that is one call: its fields, then how it is made.
#[macro_export]
macro_rules! call {
    ($(#[$doc:meta])* $name:ident { $($field:ident: $type:ty),* $(,)? } -> $answer:ty, |$self:ident, $on:ident| $body:expr) => {
        $crate::case! { $(#[$doc])* $name { $($field: $type,)* salt: u32 } }
        impl $crate::harness::Call for $name {
            type Answer = $answer;
            fn salt(&self) -> u32 { self.salt }
            fn call(&$self, $on: &dyn $crate::interface::Interface) -> $crate::harness::Outcome<$answer> { $body }
        }
        impl $crate::harness::Case for $name {
            fn fault(&self) -> Option<String> { $crate::harness::compare(self) }
        }
    };
}

/// The smallest case that still fails, as far as a bounded search finds one.
fn smallest<C: Case>(failing: &C) -> C {
    let mut case = failing.clone();
    let mut tries = 50_000;
    // A try of a file of 65,000 bytes takes as long as a thousand others.
    let end = Instant::now() + Duration::from_secs(20);
    'smaller: loop {
        for candidate in case.smaller() {
            if tries == 0 || Instant::now() > end {
                return case;
            }
            tries -= 1;
            if candidate.fault().is_some() {
                case = candidate;
                continue 'smaller;
            }
        }
        return case;
    }
}

// ---- Sections and counting

pub struct Report {
    pub seed: u64,
    /// The share of the random cases to run, in hundredths.
    pub percent: usize,
    /// Only the sections whose name holds this.
    pub only: String,
    pub sections: u64,
    pub cases: u64,
    pub failures: u64,
}

impl Report {
    pub fn section(&mut self, name: &str, body: impl FnOnce(&mut Section)) {
        if !name.contains(&self.only) {
            return;
        }
        // The name stands before the run: a crash of the library is then told with its section.
        print!("{name:<44}");
        let _ = std::io::stdout().flush();
        let began = Instant::now();
        let mut section =
            Section { random: Random::new(self.seed, name), percent: self.percent, cases: 0, failure: None };
        body(&mut section);
        let seconds = began.elapsed().as_secs_f64();
        println!("{:>12} cases {seconds:>7.2} s", thousands(section.cases));
        self.sections += 1;
        self.cases += section.cases;
        if let Some(failure) = section.failure {
            self.failures += 1;
            println!("FAILED {name}, after {} cases", thousands(section.cases));
            println!("{failure}");
            println!("  again with:  MFC_SEED={} MFC_ONLY='{name}' host/tests/run", self.seed);
        }
    }
}

pub struct Section {
    pub random: Random,
    percent: usize,
    cases: u64,
    failure: Option<String>,
}

impl Section {
    /// How often a random part of the section runs.
    pub fn times(&self, whole: usize) -> usize {
        (whole * self.percent / 100).max(1)
    }

    /// A section stops at its first failure; what follows in it is not tried.
    pub fn has_failed(&self) -> bool {
        self.failure.is_some()
    }

    pub fn check<C: Case>(&mut self, case: C) {
        if self.has_failed() {
            return;
        }
        self.cases += case.calls();
        if case.fault().is_some() {
            let small = smallest(&case);
            let fault = small.fault().unwrap_or_default();
            self.failure = Some(format!("  smallest:    {small:?}\n  differs in:  {fault}"));
        }
    }

    /// For claims that are not a comparison of two calls: what was expected, what was found.
    pub fn expect<T: PartialEq + Debug>(&mut self, what: &str, expected: T, found: T) {
        if self.has_failed() {
            return;
        }
        self.cases += 1;
        if expected != found {
            self.failure =
                Some(format!("  case:        {what}\n  expected:    {expected:?}\n  found:       {found:?}"));
        }
    }
}

/// A count with commas between its thousands.
pub fn thousands(n: u64) -> String {
    let digits = n.to_string();
    let mut text = String::new();
    for (at, digit) in digits.chars().enumerate() {
        if at > 0 && (digits.len() - at) % 3 == 0 {
            text.push(',');
        }
        text.push(digit);
    }
    text
}
