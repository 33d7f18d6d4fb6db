//! Stands in for `rustc_hash` where time is measured: hash sets and maps with the hash function of the crate
//! `rustc-hash` 2.1. A set is read in ascending order of what its elements hash to, as in `rustc_hash.rs` beside this
//! file. The order is made when a set is first read and kept up from then on, so that a set that is read again, or
//! grows between two readings, is not sorted anew; a set that is never read pays nothing for it.

use std::cell::{Cell, OnceCell};
use std::collections::{HashMap, HashSet};
use std::hash::{BuildHasherDefault, Hash, Hasher};

pub type FxHashMap<K, V> = HashMap<K, V, BuildHasherDefault<FxHasher>>;

const MULTIPLIER: u64 = 0xf135_7aea_2e62_a9c5;

#[derive(Default)]
pub struct FxHasher(u64);

impl Hasher for FxHasher {
    #[inline]
    fn write(&mut self, bytes: &[u8]) {
        self.write_u64(hash_bytes(bytes));
    }
    #[inline]
    fn write_u8(&mut self, n: u8) {
        self.write_u64(u64::from(n));
    }
    #[inline]
    fn write_u16(&mut self, n: u16) {
        self.write_u64(u64::from(n));
    }
    #[inline]
    fn write_u32(&mut self, n: u32) {
        self.write_u64(u64::from(n));
    }
    #[inline]
    fn write_u64(&mut self, n: u64) {
        self.0 = self.0.wrapping_add(n).wrapping_mul(MULTIPLIER);
    }
    #[inline]
    fn write_usize(&mut self, n: usize) {
        self.write_u64(n as u64);
    }
    #[inline]
    fn finish(&self) -> u64 {
        self.0.rotate_left(26)
    }
}

fn multiply_mix(x: u64, y: u64) -> u64 {
    let product = u128::from(x) * u128::from(y);
    product as u64 ^ (product >> 64) as u64
}

fn word(bytes: &[u8], start: usize, length: usize) -> u64 {
    bytes[start..start + length].iter().rev().fold(0, |word, &byte| (word << 8) | u64::from(byte))
}

fn hash_bytes(bytes: &[u8]) -> u64 {
    let length = bytes.len();
    let (mut first, mut second) = (0x243f_6a88_85a3_08d3, 0x1319_8a2e_0370_7344);
    match length {
        0 => {}
        1..=3 => {
            first ^= word(bytes, 0, 1);
            second ^= (word(bytes, length - 1, 1) << 8) | word(bytes, length / 2, 1);
        }
        4..=7 => {
            first ^= word(bytes, 0, 4);
            second ^= word(bytes, length - 4, 4);
        }
        _ => {
            let mut start = 0;
            while start + 16 < length {
                let mixed =
                    multiply_mix(first ^ word(bytes, start, 8), 0xa409_3822_299f_31d0 ^ word(bytes, start + 8, 8));
                (first, second) = (second, mixed);
                start += 16;
            }
            first ^= word(bytes, length.max(16) - 16, 8);
            second ^= word(bytes, length - 8, 8);
        }
    }
    multiply_mix(first, second) ^ length as u64
}

/// Captures the number of an id, or the two numbers of a pair of ids.
#[derive(Default)]
struct IdNumber(u64);

impl Hasher for IdNumber {
    fn write(&mut self, _bytes: &[u8]) {
        unreachable!("sets hold ids and pairs of ids only");
    }
    #[inline]
    fn write_u32(&mut self, n: u32) {
        self.0 = (self.0 << 32) | u64::from(n);
    }
    #[inline]
    fn finish(&self) -> u64 {
        self.0
    }
}

#[inline]
fn number_of<T: Hash>(element: &T) -> u64 {
    let mut number = IdNumber::default();
    element.hash(&mut number);
    number.finish()
}

pub struct FxHashSet<T> {
    elements: HashSet<T, BuildHasherDefault<FxHasher>>,
    /// All elements in ascending order, if the set was read since its last change.
    ascending: OnceCell<Vec<T>>,
    /// Else the order of the last reading, if there was one, and behind it what was inserted since.
    outdated: Cell<Vec<T>>,
}

impl<T> Default for FxHashSet<T> {
    #[inline]
    fn default() -> Self {
        FxHashSet { elements: HashSet::default(), ascending: OnceCell::new(), outdated: Cell::default() }
    }
}

/// A copy has yet to be read.
impl<T: Clone> Clone for FxHashSet<T> {
    fn clone(&self) -> Self {
        FxHashSet { elements: self.elements.clone(), ascending: OnceCell::new(), outdated: Cell::default() }
    }
}

impl<T: Copy + Eq + Hash> FxHashSet<T> {
    #[inline]
    pub fn insert(&mut self, element: T) -> bool {
        let new = self.elements.insert(element);
        if new {
            self.outdate(element);
        }
        new
    }

    #[inline]
    fn outdate(&mut self, inserted: T) {
        let outdated = self.outdated.get_mut();
        match self.ascending.take() {
            Some(ascending) => *outdated = ascending,
            None if outdated.is_empty() => return,
            None => {}
        }
        outdated.push(inserted);
    }

    #[inline]
    pub fn remove(&mut self, element: &T) -> bool {
        self.forget_order();
        self.elements.remove(element)
    }

    #[inline]
    pub fn contains(&self, element: &T) -> bool {
        self.elements.contains(element)
    }

    pub fn clear(&mut self) {
        self.forget_order();
        self.elements.clear();
    }

    fn forget_order(&mut self) {
        self.ascending.take();
        self.outdated.get_mut().clear();
    }

    #[inline]
    pub fn iter(&self) -> std::slice::Iter<'_, T> {
        self.ascending.get_or_init(|| self.sorted()).iter()
    }

    /// The sort takes a run that is ascending already as it stands.
    fn sorted(&self) -> Vec<T> {
        let mut elements = self.outdated.take();
        if elements.is_empty() {
            elements.extend(self.elements.iter().copied());
        }
        elements.sort_by_key(number_of);
        elements
    }
}

impl<'a, T: Copy + Eq + Hash> IntoIterator for &'a FxHashSet<T> {
    type Item = &'a T;
    type IntoIter = std::slice::Iter<'a, T>;
    fn into_iter(self) -> Self::IntoIter {
        self.iter()
    }
}
