//! Stands in for `rustc_hash`. Sets are read in ascending order of what their elements hash to: the id types hash
//! to their number, so an iterated set of terms is read by ascending term number. Maps are never read in an order
//! that an answer depends on.

use std::collections::btree_map::{self, BTreeMap};
use std::collections::HashMap;
use std::hash::{BuildHasherDefault, Hash, Hasher};

pub type FxHashMap<K, V> = HashMap<K, V, BuildHasherDefault<FxHasher>>;

/// A fixed, unkeyed hash, so that two runs read a map alike.
#[derive(Default)]
pub struct FxHasher(u64);

impl Hasher for FxHasher {
    fn write(&mut self, bytes: &[u8]) {
        for &byte in bytes {
            self.write_u64(u64::from(byte));
        }
    }
    fn write_u32(&mut self, n: u32) {
        self.write_u64(u64::from(n));
    }
    fn write_usize(&mut self, n: usize) {
        self.write_u64(n as u64);
    }
    fn write_u64(&mut self, n: u64) {
        self.0 = (self.0.rotate_left(5) ^ n).wrapping_mul(0x517c_c1b7_2722_0a95);
    }
    fn finish(&self) -> u64 {
        self.0
    }
}

/// Captures the number of an id, or the two numbers of a pair of ids.
#[derive(Default)]
struct IdNumber(u64);

impl Hasher for IdNumber {
    fn write(&mut self, _bytes: &[u8]) {
        unreachable!("sets hold ids and pairs of ids only");
    }
    fn write_u32(&mut self, n: u32) {
        self.0 = (self.0 << 32) | u64::from(n);
    }
    fn finish(&self) -> u64 {
        self.0
    }
}

fn number_of<T: Hash>(element: &T) -> u64 {
    let mut number = IdNumber::default();
    element.hash(&mut number);
    number.finish()
}

#[derive(Clone)]
pub struct FxHashSet<T> {
    elements: BTreeMap<u64, T>,
}

impl<T> Default for FxHashSet<T> {
    fn default() -> Self {
        FxHashSet { elements: BTreeMap::new() }
    }
}

impl<T: Hash> FxHashSet<T> {
    pub fn insert(&mut self, element: T) -> bool {
        self.elements.insert(number_of(&element), element).is_none()
    }
    pub fn remove(&mut self, element: &T) -> bool {
        self.elements.remove(&number_of(element)).is_some()
    }
    pub fn contains(&self, element: &T) -> bool {
        self.elements.contains_key(&number_of(element))
    }
    pub fn clear(&mut self) {
        self.elements.clear();
    }
    pub fn iter(&self) -> btree_map::Values<'_, u64, T> {
        self.elements.values()
    }
}

impl<'a, T: Hash> IntoIterator for &'a FxHashSet<T> {
    type Item = &'a T;
    type IntoIter = btree_map::Values<'a, u64, T>;
    fn into_iter(self) -> Self::IntoIter {
        self.iter()
    }
}
