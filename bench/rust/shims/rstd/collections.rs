//! Hash maps and heaps. No source goes through a `HashMap`, so the order of its entries does not show.
use crate::alloc::{AllocFailed, Global};
use std::borrow::Borrow;
use std::collections;
use std::hash::{BuildHasherDefault, Hash, Hasher};

pub use crate::index_map::IndexMap;

/// A fast hasher without a secret, as the kit's: a multiplication for each word, whose halves are folded.
#[derive(Clone, Copy)]
pub struct FoldHasher(u64);

#[inline(always)]
fn folded(a: u64, b: u64) -> u64 {
    let product = (a as u128) * (b as u128);
    (product as u64) ^ ((product >> 64) as u64)
}

impl FoldHasher {
    #[inline(always)]
    fn word(&mut self, word: u64) {
        self.0 = folded(self.0 ^ word, 0x9e37_79b9_7f4a_7c15).wrapping_add(0x1319_8a2e_0370_7344);
    }
}

impl Default for FoldHasher {
    #[inline]
    fn default() -> Self {
        FoldHasher(0x243f_6a88_85a3_08d3)
    }
}

impl Hasher for FoldHasher {
    #[inline]
    fn write(&mut self, bytes: &[u8]) {
        for part in bytes.chunks(8) {
            let mut word = [0; 8];
            word[..part.len()].copy_from_slice(part);
            self.word(u64::from_le_bytes(word));
        }
    }

    #[inline]
    fn write_u8(&mut self, number: u8) {
        self.word(number as u64)
    }

    #[inline]
    fn write_u32(&mut self, number: u32) {
        self.word(number as u64)
    }

    #[inline]
    fn write_u64(&mut self, number: u64) {
        self.word(number)
    }

    #[inline]
    fn write_usize(&mut self, number: usize) {
        self.word(number as u64)
    }

    #[inline]
    fn finish(&self) -> u64 {
        folded(self.0, 0xa409_3822_299f_31d1)
    }
}

pub struct HashMap<K, V>(collections::HashMap<K, V, BuildHasherDefault<FoldHasher>>);

impl<K: Eq + Hash, V> HashMap<K, V> {
    pub fn new(_alloc: Global) -> HashMap<K, V> {
        HashMap(collections::HashMap::default())
    }

    #[inline]
    pub fn len(&self) -> usize {
        self.0.len()
    }

    #[inline]
    pub fn get<Q: ?Sized + Hash + Eq>(&self, key: &Q) -> Option<&V>
    where
        K: Borrow<Q>,
    {
        self.0.get(key)
    }

    #[inline]
    pub fn insert(&mut self, key: K, value: V) -> Result<Option<V>, AllocFailed<(K, V)>> {
        Ok(self.0.insert(key, value))
    }

    #[inline]
    pub fn clear(&mut self) {
        self.0.clear()
    }
}

pub struct BinaryHeap<T>(collections::BinaryHeap<T>);

impl<T: Ord> BinaryHeap<T> {
    pub fn new(_alloc: Global) -> BinaryHeap<T> {
        BinaryHeap(collections::BinaryHeap::new())
    }

    #[inline]
    pub fn len(&self) -> usize {
        self.0.len()
    }

    #[inline]
    pub fn push(&mut self, item: T) -> Result<(), AllocFailed<T>> {
        self.0.push(item);
        Ok(())
    }

    #[inline]
    pub fn pop(&mut self) -> Option<T> {
        self.0.pop()
    }

    #[inline]
    pub fn clear(&mut self) {
        self.0.clear()
    }
}
