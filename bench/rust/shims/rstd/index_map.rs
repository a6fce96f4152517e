//! A map in the order of insertion: a list of entries, and a table of their numbers that is probed in a row.
use crate::alloc::{AllocFailed, Global};
use crate::collections::FoldHasher;
use std::borrow::Borrow;
use std::hash::{Hash, Hasher};

struct Entry<K, V> {
    hash: u64,
    key: K,
    value: V,
}

/// The number of an entry, with the upper half of its hash.
#[derive(Clone, Copy)]
struct Slot {
    number: u32,
    upper: u32,
}

const EMPTY: Slot = Slot {
    number: u32::MAX,
    upper: 0,
};
const LEAST_SLOTS: usize = 16;

/// The table has a power of two of slots, of which half are empty at least.
pub struct IndexMap<K, V> {
    entries: Vec<Entry<K, V>>,
    slots: Vec<Slot>,
}

#[inline]
fn hash_of<K: Hash + ?Sized>(key: &K) -> u64 {
    let mut hasher = FoldHasher::default();
    key.hash(&mut hasher);
    hasher.finish()
}

#[inline]
fn upper(hash: u64) -> u32 {
    (hash >> 32) as u32
}

impl<K: Eq + Hash, V> IndexMap<K, V> {
    pub fn new(_alloc: Global) -> IndexMap<K, V> {
        IndexMap {
            entries: Vec::new(),
            slots: Vec::new(),
        }
    }

    #[inline]
    pub fn len(&self) -> usize {
        self.entries.len()
    }

    /// The number of the entry with this key, or else the empty slot that is its place. There are slots.
    #[inline]
    fn find<Q: ?Sized + Hash + Eq>(&self, hash: u64, key: &Q) -> Result<usize, usize>
    where
        K: Borrow<Q>,
    {
        let mask = self.slots.len() - 1;
        let mut at = hash as usize & mask;
        loop {
            let slot = self.slots[at];
            if slot.number == EMPTY.number {
                return Err(at);
            }
            let number = slot.number as usize;
            if slot.upper == upper(hash) && self.entries[number].key.borrow() == key {
                return Ok(number);
            }
            at = (at + 1) & mask;
        }
    }

    /// Doubles the table. Takes time in the number of entries.
    fn grow(&mut self) {
        let mask = (self.slots.len() * 2).max(LEAST_SLOTS) - 1;
        self.slots = vec![EMPTY; mask + 1];
        for (number, entry) in self.entries.iter().enumerate() {
            let mut at = entry.hash as usize & mask;
            while self.slots[at].number != EMPTY.number {
                at = (at + 1) & mask;
            }
            self.slots[at] = Slot {
                number: number as u32,
                upper: upper(entry.hash),
            };
        }
    }

    pub fn insert_full(
        &mut self,
        key: K,
        value: V,
    ) -> Result<(usize, Option<V>), AllocFailed<(K, V)>> {
        if self.slots.len() < 2 * (self.entries.len() + 1) {
            self.grow();
        }
        let hash = hash_of(&key);
        match self.find(hash, &key) {
            Ok(number) => Ok((
                number,
                Some(std::mem::replace(&mut self.entries[number].value, value)),
            )),
            Err(at) => {
                let number = self.entries.len();
                self.slots[at] = Slot {
                    number: number as u32,
                    upper: upper(hash),
                };
                self.entries.push(Entry { hash, key, value });
                Ok((number, None))
            }
        }
    }

    pub fn get_index_of<Q: ?Sized + Hash + Eq>(&self, key: &Q) -> Option<usize>
    where
        K: Borrow<Q>,
    {
        if self.slots.is_empty() {
            return None;
        }
        self.find(hash_of(key), key).ok()
    }

    #[inline]
    pub fn get_index(&self, number: usize) -> Option<(&K, &V)> {
        self.entries
            .get(number)
            .map(|entry| (&entry.key, &entry.value))
    }
}
