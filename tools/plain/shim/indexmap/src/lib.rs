//! `indexmap` under its names: entries in the order in which they came, and a table of their places.

use rstd::alloc::{AllocError, AllocFailed, Global};
use rstd::hash::FoldHasher;
use rstd::vec::Vec;
use std::borrow::Borrow;
use std::hash::{Hash, Hasher};

/// No place: this slot of the table is free.
const FREE: u32 = u32::MAX;

/// `table` has a power of two of slots, a part of them free; the hash of a key tells where to begin to look for its place.
pub struct IndexMap<K, V> {
    keys: Vec<K>,
    values: Vec<V>,
    hashes: Vec<u32>,
    table: Vec<u32>,
}

pub struct Keys<'a, K>(&'a [K]);

impl<'a, K> Keys<'a, K> {
    #[inline]
    pub fn as_slice(&self) -> &'a [K] {
        self.0
    }
}

impl<'a, K> IntoIterator for Keys<'a, K> {
    type Item = &'a K;
    type IntoIter = std::slice::Iter<'a, K>;

    fn into_iter(self) -> Self::IntoIter {
        self.0.iter()
    }
}

fn hash_of<Q: Hash + ?Sized>(key: &Q) -> u32 {
    let mut hasher = FoldHasher::default();
    key.hash(&mut hasher);
    hasher.finish() as u32
}

/// How large a table so many entries want: an eighth of it stays free.
fn table_size(entries: usize) -> usize {
    (entries * 8 / 7 + 1).next_power_of_two().max(4)
}

impl<K, V> IndexMap<K, V> {
    pub fn new(alloc: Global) -> Self {
        IndexMap { keys: Vec::new(alloc), values: Vec::new(alloc), hashes: Vec::new(alloc), table: Vec::new(alloc) }
    }

    pub fn with_capacity(alloc: Global, n: usize) -> Result<Self, AllocError> {
        Ok(IndexMap {
            keys: Vec::with_capacity(alloc, n)?,
            values: Vec::with_capacity(alloc, n)?,
            hashes: Vec::with_capacity(alloc, n)?,
            table: Vec::from_elem(alloc, FREE, table_size(n))?,
        })
    }

    #[inline]
    pub fn len(&self) -> usize {
        self.keys.len()
    }

    pub fn is_empty(&self) -> bool {
        self.keys.is_empty()
    }

    #[inline]
    pub fn keys(&self) -> Keys<'_, K> {
        Keys(&self.keys)
    }

    pub fn values(&self) -> std::slice::Iter<'_, V> {
        self.values.iter()
    }

    pub fn get_index(&self, place: usize) -> Option<(&K, &V)> {
        Some((self.keys.get(place)?, self.values.get(place)?))
    }

    pub fn get_index_of<Q: Hash + Eq + ?Sized>(&self, key: &Q) -> Option<usize>
    where
        K: Borrow<Q>,
    {
        if self.table.is_empty() { None } else { self.seek(hash_of(key), key).ok() }
    }

    pub fn get<Q: Hash + Eq + ?Sized>(&self, key: &Q) -> Option<&V>
    where
        K: Borrow<Q>,
    {
        Some(&self.values[self.get_index_of(key)?])
    }

    pub fn contains_key<Q: Hash + Eq + ?Sized>(&self, key: &Q) -> bool
    where
        K: Borrow<Q>,
    {
        self.get_index_of(key).is_some()
    }

    pub fn insert(&mut self, key: K, value: V) -> Result<Option<V>, AllocFailed<(K, V)>>
    where
        K: Hash + Eq,
    {
        Ok(self.insert_full(key, value)?.1)
    }

    pub fn insert_full(&mut self, key: K, value: V) -> Result<(usize, Option<V>), AllocFailed<(K, V)>>
    where
        K: Hash + Eq,
    {
        if self.make_room().is_err() {
            return Err(AllocFailed { value: (key, value) });
        }
        let hash = hash_of(&key);
        match self.seek(hash, &key) {
            Ok(place) => Ok((place, Some(std::mem::replace(&mut self.values[place], value)))),
            Err(slot) => {
                let place = self.keys.len();
                self.table[slot] = place as u32;
                self.keys.push_reserved(key);
                self.values.push_reserved(value);
                self.hashes.push_reserved(hash);
                Ok((place, None))
            }
        }
    }

    /// The key's place, or else the slot of the table where it would be noted.
    fn seek<Q: Hash + Eq + ?Sized>(&self, hash: u32, key: &Q) -> Result<usize, usize>
    where
        K: Borrow<Q>,
    {
        let mask = self.table.len() - 1;
        let mut slot = hash as usize & mask;
        loop {
            let place = self.table[slot];
            if place == FREE {
                return Err(slot);
            }
            if self.hashes[place as usize] == hash && self.keys[place as usize].borrow() == key {
                return Ok(place as usize);
            }
            slot = (slot + 1) & mask;
        }
    }

    /// Room for one entry more.
    fn make_room(&mut self) -> Result<(), AllocError> {
        self.keys.reserve(1)?;
        self.values.reserve(1)?;
        self.hashes.reserve(1)?;
        let size = table_size(self.keys.len() + 1);
        if size > self.table.len() {
            let mut table = Vec::from_elem(Global, FREE, size)?;
            for (place, hash) in self.hashes.iter().enumerate() {
                let mut slot = *hash as usize & (size - 1);
                while table[slot] != FREE {
                    slot = (slot + 1) & (size - 1);
                }
                table[slot] = place as u32;
            }
            self.table = table;
        }
        Ok(())
    }
}

impl<K, V> std::ops::Index<usize> for IndexMap<K, V> {
    type Output = V;

    #[inline]
    fn index(&self, place: usize) -> &V {
        &self.values[place]
    }
}
