//! Maps and sets.

use crate::alloc::{AllocError, AllocFailed, Global, has_room};
use crate::hash::{BuildHasherDefault, FoldHasher, Hash};
pub use std::collections::*;
use std::ops::{Deref, DerefMut};

type Hashing = BuildHasherDefault<FoldHasher>;

/// What a type that wraps one of Rust's own has of it.
macro_rules! wraps {
    ($name:ident<$($p:ident),*>, $inner:ty) => {
        impl<$($p),*> $name<$($p),*> {
            #[inline]
            pub fn new(_: Global) -> Self {
                $name(<$inner>::default())
            }

            #[inline]
            pub fn allocator(&self) -> &Global {
                &Global
            }
        }

        impl<$($p),*> Deref for $name<$($p),*> {
            type Target = $inner;

            #[inline(always)]
            fn deref(&self) -> &$inner {
                &self.0
            }
        }

        impl<$($p),*> DerefMut for $name<$($p),*> {
            #[inline(always)]
            fn deref_mut(&mut self) -> &mut $inner {
                &mut self.0
            }
        }

        impl<$($p),*> IntoIterator for $name<$($p),*> {
            type Item = <$inner as IntoIterator>::Item;
            type IntoIter = <$inner as IntoIterator>::IntoIter;

            fn into_iter(self) -> Self::IntoIter {
                self.0.into_iter()
            }
        }

        impl<'a, $($p),*> IntoIterator for &'a $name<$($p),*> {
            type Item = <&'a $inner as IntoIterator>::Item;
            type IntoIter = <&'a $inner as IntoIterator>::IntoIter;

            fn into_iter(self) -> Self::IntoIter {
                (&self.0).into_iter()
            }
        }
    };
}

#[derive(Clone, PartialEq, Eq, PartialOrd, Ord, Hash, Debug)]
pub struct BTreeMap<K, V>(std::collections::BTreeMap<K, V>);
wraps!(BTreeMap<K, V>, std::collections::BTreeMap<K, V>);

impl<K: Ord, V> BTreeMap<K, V> {
    #[inline]
    pub fn insert(&mut self, key: K, value: V) -> Result<Option<V>, AllocFailed<(K, V)>> {
        if !has_room() {
            return Err(AllocFailed { value: (key, value) });
        }
        Ok(self.0.insert(key, value))
    }

    pub fn entry(&mut self, key: K) -> Result<btree_map::Entry<'_, K, V>, AllocFailed<K>> {
        if !has_room() {
            return Err(AllocFailed { value: key });
        }
        Ok(self.0.entry(key))
    }
}

#[derive(Clone, PartialEq, Eq, PartialOrd, Ord, Hash, Debug)]
pub struct BTreeSet<K>(std::collections::BTreeSet<K>);
wraps!(BTreeSet<K>, std::collections::BTreeSet<K>);

impl<K: Ord> BTreeSet<K> {
    #[inline]
    pub fn insert(&mut self, key: K) -> Result<bool, AllocFailed<K>> {
        if !has_room() {
            return Err(AllocFailed { value: key });
        }
        Ok(self.0.insert(key))
    }
}

pub struct HashMap<K, V>(std::collections::HashMap<K, V, Hashing>);
wraps!(HashMap<K, V>, std::collections::HashMap<K, V, Hashing>);

impl<K: Eq + Hash, V> HashMap<K, V> {
    pub fn with_capacity(alloc: Global, n: usize) -> Result<Self, AllocError> {
        let mut made = HashMap::new(alloc);
        made.reserve(n)?;
        Ok(made)
    }

    pub fn reserve(&mut self, more: usize) -> Result<(), AllocError> {
        Ok(self.0.try_reserve(more)?)
    }

    #[inline]
    pub fn insert(&mut self, key: K, value: V) -> Result<Option<V>, AllocFailed<(K, V)>> {
        if self.0.try_reserve(1).is_err() {
            return Err(AllocFailed { value: (key, value) });
        }
        Ok(self.0.insert(key, value))
    }

    pub fn entry(&mut self, key: K) -> Result<hash_map::Entry<'_, K, V>, AllocFailed<K>> {
        if self.0.try_reserve(1).is_err() {
            return Err(AllocFailed { value: key });
        }
        Ok(self.0.entry(key))
    }
}

pub struct HashSet<K>(std::collections::HashSet<K, Hashing>);
wraps!(HashSet<K>, std::collections::HashSet<K, Hashing>);

impl<K: Eq + Hash> HashSet<K> {
    pub fn with_capacity(alloc: Global, n: usize) -> Result<Self, AllocError> {
        let mut made = HashSet::new(alloc);
        made.0.try_reserve(n)?;
        Ok(made)
    }

    #[inline]
    pub fn insert(&mut self, key: K) -> Result<bool, AllocFailed<K>> {
        if self.0.try_reserve(1).is_err() {
            return Err(AllocFailed { value: key });
        }
        Ok(self.0.insert(key))
    }
}
