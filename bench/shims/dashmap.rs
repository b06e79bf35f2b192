//! Stands in for `dashmap`: the standard hash map behind one lock, of which a look-up takes what one of `dashmap`'s takes of its
//! shard: a hash, a lock, a probe. For one thread: handing a lock down lets go of it first.

use std::borrow::Borrow;
use std::collections::HashMap;
use std::collections::hash_map;
use std::hash::{BuildHasher, Hash};
use std::ops::{Deref, DerefMut};
use std::sync::{RwLock, RwLockReadGuard, RwLockWriteGuard};

use mapref::entry::{Entry, OccupiedEntry, VacantEntry};

#[derive(Debug)]
pub struct DashMap<K, V, S> {
    map: RwLock<HashMap<K, V, S>>,
}

impl<K, V, S: Default> Default for DashMap<K, V, S> {
    fn default() -> Self {
        DashMap { map: RwLock::default() }
    }
}

type Reading<'a, K, V, S> = RwLockReadGuard<'a, HashMap<K, V, S>>;
type Writing<'a, K, V, S> = RwLockWriteGuard<'a, HashMap<K, V, S>>;

/// A value with the shared lock held.
pub struct Ref<'a, K, V, S> {
    value: *const V,
    _lock: Reading<'a, K, V, S>,
}

impl<K, V, S> Deref for Ref<'_, K, V, S> {
    type Target = V;
    fn deref(&self) -> &V {
        // The lock is held as long as this is, so the value stays where it is.
        unsafe { &*self.value }
    }
}

/// A value with the exclusive lock held.
pub struct RefMut<'a, K, V, S> {
    value: *mut V,
    map: &'a RwLock<HashMap<K, V, S>>,
    lock: Writing<'a, K, V, S>,
}

impl<K, V, S> Deref for RefMut<'_, K, V, S> {
    type Target = V;
    fn deref(&self) -> &V {
        unsafe { &*self.value }
    }
}

impl<K, V, S> DerefMut for RefMut<'_, K, V, S> {
    fn deref_mut(&mut self) -> &mut V {
        unsafe { &mut *self.value }
    }
}

impl<'a, K, V, S> RefMut<'a, K, V, S> {
    /// The same value, shared.
    pub fn downgrade(self) -> Ref<'a, K, V, S> {
        let RefMut { value, map, lock } = self;
        drop(lock);
        Ref { value, _lock: map.read().expect("a lock") }
    }
}

impl<K: Hash + Eq, V, S: BuildHasher> DashMap<K, V, S> {
    fn reading(&self) -> Reading<'_, K, V, S> {
        self.map.read().expect("a lock")
    }

    fn writing(&self) -> Writing<'_, K, V, S> {
        self.map.write().expect("a lock")
    }

    pub fn get<Q: Hash + Eq + ?Sized>(&self, key: &Q) -> Option<Ref<'_, K, V, S>>
    where
        K: Borrow<Q>,
    {
        let lock = self.reading();
        let value: *const V = lock.get(key)?;
        Some(Ref { value, _lock: lock })
    }

    pub fn get_mut<Q: Hash + Eq + ?Sized>(&self, key: &Q) -> Option<RefMut<'_, K, V, S>>
    where
        K: Borrow<Q>,
    {
        let mut lock = self.writing();
        let value: *mut V = lock.get_mut(key)?;
        Some(RefMut { value, map: &self.map, lock })
    }

    pub fn entry(&self, key: K) -> Entry<'_, K, V, S> {
        let mut lock = self.writing();
        // The entry borrows the map that the lock holds, and is dropped with it.
        let map: *mut HashMap<K, V, S> = &mut *lock;
        match unsafe { &mut *map }.entry(key) {
            hash_map::Entry::Occupied(entry) => {
                Entry::Occupied(OccupiedEntry { entry, map: &self.map, lock })
            }
            hash_map::Entry::Vacant(entry) => {
                Entry::Vacant(VacantEntry { entry, map: &self.map, lock })
            }
        }
    }

    pub fn insert(&self, key: K, value: V) -> Option<V> {
        self.writing().insert(key, value)
    }

    pub fn remove<Q: Hash + Eq + ?Sized>(&self, key: &Q) -> Option<(K, V)>
    where
        K: Borrow<Q>,
    {
        self.writing().remove_entry(key)
    }

    pub fn clear(&self) {
        self.writing().clear();
    }

    pub fn retain(&self, keeps: impl FnMut(&K, &mut V) -> bool) {
        self.writing().retain(keeps);
    }
}

pub mod mapref {
    pub mod entry {
        use crate::{RefMut, Writing};
        use std::collections::{HashMap, hash_map};
        use std::sync::RwLock;

        pub enum Entry<'a, K, V, S> {
            Occupied(OccupiedEntry<'a, K, V, S>),
            Vacant(VacantEntry<'a, K, V, S>),
        }

        pub struct OccupiedEntry<'a, K, V, S> {
            pub(crate) entry: hash_map::OccupiedEntry<'a, K, V>,
            pub(crate) map: &'a RwLock<HashMap<K, V, S>>,
            pub(crate) lock: Writing<'a, K, V, S>,
        }

        pub struct VacantEntry<'a, K, V, S> {
            pub(crate) entry: hash_map::VacantEntry<'a, K, V>,
            pub(crate) map: &'a RwLock<HashMap<K, V, S>>,
            pub(crate) lock: Writing<'a, K, V, S>,
        }

        impl<'a, K, V, S> Entry<'a, K, V, S> {
            pub fn or_insert_with(self, value: impl FnOnce() -> V) -> RefMut<'a, K, V, S> {
                match self {
                    Entry::Occupied(entry) => entry.into_ref(),
                    Entry::Vacant(entry) => entry.insert(value()),
                }
            }
        }

        impl<'a, K, V, S> OccupiedEntry<'a, K, V, S> {
            pub fn get(&self) -> &V {
                self.entry.get()
            }

            pub fn get_mut(&mut self) -> &mut V {
                self.entry.get_mut()
            }

            pub fn remove(self) -> V {
                self.entry.remove()
            }

            pub fn into_ref(self) -> RefMut<'a, K, V, S> {
                let OccupiedEntry { entry, map, lock } = self;
                RefMut { value: entry.into_mut(), map, lock }
            }
        }

        impl<'a, K, V, S> VacantEntry<'a, K, V, S> {
            pub fn insert(self, value: V) -> RefMut<'a, K, V, S> {
                let VacantEntry { entry, map, lock } = self;
                RefMut { value: entry.insert(value), map, lock }
            }
        }
    }
}
