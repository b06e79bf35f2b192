//! Stands in for `dashmap`: a plain map in a cell, for one thread.

use std::borrow::Borrow;
use std::cell;
use std::collections::BTreeMap;
use std::marker::PhantomData;
use std::ops::{Deref, DerefMut};

use mapref::entry::{Entry, OccupiedEntry, VacantEntry};

#[derive(Debug)]
pub struct DashMap<K, V, S> {
    map: cell::RefCell<BTreeMap<K, V>>,
    hasher: PhantomData<S>,
}

impl<K, V, S> Default for DashMap<K, V, S> {
    fn default() -> Self {
        DashMap { map: cell::RefCell::new(BTreeMap::new()), hasher: PhantomData }
    }
}

pub struct Ref<'a, V>(cell::Ref<'a, V>);

impl<V> Deref for Ref<'_, V> {
    type Target = V;
    fn deref(&self) -> &V {
        &self.0
    }
}

pub struct RefMut<'a, K, V> {
    key: K,
    value: cell::RefMut<'a, V>,
    map: &'a cell::RefCell<BTreeMap<K, V>>,
}

impl<K, V> Deref for RefMut<'_, K, V> {
    type Target = V;
    fn deref(&self) -> &V {
        &self.value
    }
}

impl<K, V> DerefMut for RefMut<'_, K, V> {
    fn deref_mut(&mut self) -> &mut V {
        &mut self.value
    }
}

impl<'a, K: Ord, V> RefMut<'a, K, V> {
    /// The same entry, shared.
    pub fn downgrade(self) -> Ref<'a, V> {
        let RefMut { key, value, map } = self;
        drop(value);
        Ref(cell::Ref::map(map.borrow(), |map| &map[&key]))
    }
}

impl<K: Ord + Clone, V, S> DashMap<K, V, S> {
    pub fn get<Q: Ord + ?Sized>(&self, key: &Q) -> Option<Ref<'_, V>>
    where
        K: Borrow<Q>,
    {
        cell::Ref::filter_map(self.map.borrow(), |map| map.get(key)).ok().map(Ref)
    }

    pub fn get_mut<Q: Ord + ?Sized>(&self, key: &Q) -> Option<RefMut<'_, K, V>>
    where
        K: Borrow<Q>,
    {
        let map = self.map.borrow_mut();
        let stored = map.get_key_value(key)?.0.clone();
        let value = cell::RefMut::map(map, |map| map.get_mut(key).expect("just seen"));
        Some(RefMut { key: stored, value, map: &self.map })
    }

    pub fn entry(&self, key: K) -> Entry<'_, K, V> {
        let map = self.map.borrow_mut();
        if map.contains_key(&key) {
            Entry::Occupied(OccupiedEntry { key, map, cell: &self.map })
        } else {
            Entry::Vacant(VacantEntry { key, map, cell: &self.map })
        }
    }

    pub fn insert(&self, key: K, value: V) -> Option<V> {
        self.map.borrow_mut().insert(key, value)
    }

    pub fn remove<Q: Ord + ?Sized>(&self, key: &Q) -> Option<(K, V)>
    where
        K: Borrow<Q>,
    {
        self.map.borrow_mut().remove_entry(key)
    }

    pub fn clear(&self) {
        self.map.borrow_mut().clear();
    }

    pub fn retain(&self, mut keeps: impl FnMut(&K, &mut V) -> bool) {
        self.map.borrow_mut().retain(|key, value| keeps(key, value));
    }

    /// For the judge: the whole map in the order of its keys.
    pub fn whole(&self) -> cell::Ref<'_, BTreeMap<K, V>> {
        self.map.borrow()
    }
}

pub mod mapref {
    pub mod entry {
        use crate::RefMut;
        use std::cell;
        use std::collections::BTreeMap;

        type Held<'a, K, V> = cell::RefMut<'a, BTreeMap<K, V>>;

        pub enum Entry<'a, K, V> {
            Occupied(OccupiedEntry<'a, K, V>),
            Vacant(VacantEntry<'a, K, V>),
        }

        pub struct OccupiedEntry<'a, K, V> {
            pub(crate) key: K,
            pub(crate) map: Held<'a, K, V>,
            pub(crate) cell: &'a cell::RefCell<BTreeMap<K, V>>,
        }

        pub struct VacantEntry<'a, K, V> {
            pub(crate) key: K,
            pub(crate) map: Held<'a, K, V>,
            pub(crate) cell: &'a cell::RefCell<BTreeMap<K, V>>,
        }

        impl<'a, K: Ord + Clone, V> Entry<'a, K, V> {
            pub fn or_insert_with(self, value: impl FnOnce() -> V) -> RefMut<'a, K, V> {
                match self {
                    Entry::Occupied(entry) => entry.into_ref(),
                    Entry::Vacant(entry) => entry.insert(value()),
                }
            }
        }

        impl<'a, K: Ord + Clone, V> OccupiedEntry<'a, K, V> {
            pub fn get(&self) -> &V {
                &self.map[&self.key]
            }

            pub fn get_mut(&mut self) -> &mut V {
                self.map.get_mut(&self.key).expect("an occupied entry")
            }

            pub fn remove(mut self) -> V {
                self.map.remove(&self.key).expect("an occupied entry")
            }

            pub fn into_ref(self) -> RefMut<'a, K, V> {
                let OccupiedEntry { key, map, cell } = self;
                let value = cell::RefMut::map(map, |map| map.get_mut(&key).expect("occupied"));
                RefMut { key, value, map: cell }
            }
        }

        impl<'a, K: Ord + Clone, V> VacantEntry<'a, K, V> {
            pub fn insert(self, value: V) -> RefMut<'a, K, V> {
                let VacantEntry { key, map, cell } = self;
                let stored = key.clone();
                let value = cell::RefMut::map(map, |map| map.entry(stored).or_insert(value));
                RefMut { key, value, map: cell }
            }
        }
    }
}
