// Stand-ins for the maps and the cell that threads would share. One thread runs here, so plain maps in cells serve.

use std::cell::{Cell, Ref, RefCell, RefMut};
use std::collections::{BTreeMap, HashMap, HashSet};
use std::fmt;
use std::hash::Hash;
use std::ops::{Bound, Deref};

/// crossbeam::atomic::AtomicCell. Its text is the value alone, which the driver reads.
#[derive(Default)]
pub struct AtomicCell<T>(Cell<T>);

impl<T: Copy> AtomicCell<T> {
    pub fn load(&self) -> T {
        self.0.get()
    }

    pub fn store(&self, value: T) {
        self.0.set(value);
    }
}

impl<T: Copy + fmt::Debug> fmt::Debug for AtomicCell<T> {
    fn fmt(&self, f: &mut fmt::Formatter<'_>) -> fmt::Result {
        self.load().fmt(f)
    }
}

/// A key and its value, as the maps hand them out.
#[derive(Clone)]
pub struct Pair<K, V>(K, V);

impl<K, V> Pair<K, V> {
    pub fn key(&self) -> &K {
        &self.0
    }

    pub fn value(&self) -> &V {
        &self.1
    }
}

/// crossbeam_skiplist::SkipMap: in key order, a second insertion of a key replaces the first. The iteration goes from key to key, as far as
/// it is asked, and may meet what changes on the way. Its text is the keys, which the driver reads.
pub struct SkipMap<K, V>(RefCell<BTreeMap<K, V>>);

impl<K, V> Default for SkipMap<K, V> {
    fn default() -> Self {
        Self(RefCell::new(BTreeMap::new()))
    }
}

impl<K: fmt::Debug, V> fmt::Debug for SkipMap<K, V> {
    fn fmt(&self, f: &mut fmt::Formatter<'_>) -> fmt::Result {
        f.debug_list().entries(self.0.borrow().keys()).finish()
    }
}

impl<K: Ord + Clone, V: Clone> SkipMap<K, V> {
    pub fn insert(&self, key: K, value: V) {
        self.0.borrow_mut().insert(key, value);
    }

    pub fn remove(&self, key: &K) -> Option<Pair<K, V>> {
        self.0.borrow_mut().remove_entry(key).map(|(key, value)| Pair(key, value))
    }

    pub fn pop_front(&self) -> Option<Pair<K, V>> {
        self.0.borrow_mut().pop_first().map(|(key, value)| Pair(key, value))
    }

    pub fn iter(&self) -> InOrder<'_, K, V> {
        InOrder { map: &self.0, front: Bound::Unbounded, back: Bound::Unbounded }
    }
}

/// What is left of an iteration: the keys between the last ones that each end handed out.
pub struct InOrder<'a, K, V> {
    map: &'a RefCell<BTreeMap<K, V>>,
    front: Bound<K>,
    back: Bound<K>,
}

impl<K: Ord + Clone, V: Clone> Iterator for InOrder<'_, K, V> {
    type Item = Pair<K, V>;

    fn next(&mut self) -> Option<Pair<K, V>> {
        let found = self.map.borrow().range((self.front.clone(), self.back.clone())).next().map(|(key, value)| Pair(key.clone(), value.clone()))?;
        self.front = Bound::Excluded(found.0.clone());
        Some(found)
    }
}

impl<K: Ord + Clone, V: Clone> DoubleEndedIterator for InOrder<'_, K, V> {
    fn next_back(&mut self) -> Option<Pair<K, V>> {
        let found = self.map.borrow().range((self.front.clone(), self.back.clone())).next_back().map(|(key, value)| Pair(key.clone(), value.clone()))?;
        self.back = Bound::Excluded(found.0.clone());
        Some(found)
    }
}

/// dashmap::DashMap. The hash map's own order changes from run to run, as DashMap's does, so an answer that leaned on it would show.
pub struct DashMap<K, V>(RefCell<HashMap<K, V>>);

/// What DashMap::get hands out.
pub struct One<'a, V>(Ref<'a, V>);

impl<V> One<'_, V> {
    pub fn value(&self) -> &V {
        &self.0
    }
}

pub enum Entry<'a, K, V> {
    Occupied(K),
    Vacant(Slot<'a, K, V>),
}

pub struct Slot<'a, K, V> {
    map: RefMut<'a, HashMap<K, V>>,
    key: K,
}

impl<K: Eq + Hash, V> Slot<'_, K, V> {
    pub fn insert(mut self, value: V) {
        self.map.insert(self.key, value);
    }
}

impl<K, V> fmt::Debug for DashMap<K, V> {
    fn fmt(&self, f: &mut fmt::Formatter<'_>) -> fmt::Result {
        f.write_str("DashMap")
    }
}

impl<K: Eq + Hash + Clone, V: Clone> DashMap<K, V> {
    pub fn with_shard_amount(_: usize) -> Self {
        Self(RefCell::new(HashMap::new()))
    }

    pub fn contains_key(&self, key: &K) -> bool {
        self.0.borrow().contains_key(key)
    }

    pub fn get(&self, key: &K) -> Option<One<'_, V>> {
        Ref::filter_map(self.0.borrow(), |map| map.get(key)).ok().map(One)
    }

    pub fn get_mut(&self, key: &K) -> Option<RefMut<'_, V>> {
        RefMut::filter_map(self.0.borrow_mut(), |map| map.get_mut(key)).ok()
    }

    pub fn entry(&self, key: K) -> Entry<'_, K, V> {
        let map = self.0.borrow_mut();
        if map.contains_key(&key) { Entry::Occupied(key) } else { Entry::Vacant(Slot { map, key }) }
    }

    pub fn remove(&self, key: &K) -> Option<(K, V)> {
        self.0.borrow_mut().remove_entry(key)
    }

    pub fn iter(&self) -> std::vec::IntoIter<Pair<K, V>> {
        let all: Vec<Pair<K, V>> = self.0.borrow().iter().map(|(key, value)| Pair(key.clone(), value.clone())).collect();
        all.into_iter()
    }

    pub fn clear(&self) {
        self.0.borrow_mut().clear();
    }
}

/// dashmap::DashSet, for the pegged orders of repricing.rs, which the driver does not call.
#[derive(Debug)]
pub struct DashSet<K>(RefCell<HashSet<K>>);

pub struct Member<K>(K);

impl<K> Deref for Member<K> {
    type Target = K;

    fn deref(&self) -> &K {
        &self.0
    }
}

impl<K> Default for DashSet<K> {
    fn default() -> Self {
        Self(RefCell::new(HashSet::new()))
    }
}

impl<K: Eq + Hash + Clone> DashSet<K> {
    pub fn new() -> Self {
        Self::default()
    }

    pub fn insert(&self, key: K) -> bool {
        self.0.borrow_mut().insert(key)
    }

    pub fn remove(&self, key: &K) -> Option<K> {
        self.0.borrow_mut().take(key)
    }

    pub fn remove_if(&self, key: &K, test: impl FnOnce(&K) -> bool) -> Option<K> {
        let mut set = self.0.borrow_mut();
        if set.contains(key) && test(key) { set.take(key) } else { None }
    }

    pub fn len(&self) -> usize {
        self.0.borrow().len()
    }

    pub fn iter(&self) -> std::vec::IntoIter<Member<K>> {
        let all: Vec<Member<K>> = self.0.borrow().iter().cloned().map(Member).collect();
        all.into_iter()
    }

    pub fn clear(&self) {
        self.0.borrow_mut().clear();
    }
}
