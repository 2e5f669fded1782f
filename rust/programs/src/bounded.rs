//! A map that keeps no more than so many entries, each until a moment.

use std::borrow::Borrow;
use std::collections::HashMap;
use std::hash::Hash;
use std::sync::{Mutex, PoisonError};

use tokio::time::Instant;

/// Entries that are kept until their moment. Where there is no room, those are dropped whose moment is past, and then any.
#[derive(Debug)]
pub struct Bounded<K, V> {
    room: usize,
    entries: Mutex<HashMap<K, (V, Instant)>>,
}

impl<K: Eq + Hash + Clone, V: Clone> Bounded<K, V> {
    pub fn new(room: usize) -> Self {
        Bounded { room, entries: Mutex::new(HashMap::new()) }
    }

    fn with<T>(&self, work: impl FnOnce(&mut HashMap<K, (V, Instant)>) -> T) -> T {
        work(&mut self.entries.lock().unwrap_or_else(PoisonError::into_inner))
    }

    /// What is kept of a key.
    pub fn get<Q: Eq + Hash + ?Sized>(&self, key: &Q) -> Option<V>
    where
        K: Borrow<Q>,
    {
        let now = Instant::now();
        self.with(|it| it.get(key).filter(|it| it.1 > now).map(|it| it.0.clone()))
    }

    pub fn insert(&self, key: K, value: V, end: Instant) {
        if self.room == 0 {
            return;
        }
        self.with(|it| {
            if it.len() >= self.room && !it.contains_key(&key) {
                let now = Instant::now();
                it.retain(|_, entry| entry.1 > now);
                // An eighth of them at once, so that not each new one looks through all.
                let over = if it.len() >= self.room { self.room / 8 + 1 } else { 0 };
                let dropped: Vec<_> = it.keys().take(over).cloned().collect();
                dropped.iter().for_each(|key| drop(it.remove(key)));
            }
            it.insert(key, (value, end));
        });
    }

    pub fn len(&self) -> usize {
        self.with(|it| it.len())
    }
}

#[cfg(test)]
mod tests {
    use std::time::Duration;

    use super::*;

    #[test]
    fn no_more_are_kept_than_there_is_room_for() {
        let map = Bounded::new(64);
        let end = Instant::now() + Duration::from_secs(60);
        for it in 0..10_000 {
            map.insert(it, it, end);
            assert!(map.len() <= 64);
        }
        assert_eq!(map.get(&9_999), Some(9_999));
        map.insert(9_999, 0, Instant::now());
        assert_eq!(map.get(&9_999), None);
    }
}
