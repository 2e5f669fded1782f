//! A table of bounded size, from which is dropped what was used least recently. Values hold until a moment.

use std::collections::hash_map::RandomState;

use lru::LruCache;
use zermuita::{Name, Rtype};

/// What an entry has beside its octets.
const ENTRY: usize = 96;

struct Entry<V> {
    value: V,
    len: usize,
    until: u64,
}

/// Values by name and type. Its hashes have a seed that nobody knows who names names.
pub struct Table<V> {
    entries: LruCache<(Name, Rtype), Entry<V>, RandomState>,
    most_entries: usize,
    most_octets: usize,
    octets: usize,
    evicted: u64,
}

impl<V: Clone> Table<V> {
    pub fn new(most_entries: usize, most_octets: usize) -> Self {
        let entries = LruCache::unbounded_with_hasher(RandomState::new());
        Table { entries, most_entries, most_octets, octets: 0, evicted: 0 }
    }

    fn dropped(&mut self, entry: Option<Entry<V>>) -> bool {
        self.octets -= entry.as_ref().map_or(0, |it| it.len);
        entry.is_some()
    }

    /// Keeps a value of so many octets in the place of what is there; nothing if it does not fit.
    pub fn put(&mut self, name: &Name, rtype: Rtype, value: V, len: usize, until: u64) {
        self.remove(name, rtype);
        let len = ENTRY + name.as_wire().len() + len;
        if len > self.most_octets {
            self.evicted += 1;
            return;
        }
        while self.entries.len() >= self.most_entries || self.octets + len > self.most_octets {
            let oldest = self.entries.pop_lru().map(|it| it.1);
            if !self.dropped(oldest) {
                break;
            }
            self.evicted += 1;
        }
        self.octets += len;
        self.entries.put((name.clone(), rtype), Entry { value, len, until });
    }

    /// What is kept, and the last second in which it holds.
    pub fn get_until(&mut self, name: &Name, rtype: Rtype, now: u64) -> Option<(V, u64)> {
        let key = (name.clone(), rtype);
        let found = self.entries.get(&key).map(|it| (it.value.clone(), it.until))?;
        if found.1 < now {
            let old = self.entries.pop(&key);
            self.dropped(old);
            return None;
        }
        Some(found)
    }

    /// What is kept.
    pub fn get(&mut self, name: &Name, rtype: Rtype, now: u64) -> Option<V> {
        self.get_until(name, rtype, now).map(|it| it.0)
    }

    pub fn remove(&mut self, name: &Name, rtype: Rtype) {
        let old = self.entries.pop(&(name.clone(), rtype));
        self.dropped(old);
    }

    /// How many were dropped for want of room, or not kept.
    pub fn evicted(&self) -> u64 {
        self.evicted
    }
}

#[cfg(test)]
mod tests {
    use super::*;

    #[test]
    fn what_was_used_least_recently_is_dropped() {
        let name = |it: usize| format!("n{it}.test").parse::<Name>().unwrap();
        let mut table = Table::new(3, 4096);
        (0..3).for_each(|it| table.put(&name(it), Rtype::A, it, 10, 100));
        assert_eq!(table.get(&name(0), Rtype::A, 100), Some(0));
        table.put(&name(3), Rtype::A, 3, 10, 100);
        assert_eq!((table.get(&name(1), Rtype::A, 0), table.get(&name(0), Rtype::A, 0), table.evicted()), (None, Some(0), 1));
        assert_eq!(table.get(&name(0), Rtype::A, 101), None);
        table.put(&name(4), Rtype::A, 4, 5000, 100);
        assert_eq!((table.get(&name(4), Rtype::A, 0), table.evicted()), (None, 2));
        table.put(&name(5), Rtype::A, 5, 3900, 100);
        assert_eq!((table.entries.len(), table.evicted()), (1, 4));
        assert!(table.octets <= 4096);
    }
}
