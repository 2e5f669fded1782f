//! A queue between threads, of which one waits for a while at most.

use std::collections::VecDeque;
use std::sync::{Condvar, Mutex, PoisonError};
use std::time::Duration;

/// The queue. The one of std does not wait for a while in all releases that this is built with.
pub struct Queue<T> {
    items: Mutex<VecDeque<T>>,
    has_some: Condvar,
}

impl<T> Queue<T> {
    pub fn new() -> Self {
        Queue { items: Mutex::new(VecDeque::new()), has_some: Condvar::new() }
    }

    pub fn push(&self, item: T) {
        self.items.lock().unwrap_or_else(PoisonError::into_inner).push_back(item);
        self.has_some.notify_one();
    }

    /// The first item, if there is one or comes to be one within a while.
    pub fn pop_within(&self, patience: Duration) -> Option<T> {
        let items = self.items.lock().unwrap_or_else(PoisonError::into_inner);
        let waited = self.has_some.wait_timeout_while(items, patience, |it| it.is_empty());
        waited.unwrap_or_else(PoisonError::into_inner).0.pop_front()
    }
}

#[cfg(test)]
mod tests {
    use super::*;
    use std::sync::Arc;

    #[test]
    fn items_come_in_their_order() {
        let queue = Arc::new(Queue::new());
        assert_eq!(queue.pop_within(Duration::ZERO), None);
        let other = queue.clone();
        let pushed = std::thread::spawn(move || (0..3).for_each(|it| other.push(it)));
        let popped: Vec<_> = (0..3).filter_map(|_| queue.pop_within(Duration::from_secs(10))).collect();
        pushed.join().unwrap();
        assert_eq!(popped, [0, 1, 2]);
    }
}
