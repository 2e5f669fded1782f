//! Messages of a stream, and the queue between the threads that read streams and the one that judges.

use std::collections::VecDeque;
use std::sync::{Condvar, Mutex, MutexGuard, PoisonError};
use std::time::{Duration, Instant};

use zermuita::{Name, UnixTime};

use super::judge::Octets;

/// How many events a queue has at most.
const MOST_EVENTS: usize = 65_536;
/// What an event has beside its octets.
const EVENT: usize = 96;

/// Whose message it is.
#[derive(Clone, Copy, Debug, PartialEq, Eq)]
pub enum Origin {
    /// A server's, to the resolver.
    Server,
    /// The resolver's, to its client.
    Client,
}

/// A message of a stream.
#[derive(Clone, Debug)]
pub struct Event {
    pub origin: Origin,
    pub moment: UnixTime,
    /// The zone for which the resolver asked the server, if the stream says it.
    pub zone: Option<Name>,
    pub octets: Octets,
    /// Of an answer to a client: from which moment on it is compared, and how often that was tried.
    pub due: UnixTime,
    pub tries: u32,
}

impl Event {
    pub fn len(&self) -> usize {
        EVENT + self.octets.len()
    }
}

/// Events in their order, bounded by how many there are and by their octets.
struct Ring {
    events: VecDeque<Event>,
    octets: usize,
    most_octets: usize,
}

impl Ring {
    fn new(most_octets: usize) -> Self {
        Ring { events: VecDeque::new(), octets: 0, most_octets }
    }

    fn has_room_for(&self, len: usize) -> bool {
        self.events.len() < MOST_EVENTS && self.octets + len <= self.most_octets
    }

    fn put(&mut self, event: Event) {
        self.octets += event.len();
        self.events.push_back(event);
    }

    fn take(&mut self) -> Option<Event> {
        let event = self.events.pop_front()?;
        self.octets -= event.len();
        Some(event)
    }
}

/// Answers to clients, which wait for messages of servers: a resolver may log these later, by another thread.
pub struct Waiting(Ring);

impl Waiting {
    pub fn new(most_octets: usize) -> Self {
        Waiting(Ring::new(most_octets))
    }

    pub fn put(&mut self, event: Event) {
        self.0.put(event);
    }

    pub fn first(&self) -> Option<&Event> {
        self.0.events.front()
    }

    pub fn take(&mut self) -> Option<Event> {
        self.0.take()
    }

    pub fn len(&self) -> usize {
        self.0.events.len()
    }

    /// Whether there is no room for one more: the first has to go.
    pub fn is_full(&self) -> bool {
        self.0.events.len() >= MOST_EVENTS || self.0.octets > self.0.most_octets
    }
}

struct Queued {
    ring: Ring,
    dropped: u64,
    has_ended: bool,
}

/// The queue. What finds no room is dropped and counted; or whoever hands it over waits, if nothing may be dropped.
pub struct Queue {
    queued: Mutex<Queued>,
    filled: Condvar,
    taken: Condvar,
    waits: bool,
}

/// What a queue gives.
pub enum Taken {
    Event(Event),
    /// Nothing came for a while.
    Nothing,
    /// Nothing will come any more.
    Over,
}

impl Queue {
    pub fn new(most_octets: usize, waits: bool) -> Self {
        let queued = Queued { ring: Ring::new(most_octets), dropped: 0, has_ended: false };
        Queue { queued: Mutex::new(queued), filled: Condvar::new(), taken: Condvar::new(), waits }
    }

    fn lock(&self) -> MutexGuard<'_, Queued> {
        self.queued.lock().unwrap_or_else(PoisonError::into_inner)
    }

    /// Hands over an event, or drops it.
    pub fn put(&self, event: Event) {
        let mut queued = self.lock();
        while self.waits && !queued.has_ended && !queued.ring.has_room_for(event.len()) {
            queued = self.taken.wait(queued).unwrap_or_else(PoisonError::into_inner);
        }
        if queued.has_ended {
            return;
        }
        if queued.ring.has_room_for(event.len()) {
            queued.ring.put(event);
            self.filled.notify_one();
        } else {
            queued.dropped += 1;
        }
    }

    /// The next event; waits for one for a while.
    pub fn take(&self, patience: Duration) -> Taken {
        let end = Instant::now() + patience;
        let mut queued = self.lock();
        while queued.ring.events.is_empty() && !queued.has_ended {
            let left = end.saturating_duration_since(Instant::now());
            if left.is_zero() {
                return Taken::Nothing;
            }
            queued = self.filled.wait_timeout(queued, left).unwrap_or_else(PoisonError::into_inner).0;
        }
        match queued.ring.take() {
            Some(event) => {
                self.taken.notify_one();
                Taken::Event(event)
            }
            None => Taken::Over,
        }
    }

    /// Says that no event will come any more. What comes nevertheless is not taken.
    pub fn end(&self) {
        self.lock().has_ended = true;
        self.filled.notify_all();
        self.taken.notify_all();
    }

    pub fn dropped(&self) -> u64 {
        self.lock().dropped
    }
}

#[cfg(test)]
mod tests {
    use std::sync::Arc;

    use super::*;

    fn event(len: usize) -> Event {
        Event { origin: Origin::Client, moment: 0, zone: None, octets: Arc::from(vec![0; len]), due: 0, tries: 0 }
    }

    #[test]
    fn what_has_no_room_is_dropped_and_counted() {
        let queue = Queue::new(2 * EVENT + 10, false);
        for len in [4, 4, 4] {
            queue.put(event(len));
        }
        assert_eq!(queue.dropped(), 1);
        queue.end();
        queue.put(event(1));
        let patience = Duration::from_millis(1);
        assert!(matches!(queue.take(patience), Taken::Event(_)) && matches!(queue.take(patience), Taken::Event(_)));
        assert!(matches!(queue.take(patience), Taken::Over));
    }

    #[test]
    fn a_queue_that_drops_nothing_makes_its_writer_wait() {
        let queue = Arc::new(Queue::new(EVENT + 10, true));
        let writer = queue.clone();
        let thread = std::thread::spawn(move || (0..50).for_each(|_| writer.put(event(5))));
        let taken = (0..50).filter(|_| matches!(queue.take(Duration::from_secs(5)), Taken::Event(_))).count();
        thread.join().unwrap();
        assert_eq!((taken, queue.dropped()), (50, 0));
    }
}
