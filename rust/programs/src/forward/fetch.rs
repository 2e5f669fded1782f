//! Messages of upstream resolvers or of the zones' own servers, kept until they are too old.

use std::net::SocketAddr;
use std::sync::Arc;
use std::time::Duration;

use tokio::time::Instant;
use zermuita::message::{flags, Message};
use zermuita::{Name, Question, Rtype};

use super::config::Ready;
use super::metrics::{Count, Metrics};
use crate::bounded::Bounded;
use crate::net::{ask, Asked, Patience, Tracked};

/// A message, when it came, and from where.
#[derive(Debug)]
pub struct Fetched {
    pub octets: Vec<u8>,
    pub arrived: Instant,
    pub server: SocketAddr,
}

impl Fetched {
    /// For how many seconds it is here.
    pub fn age(&self) -> u32 {
        u32::try_from(self.arrived.elapsed().as_secs()).unwrap_or(u32::MAX)
    }
}

/// A zone, if its own servers are asked, and a question.
type Key = (Option<Name>, Question);

/// Asks, and keeps what comes.
pub struct Fetcher {
    patience: Patience,
    flags: u16,
    max_ttl: u32,
    kept: Bounded<Key, Arc<Fetched>>,
    metrics: Arc<Metrics>,
}

/// Seconds that a message without records is kept.
const WITHOUT_RECORDS: u32 = 5;

/// The least TTL of a message's records.
fn ttl_of(octets: &[u8]) -> u32 {
    let message = Message::read(octets).ok();
    let records = message.iter().flat_map(|it| it.records()).filter(|it| it.rtype != Rtype::OPT);
    records.map(|it| it.ttl).min().unwrap_or(WITHOUT_RECORDS)
}

/// Whether a message says something: failures of a server do not.
fn is_answer(octets: &[u8]) -> bool {
    Message::read(octets).map_or(false, |it| it.rcode().is_answer())
}

impl Fetcher {
    pub fn new(ready: &Ready, metrics: Arc<Metrics>) -> Self {
        let datagram = Duration::from_millis(ready.config.timeout_ms);
        Fetcher {
            patience: Patience { datagram, whole: datagram * 3, datagrams: 2 },
            // A resolver is asked for all that it has, unchecked.
            flags: if ready.upstream.is_empty() { 0 } else { flags::RD | flags::CD },
            max_ttl: ready.config.cache.max_ttl,
            kept: Bounded::new(ready.config.cache.messages),
            metrics,
        }
    }

    /// What is kept.
    pub fn kept(&self, zone: Option<&Name>, question: &Question) -> Option<Arc<Fetched>> {
        let found = self.kept.get(&(zone.cloned(), question.clone()))?;
        self.metrics.add(Count::MessageKept, 1);
        Some(found)
    }

    /// Asks servers, one after another, until one answers. A response code that is a failure is taken where all fail.
    pub async fn fetch(&self, zone: Option<&Name>, question: &Question, servers: &[SocketAddr]) -> Option<Arc<Fetched>> {
        let asked = Asked { question, flags: self.flags };
        for server in servers {
            let tracked = Tracked::default();
            let answer = ask(&asked, &[*server], &self.patience, &tracked).await;
            self.metrics.add(Count::Asked, tracked.get().sent.into());
            match answer.filter(|it| is_answer(it)) {
                Some(octets) => return Some(self.keep(zone, question, octets, *server)),
                None => self.metrics.add(Count::Unanswered, 1),
            }
        }
        None
    }

    fn keep(&self, zone: Option<&Name>, question: &Question, octets: Vec<u8>, server: SocketAddr) -> Arc<Fetched> {
        let arrived = Instant::now();
        let ttl = ttl_of(&octets).min(self.max_ttl);
        let fetched = Arc::new(Fetched { octets, arrived, server });
        let end = arrived + Duration::from_secs(ttl.into());
        self.kept.insert((zone.cloned(), question.clone()), fetched.clone(), end);
        fetched
    }

    /// Drops a message that was refused.
    pub fn forget(&self, zone: Option<&Name>, question: &Question) {
        if let Some(fetched) = self.kept.get(&(zone.cloned(), question.clone())) {
            self.kept.insert((zone.cloned(), question.clone()), fetched, Instant::now());
        }
    }
}
