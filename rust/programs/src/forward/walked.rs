//! A walk over messages that are fetched as it wants them.

use std::collections::HashMap;
use std::net::SocketAddr;
use std::sync::Arc;

use zermuita::{End, Limits, Progress, Question, Walk, WalkError, Wanted};

use super::fetch::Fetched;
use super::metrics::Count;
use super::resolver::{Budget, Resolver};

/// From how many servers one message is taken at most.
const MOST_SERVERS: usize = 3;

/// The servers whose answer was refused, and how often one was.
#[derive(Default)]
struct Tried {
    servers: Vec<SocketAddr>,
    times: usize,
}

/// A walk that has ended.
pub struct Walked {
    pub walk: Walk,
    pub end: End,
    /// Where each message is from.
    pub sources: HashMap<Wanted, Arc<Fetched>>,
}

/// Why a walk did not end.
#[derive(Debug, thiserror::Error)]
pub enum NotWalked {
    #[error("no server answered {0}")]
    NoAnswer(Wanted),
    #[error("too many messages are wanted")]
    TooMany,
    #[error(transparent)]
    Walk(#[from] WalkError),
}

impl Walked {
    /// For how many seconds the oldest of its messages is here.
    pub fn age(&self) -> u32 {
        self.sources.values().map(|it| it.age()).max().unwrap_or(0)
    }
}

impl Resolver {
    /// Walks down to a question.
    pub async fn walk(&self, question: &Question, budget: &mut Budget) -> Result<Walked, NotWalked> {
        let mut limits = Limits::default();
        limits.nsec3_iterations = self.ready.config.nsec3_iterations;
        let mut walk = Walk::new(self.ready.anchor.clone(), question.clone(), crate::out::now()).with_limits(limits);
        let mut sources: HashMap<Wanted, Arc<Fetched>> = HashMap::new();
        let mut tried: HashMap<Wanted, Tried> = HashMap::new();
        loop {
            let progress = walk.advance(&self.verified)?;
            self.metrics.add(Count::Calls, 1);
            match progress {
                Progress::Wants(messages) => {
                    for wanted in messages {
                        let fetched = self.message(&wanted, &sources, &[], budget).await?;
                        walk.put(&wanted, &fetched.octets);
                        sources.insert(wanted, fetched);
                    }
                }
                Progress::Ended(end) => match self.elsewhere(&end, &sources, &mut tried, budget).await {
                    Some((wanted, fetched)) => {
                        walk.replace(&wanted, &fetched.octets);
                        sources.insert(wanted, fetched);
                    }
                    None => return Ok(Walked { walk, end, sources }),
                },
            }
        }
    }

    /// Asks another server for what is refused; first the same one, if what is refused was kept. None where there is no other.
    async fn elsewhere(
        &self,
        end: &End,
        sources: &HashMap<Wanted, Arc<Fetched>>,
        tried: &mut HashMap<Wanted, Tried>,
        budget: &mut Budget,
    ) -> Option<(Wanted, Arc<Fetched>)> {
        let wanted = end.to_replace()?;
        let old = sources.get(&wanted)?;
        let tried = tried.entry(wanted.clone()).or_default();
        tried.times += 1;
        // Where the message was kept, its server may say something else by now.
        if old.age() == 0 || tried.times > 1 {
            tried.servers.push(old.server);
        }
        self.forget(&wanted);
        if tried.times >= MOST_SERVERS {
            return None;
        }
        let fetched = self.message(&wanted, sources, &tried.servers, budget).await.ok()?;
        self.metrics.add(Count::Replaced, 1);
        Some((wanted, fetched))
    }
}
