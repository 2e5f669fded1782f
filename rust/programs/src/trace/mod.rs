//! `zermuita trace`: the way of a name from a trust anchor down.

mod course;
mod found;
mod json;
mod progress;
mod saved;
mod said;
mod servers;
mod text;

use std::collections::HashMap;

use zermuita::crypto::OpenSsl;
use zermuita::{End, Progress, Walk, WalkError, Wanted};

pub use course::Source;
pub use said::Said;

use crate::cli::Trace;
use crate::out::{self, Failure};
use crate::way::Way;
use crate::{anchor, root, WRONG_CALL};
use servers::Servers;

/// From how many servers one message is taken at most.
const MOST_SERVERS: usize = 3;

/// A walk, and where its messages came from.
pub struct Traced {
    pub walk: Walk,
    pub sources: HashMap<Wanted, Source>,
    /// Answers that were refused, for which another server was asked.
    pub set_aside: Vec<(Wanted, Source, End)>,
    /// How it ended; none where an answer is missing.
    pub end: Option<End>,
}

impl Traced {
    fn put(&mut self, wanted: &Wanted, message: &[u8], source: Source) {
        self.walk.replace(wanted, message);
        self.sources.insert(wanted.clone(), source);
    }

    /// Asks another server of the zone for what is refused. False where there is none.
    async fn asked_elsewhere(&mut self, servers: &Servers, end: End) -> bool {
        let wanted = match end.to_replace().filter(|it| self.sources.contains_key(it)) {
            Some(wanted) => wanted,
            None => return false,
        };
        let mut tried: Vec<_> = self.set_aside.iter().filter(|it| it.0 == wanted).map(|it| it.1.server.clone()).collect();
        tried.extend(self.sources.get(&wanted).map(|it| it.server.clone()));
        if tried.len() >= MOST_SERVERS {
            return false;
        }
        match servers.seek(&wanted, self, &tried).await {
            Some((message, source)) => {
                if let Some(old) = self.sources.remove(&wanted) {
                    self.set_aside.push((wanted.clone(), old, end));
                }
                self.put(&wanted, &message, source);
                true
            }
            None => false,
        }
    }

    /// Walks until nothing more is wanted that is there.
    async fn walk(&mut self, servers: &Servers) -> Result<(), WalkError> {
        loop {
            match self.walk.advance(&OpenSsl)? {
                Progress::Ended(end) => {
                    if !self.asked_elsewhere(servers, end.clone()).await {
                        self.end = Some(end);
                        return Ok(());
                    }
                }
                Progress::Wants(messages) => {
                    for wanted in messages {
                        match servers.seek(&wanted, self, &[]).await {
                            Some((message, source)) => {
                                self.walk.put(&wanted, &message);
                                self.sources.insert(wanted, source);
                            }
                            None => {
                                eprintln!("zermuita: no answer for {wanted}");
                                return Ok(());
                            }
                        }
                    }
                }
            }
        }
    }
}

fn begun(options: &Trace) -> Result<Traced, Failure> {
    let anchor = anchor::read(&options.anchor)?;
    let saved = options.from.as_deref().map(saved::load).transpose()?;
    let moment = options.moment.or_else(|| saved.as_ref().map(|it| it.moment)).unwrap_or_else(out::now);
    let mut traced = Traced {
        walk: Walk::new(anchor, options.question(), moment),
        sources: HashMap::new(),
        set_aside: Vec::new(),
        end: None,
    };
    for (wanted, message) in saved.into_iter().flat_map(|it| it.messages) {
        traced.walk.put(&wanted, &message);
        let file = options.from.as_ref().map_or_else(String::new, |it| it.display().to_string());
        traced.sources.insert(wanted, Source { server: file, course: None });
    }
    Ok(traced)
}

/// Runs the program; its status.
pub fn run(options: &Trace) -> Result<u8, Failure> {
    let mut traced = begun(options)?;
    let servers = Servers::new(options, root::addresses(options.hints.as_deref())?);
    let runtime = tokio::runtime::Builder::new_current_thread().enable_all().build().map_err(Failure::Write)?;
    let walked = runtime.block_on(traced.walk(&servers));
    walked.map_err(|error| match error {
        WalkError::Unreadable(zermuita::Unreadable::BadDsSet) => Failure::Content {
            path: options.anchor.clone(),
            reason: "no DS record has an algorithm and a digest that are checked here (8, 10, 13 to 16; SHA-256, SHA-384)".to_owned(),
        },
        error => Failure::Other(error.to_string()),
    })?;
    if let Some(path) = &options.save {
        saved::save(path, &traced.walk)?;
    }
    let way = Way::of(&traced.walk, &OpenSsl);
    if options.json {
        json::tell(&traced, &way, options.messages)?;
    } else {
        text::tell(&traced, &way, options.messages)?;
    }
    Ok(traced.end.as_ref().map_or(WRONG_CALL, |it| Said::of(it).status()))
}
