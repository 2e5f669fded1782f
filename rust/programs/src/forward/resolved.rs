//! What is said of a question, as clients get it.

use tokio::time::Instant;
use zermuita::message::Rcode;
use zermuita::{ExtendedError, Name, Rtype};

use crate::text;

/// A record without pointers.
#[derive(Clone, Debug, PartialEq, Eq)]
pub struct Rr {
    pub owner: Name,
    pub rtype: Rtype,
    pub ttl: u32,
    pub data: Vec<u8>,
}

/// What vouches for an answer.
#[derive(Clone, Copy, Debug, PartialEq, Eq)]
pub enum State {
    /// All of it is proved.
    Secure,
    /// It is proved that nothing signs it.
    Insecure,
    /// An answer is bogus, or nothing is shown.
    Bogus,
    /// No server answered, or a limit was hit.
    Failed,
}

/// What is said of a question.
#[derive(Clone, Debug)]
pub struct Resolved {
    pub state: State,
    pub rcode: Rcode,
    pub answer: Vec<Rr>,
    pub authority: Vec<Rr>,
    /// What to tell the client of a failure, and more words.
    pub extended: Option<(ExtendedError, String)>,
    /// Since when it is kept, and for how many seconds.
    pub made: Instant,
    pub ttl: u32,
    /// The last second, since 1970, in which it stands: the clock may jump.
    pub until: u64,
}

impl Resolved {
    /// Whether a record of denial says that its name does not exist (RFC 9824, 3.1).
    pub fn has_nxname(&self) -> bool {
        self.authority.iter().any(|it| text::types_in(it.rtype, &it.data).contains(&Rtype::NXNAME))
    }

    /// SERVFAIL, which is kept for some seconds.
    pub fn failed(state: State, extended: Option<ExtendedError>, why: String, ttl: u32) -> Self {
        Resolved {
            state,
            rcode: Rcode::SERVFAIL,
            answer: Vec::new(),
            authority: Vec::new(),
            extended: extended.map(|it| (it, why)),
            made: Instant::now(),
            ttl,
            until: u64::MAX,
        }
    }
}
