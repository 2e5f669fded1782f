//! The walk from a trust anchor down, without I/O.
#![forbid(unsafe_code)]

use std::fmt;

use zermuita_sys as sys;

use crate::ffi::Replied;
use crate::judgement::extended_text;
use crate::{
    crypto, ffi, take, Checked, ExtendedError, Limits, Name, Question, RecordData, Refusal, Reply, Rtype, SignatureError, Signatures,
    TrustAnchor, UnixTime, Unreadable,
};

/// A message that is wanted, or an answer that is refused: of which zone, and to which question.
#[derive(Clone, Debug, PartialEq, Eq, Hash)]
pub struct Wanted {
    /// The zone whose servers are to be asked.
    pub zone: Name,
    /// What they are to be asked.
    pub question: Question,
}

impl Wanted {
    /// The answer of a zone to a question.
    #[must_use]
    pub fn new(zone: Name, question: Question) -> Self {
        Wanted { zone, question }
    }

    /// The zone's answer for its keys.
    #[must_use]
    pub fn keys_of(zone: Name) -> Self {
        Wanted { question: Question::new(zone.clone(), Rtype::DNSKEY), zone }
    }

    /// Whether this is the zone's answer for its keys.
    #[must_use]
    pub fn is_of_keys(&self) -> bool {
        self.question.rtype == Rtype::DNSKEY && self.question.name == self.zone
    }

    fn take(rest: &mut &[u8]) -> Option<Self> {
        let (zone, name) = (take::name(rest)?, take::name(rest)?);
        let rtype = Rtype(take::number_of(rest, 2)? as u16);
        Some(Wanted { zone, question: Question { name, rtype } })
    }

    /// Writes a message with what it answers, as evidence has it.
    fn put(&self, out: &mut Vec<u8>, message: &[u8]) {
        take::put_part(out, self.zone.as_wire());
        take::put_part(out, self.question.name.as_wire());
        out.extend_from_slice(&self.question.rtype.0.to_be_bytes());
        out.extend_from_slice(&(message.len() as u32).to_be_bytes());
        out.extend_from_slice(message);
    }
}

impl fmt::Display for Wanted {
    fn fmt(&self, f: &mut fmt::Formatter<'_>) -> fmt::Result {
        write!(f, "{} of {}", self.question, self.zone)
    }
}

/// What comes next of a walk.
#[derive(Clone, Debug, PartialEq, Eq)]
pub enum Progress {
    /// These messages are wanted: hand in the answer to each by [`Walk::put`].
    Wants(Vec<Wanted>),
    /// The walk has come to its end.
    Ended(End),
}

/// What is secure.
#[derive(Clone, Debug, PartialEq, Eq)]
pub enum Secure {
    /// The name has these records.
    Records(RecordData),
    /// The name has no records of the type.
    Nodata,
    /// There is no such name.
    Nxdomain,
    /// A wildcard stands for the name and has these records.
    Wildcard(RecordData),
    /// A wildcard stands for the name and has no records of the type.
    WildcardNodata,
}

/// How a walk ends.
#[derive(Clone, Debug, PartialEq, Eq)]
#[non_exhaustive]
pub enum Outcome {
    /// The zone that has the name says this of it.
    Secure {
        /// The zone.
        zone: Name,
        /// What it says.
        says: Secure,
    },
    /// Secure: the name that a DNAME record leads to would be too long. A resolver answers YXDOMAIN.
    NameTooLong,
    /// Insecure: the delegation has no DS record of a known algorithm and digest.
    Insecure {
        /// The name of the delegation below which nothing is signed.
        delegation: Name,
    },
    /// Insecure: the opt-out of this zone leaves the name open.
    OptOut {
        /// The zone.
        zone: Name,
    },
    /// An answer is refused; or the DNSKEY answer that it is judged by, see [`Refusal::is_of_keys`].
    Refused {
        /// Why.
        refusal: Refusal,
        /// The answer. None with [`Refusal::OutOfMemory`], [`Refusal::MessageTooLong`] and [`Refusal::TooManySignatures`].
        answer: Option<Wanted>,
    },
    /// The answer tells nothing of the way to the name.
    NothingTold {
        /// The answer.
        answer: Wanted,
    },
    /// The name, or the one that the last alias leads to, is not at or below the trust anchor, or the question is for DS at the anchor.
    Outside,
    /// More delegations, aliases, messages or work than [`Limits`] allow.
    TooMany(Reply),
}

/// The end of a walk.
#[derive(Clone, Debug, PartialEq, Eq)]
#[non_exhaustive]
pub struct End {
    /// The names that aliases led through.
    pub aliases: Vec<Name>,
    /// How it ends.
    pub outcome: Outcome,
    /// The library's reply.
    pub reply: Reply,
    /// For how many seconds what is secure or insecure may be kept, from the arrival of the oldest message.
    pub ttl: u32,
    /// The last second in which it stands.
    pub until: UnixTime,
    /// What to tell the client of a refusal, or why the delegation's DS records cannot be checked.
    pub extended: Option<ExtendedError>,
    /// How many signatures were looked up among the checked ones, in the last call.
    pub verifications: u64,
    /// How many names were hashed, in the last call.
    pub hashes: u64,
}

impl End {
    /// Whether this is secure (RFC 4035, 4.3).
    #[must_use]
    pub fn is_secure(&self) -> bool {
        matches!(self.outcome, Outcome::Secure { .. } | Outcome::NameTooLong)
    }

    /// Whether this is insecure.
    #[must_use]
    pub fn is_insecure(&self) -> bool {
        matches!(self.outcome, Outcome::Insecure { .. } | Outcome::OptOut { .. })
    }

    /// After a refusal the message to ask another server for, and to hand in by [`Walk::replace`].
    #[must_use]
    pub fn to_replace(&self) -> Option<Wanted> {
        match &self.outcome {
            Outcome::NothingTold { answer } => Some(answer.clone()),
            Outcome::Refused { refusal: Refusal::QuestionNotAllowed, .. } => None,
            Outcome::Refused { refusal, answer: Some(answer) } if refusal.is_of_keys() => Some(Wanted::keys_of(answer.zone.clone())),
            Outcome::Refused { answer, .. } => answer.clone(),
            _ => None,
        }
    }

    fn read(replied: &Replied) -> Option<Self> {
        let mut rest = replied.octets();
        let aliases = if rest.is_empty() { Vec::new() } else { aliases(&mut rest)? };
        let report = &replied.report;
        Some(End {
            aliases,
            outcome: outcome(replied.reply, rest)?,
            reply: Reply(replied.reply),
            ttl: report.ttl,
            until: report.until,
            extended: ExtendedError::of_report(report.ede),
            verifications: report.verifications,
            hashes: report.hashes,
        })
    }
}

impl fmt::Display for End {
    fn fmt(&self, f: &mut fmt::Formatter<'_>) -> fmt::Result {
        write!(f, "{}{}", self.reply, extended_text(&self.extended))
    }
}

fn aliases(rest: &mut &[u8]) -> Option<Vec<Name>> {
    let count = take::number_of(rest, 4)?;
    (0..count).map(|_| take::name(rest)).collect()
}

fn outcome(reply: u32, mut rest: &[u8]) -> Option<Outcome> {
    Some(match reply {
        sys::ZERMUITA_RECORDS
        | sys::ZERMUITA_WILDCARD
        | sys::ZERMUITA_NODATA
        | sys::ZERMUITA_NXDOMAIN
        | sys::ZERMUITA_WILDCARD_NODATA => {
            let zone = take::name(&mut rest)?;
            let says = match reply {
                sys::ZERMUITA_RECORDS => Secure::Records(RecordData::of(rest)),
                sys::ZERMUITA_WILDCARD => Secure::Wildcard(RecordData::of(rest)),
                sys::ZERMUITA_NODATA => Secure::Nodata,
                sys::ZERMUITA_NXDOMAIN => Secure::Nxdomain,
                _ => Secure::WildcardNodata,
            };
            Outcome::Secure { zone, says }
        }
        sys::ZERMUITA_DNAME => Outcome::NameTooLong,
        sys::ZERMUITA_INSECURE => Outcome::Insecure { delegation: take::name(&mut rest)? },
        sys::ZERMUITA_OPTOUT => Outcome::OptOut { zone: take::name(&mut rest)? },
        sys::ZERMUITA_NOTHING_TOLD => Outcome::NothingTold { answer: Wanted::take(&mut rest)? },
        sys::ZERMUITA_OUTSIDE => Outcome::Outside,
        sys::ZERMUITA_TOO_MANY_CUTS | sys::ZERMUITA_TOO_MANY_ALIASES | sys::ZERMUITA_TOO_MANY_MESSAGES | sys::ZERMUITA_TOO_MUCH_WORK => {
            Outcome::TooMany(Reply(reply))
        }
        _ => Outcome::Refused { refusal: Refusal::of(reply)?, answer: Wanted::take(&mut rest) },
    })
}

/// Why a walk cannot go on.
#[derive(Clone, Debug, PartialEq, Eq, thiserror::Error)]
#[non_exhaustive]
pub enum WalkError {
    /// A signature could not be checked.
    #[error(transparent)]
    Signature(#[from] SignatureError),
    /// What was handed in cannot be read; [`Unreadable::BadDsSet`]: no DS record of the trust anchor can be checked.
    #[error("{}", .0.reply())]
    Unreadable(Unreadable),
    /// The library replied what this crate does not know. A resolver answers SERVFAIL.
    #[error("the library replied {}, which is unknown here", (.0).0)]
    Unknown(Reply),
}

/// A walk from a trust anchor down to the zone that has a name, and through aliases from the anchor again. It sends nothing: it says
/// which messages it wants, takes them, and ends.
///
/// ```no_run
/// # use zermuita::{Progress, Question, Rtype, TrustAnchor, Walk, Wanted};
/// # fn ask(_: &Wanted) -> std::io::Result<Vec<u8>> { unimplemented!() }
/// # #[cfg(feature = "openssl")]
/// # fn main() -> Result<(), Box<dyn std::error::Error>> {
/// let anchor: TrustAnchor = std::fs::read_to_string("/usr/share/dns/root.ds")?.parse()?;
/// let now = std::time::UNIX_EPOCH.elapsed()?.as_secs();
/// let mut walk = Walk::new(anchor, Question::new("www.example.com".parse()?, Rtype::AAAA), now);
/// let end = loop {
///     match walk.advance(&zermuita::crypto::OpenSsl)? {
///         Progress::Wants(messages) => {
///             for wanted in messages {
///                 let message = ask(&wanted)?; // by your transport, or from your cache
///                 walk.put(&wanted, &message);
///             }
///         }
///         Progress::Ended(end) => break end,
///     }
/// };
/// println!("{end}");
/// # Ok(())
/// # }
/// # #[cfg(not(feature = "openssl"))]
/// # fn main() {}
/// ```
#[derive(Clone, Debug)]
pub struct Walk {
    anchor: TrustAnchor,
    question: Question,
    now: UnixTime,
    limits: Limits,
    one_moment: bool,
    octets: Vec<u8>,
    messages: Vec<(Wanted, std::ops::Range<usize>)>,
    checked: Checked,
    counts: Counts,
}

/// How much a walk has done so far.
#[derive(Clone, Copy, Debug, Default, PartialEq, Eq)]
pub struct Counts {
    /// How often the library was called.
    pub calls: u32,
    /// How many signatures were checked.
    pub signatures: u32,
}

impl Walk {
    /// A walk for a question, at a moment at which signatures must hold.
    #[must_use]
    pub fn new(anchor: TrustAnchor, question: Question, now: UnixTime) -> Self {
        Walk {
            anchor,
            question,
            now,
            limits: Limits::default(),
            one_moment: false,
            octets: Vec::new(),
            messages: Vec::new(),
            checked: Checked::new(),
            counts: Counts::default(),
        }
    }

    /// Sets how much the walk may take on.
    #[must_use]
    pub fn with_limits(mut self, limits: Limits) -> Self {
        self.limits = limits;
        self
    }

    /// Demands that the signatures of an answer have one inception and one expiration, as of servers that sign each answer anew.
    #[must_use]
    pub fn with_one_moment(mut self, one_moment: bool) -> Self {
        self.one_moment = one_moment;
        self
    }

    /// The trust anchor.
    #[must_use]
    pub fn anchor(&self) -> &TrustAnchor {
        &self.anchor
    }

    /// The question.
    #[must_use]
    pub fn question(&self) -> &Question {
        &self.question
    }

    /// The moment at which signatures must hold.
    #[must_use]
    pub fn now(&self) -> UnixTime {
        self.now
    }

    /// How much is taken on.
    #[must_use]
    pub fn limits(&self) -> &Limits {
        &self.limits
    }

    /// How much was done so far.
    #[must_use]
    pub fn counts(&self) -> Counts {
        self.counts
    }

    /// The signatures that were checked so far.
    #[must_use]
    pub fn checked(&self) -> &Checked {
        &self.checked
    }

    /// The messages so far, in the order in which they came.
    pub fn messages(&self) -> impl Iterator<Item = (&Wanted, &[u8])> {
        self.messages.iter().map(move |(wanted, at)| (wanted, &self.octets[at.clone()]))
    }

    /// Hands in a message. Of two messages for one question of one zone the first counts.
    pub fn put(&mut self, wanted: &Wanted, message: &[u8]) {
        wanted.put(&mut self.octets, message);
        let end = self.octets.len();
        self.messages.push((wanted.clone(), end - message.len()..end));
    }

    /// Puts a message in the place of those that answer the same, as after a refusal.
    pub fn replace(&mut self, wanted: &Wanted, message: &[u8]) {
        let kept: Vec<_> = self.messages().filter(|it| it.0 != wanted).map(|(it, octets)| (it.clone(), octets.to_vec())).collect();
        self.octets.clear();
        self.messages.clear();
        for (it, octets) in &kept {
            self.put(it, octets);
        }
        self.put(wanted, message);
    }

    /// Goes on until messages are wanted or the walk ends. Signatures that are due are checked.
    ///
    /// # Errors
    ///
    /// If a signature could not be checked, or the trust anchor cannot be used.
    pub fn advance<S: Signatures + ?Sized>(&mut self, signatures: &S) -> Result<Progress, WalkError> {
        let algorithms = crypto::octets_of(signatures.algorithms());
        loop {
            let replied = ffi::resolve(&self.evidence(&algorithms));
            self.counts.calls += 1;
            match replied.reply {
                sys::ZERMUITA_ASK => {
                    let count = self.checked.check(replied.octets(), signatures)?;
                    self.counts.signatures += count as u32;
                }
                sys::ZERMUITA_WANT => {
                    let mut rest = replied.octets();
                    let mut wanted = Vec::with_capacity(2);
                    while let Some(it) = Wanted::take(&mut rest) {
                        // Where keys are asked for, they are wanted as the answer too.
                        if !wanted.contains(&it) {
                            wanted.push(it);
                        }
                    }
                    return Ok(Progress::Wants(wanted));
                }
                reply => {
                    return match Unreadable::of(reply) {
                        Some(unreadable) => Err(WalkError::Unreadable(unreadable)),
                        None => End::read(&replied).map(Progress::Ended).ok_or(WalkError::Unknown(Reply(reply))),
                    };
                }
            }
        }
    }

    fn evidence<'a>(&'a self, algorithms: &'a [u8]) -> ffi::EvidenceOctets<'a> {
        ffi::EvidenceOctets {
            anchor: self.anchor.zone.as_wire(),
            ds: self.anchor.ds.as_octets(),
            name: self.question.name.as_wire(),
            messages: &self.octets,
            checked: self.checked.as_octets(),
            algorithms,
            now: self.now,
            rtype: self.question.rtype.0,
            max_nsec3_iterations: self.limits.nsec3_iterations,
            max_cuts: self.limits.cuts,
            max_aliases: self.limits.aliases,
            one_moment: self.one_moment,
            max_messages: self.limits.messages,
            max_signatures: self.limits.signatures,
            max_work: self.limits.work,
        }
    }
}
