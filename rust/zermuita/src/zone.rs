//! A signed zone that is served.
#![forbid(unsafe_code)]

use std::fmt;
use std::str::FromStr;

use zermuita_sys as sys;

use crate::ffi::{self, RequestOctets, ZoneHandle, ZoneReplied};
use crate::{take, Algorithm, RecordData, UnixTime};

/// Makes signatures for a served zone.
pub trait Signer {
    /// Signs octets with the private key of a DNSKEY record, whose data are handed in. The signature is as the RRSIG record has it, of
    /// ECDSA two numbers of one width (RFC 6605, 4).
    ///
    /// # Errors
    ///
    /// If it cannot be made, as for want of the key: the server answers SERVFAIL.
    fn sign(&mut self, dnskey: &[u8], octets: &[u8]) -> Result<Vec<u8>, SignError>;
}

/// A signature could not be made.
#[derive(Clone, Debug, PartialEq, Eq, thiserror::Error)]
#[error("a signature of algorithm {algorithm} could not be made: {reason}")]
pub struct SignError {
    algorithm: Algorithm,
    reason: String,
}

impl SignError {
    /// An error with the algorithm of its key and the reason.
    pub fn new(algorithm: Algorithm, reason: impl Into<String>) -> Self {
        SignError { algorithm, reason: reason.into() }
    }
}

/// A master file that cannot be read.
#[derive(Clone, Debug, PartialEq, Eq, thiserror::Error)]
#[error("line {line}: {reason}")]
pub struct MasterError {
    /// The line, counted from 1; 0 if it is of none.
    pub line: usize,
    /// What is wrong there.
    pub reason: String,
}

/// Why a zone does not do what is asked of it. Nothing has changed then.
#[derive(Clone, Debug, PartialEq, Eq, thiserror::Error)]
#[non_exhaustive]
pub enum ZoneError {
    /// The line or the journal is refused.
    #[error("line {line}: {reason}")]
    Refused {
        /// Of a journal the line, counted from 1; else 0.
        line: usize,
        /// What is wrong there.
        reason: String,
    },
    /// A signature could not be made.
    #[error(transparent)]
    Sign(#[from] SignError),
    /// The moment of an answer is not behind the last replacement: [`Facts::answers_from`] is the first that is.
    #[error("the moment of the answer is not behind the last replacement")]
    TooSoon,
    /// Signatures live no longer than the answer is backdated.
    #[error("signatures live no longer than the answer is backdated")]
    Expired,
    /// Memory ran out.
    #[error("memory ran out")]
    OutOfMemory,
    /// The library replied what this crate does not expect of the call.
    #[error("the library replied {0}, which is not expected here")]
    Unexpected(u32),
}

impl ZoneError {
    fn of(replied: &ZoneReplied) -> Self {
        match replied.reply {
            sys::ZERMUITA_ZONE_REFUSED => ZoneError::Refused { line: replied.report.line, reason: text(replied.octets()) },
            sys::ZERMUITA_ZONE_OUT_OF_MEMORY => ZoneError::OutOfMemory,
            sys::ZERMUITA_ZONE_TOO_SOON => ZoneError::TooSoon,
            sys::ZERMUITA_ZONE_EXPIRED => ZoneError::Expired,
            reply => ZoneError::Unexpected(reply),
        }
    }
}

fn text(octets: &[u8]) -> String {
    String::from_utf8_lossy(octets).trim_end().to_owned()
}

/// What an accepted line tells.
#[derive(Clone, Debug, PartialEq, Eq)]
pub enum Applied {
    /// The line belongs behind the journal; this is what the keeper owes.
    Told(String),
    /// The line belongs behind the journal, and memory ran out for what it tells: [`Zone::due`] tells it again.
    Untold,
}

macro_rules! words {
    ($(#[$docs:meta])* $type:ident: $($(#[$doc:meta])* $name:ident = $number:ident $text:literal),* $(,)?) => {
        $(#[$docs])*
        #[derive(Clone, Copy, Debug, PartialEq, Eq, Hash)]
        pub enum $type {
            $($(#[$doc])* $name,)*
        }

        impl $type {
            /// All of them.
            pub const ALL: &'static [$type] = &[$($type::$name),*];

            fn number(self) -> u32 {
                match self {
                    $($type::$name => sys::$number,)*
                }
            }
        }

        impl fmt::Display for $type {
            fn fmt(&self, f: &mut fmt::Formatter<'_>) -> fmt::Result {
                f.pad(match self {
                    $($type::$name => $text,)*
                })
            }
        }

        impl FromStr for $type {
            type Err = UnknownWord;

            fn from_str(word: &str) -> Result<Self, UnknownWord> {
                let found = $type::ALL.iter().find(|it| it.to_string() == word);
                found.copied().ok_or_else(|| UnknownWord(word.to_owned()))
            }
        }
    };
}

/// A word is unknown here.
#[derive(Clone, Debug, PartialEq, Eq, thiserror::Error)]
#[error("{0} is unknown")]
pub struct UnknownWord(String);

words! {
    /// A roll of keys, by the word that its lines have.
    Roll:
    /// Of a key that signs keys, by two of them in the DNSKEY set.
    Ksk = ZERMUITA_KSK_ROLL "ksk-roll",
    /// Of a key that signs keys, by two DS records.
    KskDoubleDs = ZERMUITA_KSK_DOUBLE_DS_ROLL "ksk-double-ds-roll",
    /// Of a key that signs records, published before it signs.
    Zsk = ZERMUITA_ZSK_ROLL "zsk-roll",
    /// Of a key that signs records, by two signatures.
    ZskDoubleSignature = ZERMUITA_ZSK_DOUBLE_SIGNATURE_ROLL "zsk-double-signature-roll",
    /// Of a key that signs all.
    Csk = ZERMUITA_CSK_ROLL "csk-roll",
    /// Of the algorithm.
    Algorithm = ZERMUITA_ALGORITHM_ROLL "algorithm-roll",
}

words! {
    /// How far a roll has come.
    Phase:
    /// It does not run.
    None = ZERMUITA_NO_ROLL "none",
    /// The first changes are on their way to all servers: `report1` is next.
    Propagation1 = ZERMUITA_PROPAGATION_1 "propagation 1",
    /// Caches keep what was there before: `wait1` is next.
    Expiry1 = ZERMUITA_EXPIRY_1 "expiry 1",
    /// The second changes are on their way: `report2` is next.
    Propagation2 = ZERMUITA_PROPAGATION_2 "propagation 2",
    /// `wait2` is next.
    Expiry2 = ZERMUITA_EXPIRY_2 "expiry 2",
    /// `done` is next.
    Rolled = ZERMUITA_ROLLED "rolled",
}

/// What is due of a roll.
#[derive(Clone, Debug, PartialEq, Eq)]
pub struct Due {
    /// How far it has come.
    pub phase: Phase,
    /// The first second in which the wait is accepted; none where there never is one.
    pub from: Option<UnixTime>,
    /// In a wait the seconds that its report said; else 0.
    pub ttl: u32,
    /// What the keeper owes.
    pub actions: Vec<String>,
}

/// What the lines of a zone say about it.
#[derive(Clone, Debug, PartialEq, Eq)]
pub struct Facts {
    /// The name of the zone as text, without a dot at the end but for the root.
    pub apex: String,
    /// The greatest moment of a call on its keys or a replacement; 0 where there is none.
    pub last: UnixTime,
    /// The first moment of which it answers: the one behind its last replacement; 0 where there is none.
    pub answers_from: UnixTime,
    /// The greatest TTL of its records, those that were replaced included.
    pub ttl: u32,
    /// How many seconds a signature is valid.
    pub life: u32,
}

/// A set of a zone that can be told.
#[derive(Clone, Copy, Debug, PartialEq, Eq, Hash)]
pub enum SetType {
    /// The DNSKEY set.
    Dnskey,
    /// The DS set that the parent is to have.
    Ds,
    /// The CDS set that asks the parent for it.
    Cds,
    /// The CDNSKEY set that asks the parent for it.
    Cdnskey,
}

/// A request, and how it came.
#[derive(Clone, Copy, Debug, PartialEq, Eq)]
pub struct Request<'a> {
    /// What was received, a whole message.
    pub octets: &'a [u8],
    /// The moment of the clock.
    pub now: UnixTime,
    /// The answer is of the moment so many seconds before.
    pub backdate: u32,
    /// It came by a stream, as TCP.
    pub is_stream: bool,
    /// How many octets a response by a datagram has at most.
    pub limit: u16,
}

/// What a zone answers.
#[derive(Clone, Debug, PartialEq, Eq)]
pub enum Response {
    /// These octets are to be sent.
    Octets(Vec<u8>),
    /// Nothing is to be sent.
    None,
}

/// A signed zone that is served: it is opened from its journal, lines change it, and it answers requests. It is closed when it is
/// dropped, and stays with the thread that opened it: it is not `Send`.
///
/// ```
/// # use zermuita::Zone;
/// let master = "$ORIGIN example.\n@ 3600 IN SOA ns host 1 3600 900 86400 300\n@ 3600 IN NS ns\nns 3600 IN A 192.0.2.1\n";
/// let journal = Zone::lines_of(master.as_bytes(), "", "nsec 0 604800", "")?;
/// let zone = Zone::open(&journal)?;
/// assert_eq!(zone.whole(), journal.len());
/// # Ok::<(), Box<dyn std::error::Error>>(())
/// ```
pub struct Zone {
    handle: ZoneHandle,
    whole: usize,
    settled: usize,
}

/// How many octets this takes by a datagram, as its OPT records say.
const UDP_SIZE: u16 = 1232;

impl Zone {
    /// The lines that a journal begins with, made of a master file: `origin` of relative names in front of its first `$ORIGIN`, and the
    /// words of the zone's line behind its name, as `nsec 0 604800`; without these the lines of the records alone, for a replacement.
    /// `apex` is the name that the zone is to have, or nothing.
    ///
    /// # Errors
    ///
    /// If the file is refused, with the line.
    pub fn lines_of(master: &[u8], origin: &str, chain: &str, apex: &str) -> Result<Vec<u8>, MasterError> {
        let replied = ffi::lines_of(master, origin.as_bytes(), chain.as_bytes(), apex.as_bytes());
        match replied.reply {
            sys::ZERMUITA_ZONE_DONE => Ok(replied.into_octets()),
            sys::ZERMUITA_ZONE_REFUSED => Err(MasterError { line: replied.report.line, reason: text(replied.octets()) }),
            reply => Err(MasterError { line: 0, reason: ZoneError::Unexpected(reply).to_string() }),
        }
    }

    /// Opens a zone from its journal.
    ///
    /// # Errors
    ///
    /// If the journal is refused, with the line.
    pub fn open(journal: &[u8]) -> Result<Self, ZoneError> {
        let mut handle = ZoneHandle::closed();
        let replied = handle.open(journal);
        match replied.reply {
            sys::ZERMUITA_ZONE_DONE => Ok(Zone { handle, whole: replied.report.whole, settled: replied.report.settled }),
            _ => Err(ZoneError::of(&replied)),
        }
    }

    /// How many octets the whole lines of the journal have: those behind are a line that is not finished, and was not applied.
    #[must_use]
    pub fn whole(&self) -> usize {
        self.whole
    }

    /// How many octets of the journal stand up to the last line behind which no records wait for their replacement.
    #[must_use]
    pub fn settled(&self) -> usize {
        self.settled
    }

    /// Applies a line, without its line feed.
    ///
    /// # Errors
    ///
    /// If the line is refused.
    pub fn apply(&mut self, line: &[u8]) -> Result<Applied, ZoneError> {
        let replied = self.handle.apply(line);
        match replied.reply {
            sys::ZERMUITA_ZONE_DONE => Ok(Applied::Told(text(replied.octets()))),
            sys::ZERMUITA_ZONE_UNTOLD => Ok(Applied::Untold),
            _ => Err(ZoneError::of(&replied)),
        }
    }

    /// Drops the records that wait for their replacement.
    ///
    /// # Errors
    ///
    /// None that the library is known to have.
    pub fn forget(&mut self) -> Result<(), ZoneError> {
        match self.handle.forget() {
            sys::ZERMUITA_ZONE_DONE => Ok(()),
            reply => Err(ZoneError::Unexpected(reply)),
        }
    }

    /// What is due of a roll.
    ///
    /// # Errors
    ///
    /// If memory ran out.
    pub fn due(&mut self, roll: Roll) -> Result<Due, ZoneError> {
        let (reply, due, actions) = self.handle.due(roll.number());
        let phase = Phase::ALL.iter().find(|it| it.number() == due.phase);
        match (reply, phase) {
            (sys::ZERMUITA_ZONE_DONE, Some(phase)) => Ok(Due {
                phase: *phase,
                from: Some(due.from).filter(|it| *it != u64::MAX),
                ttl: due.ttl,
                actions: text(&actions).lines().map(str::to_owned).collect(),
            }),
            (sys::ZERMUITA_ZONE_OUT_OF_MEMORY, _) => Err(ZoneError::OutOfMemory),
            (reply, _) => Err(ZoneError::Unexpected(reply)),
        }
    }

    /// What the lines of the zone say about it.
    ///
    /// # Errors
    ///
    /// If memory ran out.
    pub fn facts(&mut self) -> Result<Facts, ZoneError> {
        let (reply, facts, apex) = self.handle.facts();
        match reply {
            sys::ZERMUITA_ZONE_DONE => Ok(Facts {
                apex: text(&apex),
                last: facts.last,
                answers_from: facts.answers_from,
                ttl: facts.ttl,
                life: facts.life,
            }),
            sys::ZERMUITA_ZONE_OUT_OF_MEMORY => Err(ZoneError::OutOfMemory),
            reply => Err(ZoneError::Unexpected(reply)),
        }
    }

    /// The data of a set, in order of tag.
    ///
    /// # Errors
    ///
    /// If memory ran out.
    pub fn records(&mut self, set: SetType) -> Result<RecordData, ZoneError> {
        let rtype = match set {
            SetType::Dnskey => crate::Rtype::DNSKEY,
            SetType::Ds => crate::Rtype::DS,
            SetType::Cds => crate::Rtype::CDS,
            SetType::Cdnskey => crate::Rtype::CDNSKEY,
        };
        let replied = self.handle.records(rtype.0);
        match replied.reply {
            sys::ZERMUITA_ZONE_DONE => Ok(RecordData::of(replied.octets())),
            _ => Err(ZoneError::of(&replied)),
        }
    }

    /// Answers a request, with signatures that are made where the answer lacks them.
    ///
    /// # Errors
    ///
    /// If a signature could not be made or memory ran out: the server sends SERVFAIL.
    pub fn respond<S: Signer + ?Sized>(&mut self, request: &Request<'_>, signer: &mut S) -> Result<Response, ZoneError> {
        let mut made = Vec::new();
        loop {
            let replied = self.handle.respond(&RequestOctets {
                request: request.octets,
                made: &made,
                now: request.now,
                backdate: request.backdate,
                stream: request.is_stream,
                limit: request.limit,
                udp_size: UDP_SIZE,
            });
            match replied.reply {
                sys::ZERMUITA_ZONE_RESPONSE => return Ok(Response::Octets(replied.into_octets())),
                sys::ZERMUITA_ZONE_NO_RESPONSE => return Ok(Response::None),
                // Handed in with all signatures the request is not answered so again.
                sys::ZERMUITA_ZONE_SIGN if made.is_empty() => made = signed(replied.octets(), signer)?,
                _ => return Err(ZoneError::of(&replied)),
            }
        }
    }
}

impl fmt::Debug for Zone {
    fn fmt(&self, f: &mut fmt::Formatter<'_>) -> fmt::Result {
        f.debug_struct("Zone").field("whole", &self.whole).field("settled", &self.settled).finish_non_exhaustive()
    }
}

/// Makes the signatures that are asked for, and writes their entries anew.
fn signed<S: Signer + ?Sized>(asks: &[u8], signer: &mut S) -> Result<Vec<u8>, SignError> {
    let (mut rest, mut made) = (asks, Vec::with_capacity(asks.len()));
    while let Some(dnskey) = take::part(&mut rest, 2) {
        let (octets, _room) = match (take::part(&mut rest, 4), take::part(&mut rest, 2)) {
            (Some(octets), Some(room)) => (octets, room),
            _ => break,
        };
        let signature = signer.sign(dnskey, octets)?;
        take::put_part(&mut made, dnskey);
        made.extend_from_slice(&(octets.len() as u32).to_be_bytes());
        made.extend_from_slice(octets);
        take::put_part(&mut made, &signature);
    }
    Ok(made)
}
