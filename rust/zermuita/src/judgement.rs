//! What a zone says of a question.
#![forbid(unsafe_code)]

use std::fmt;

use zermuita_sys as sys;

use crate::ffi::Replied;
use crate::{take, DsSet, ExtendedError, Name, Refusal, Reply, SignatureError, UnixTime, Unreadable};

/// The data of records, in canonical order and form.
#[derive(Clone, Debug, PartialEq, Eq)]
pub struct RecordData(Vec<u8>);

impl RecordData {
    pub(crate) fn of(octets: &[u8]) -> Self {
        RecordData(octets.to_vec())
    }

    /// The data of each record.
    pub fn iter(&self) -> impl Iterator<Item = &[u8]> {
        let mut rest = &*self.0;
        std::iter::from_fn(move || take::part(&mut rest, 2))
    }
}

/// Whether a name that has no DS record is a delegation.
#[derive(Clone, Copy, Debug, PartialEq, Eq, Hash)]
pub enum Delegates {
    /// The answer says nothing of it.
    Unknown,
    /// The name is a delegation, to a zone that is not signed.
    Yes,
    /// The name is none: the zone itself answers for it.
    No,
}

/// What a zone says of a question. As text it has the library's name, without `ZERMUITA_`.
///
/// Not each verdict is secure: [`OptOut`](Verdict::OptOut) and [`Insecure`](Verdict::Insecure) are insecure, and
/// [`Delegated`](Verdict::Delegated) and [`Referral`](Verdict::Referral) are no answer for a client.
#[derive(Clone, Debug, PartialEq, Eq)]
#[non_exhaustive]
pub enum Verdict {
    /// The name has these records of the type.
    Records(RecordData),
    /// The name has no records of the type. To a question for DS: whether it is a delegation.
    Nodata(Delegates),
    /// There is no such name.
    Nxdomain,
    /// A wildcard stands for the name and has these records.
    Wildcard(RecordData),
    /// A wildcard stands for the name and has no records of the type.
    WildcardNodata,
    /// The name is at or below this delegation, the topmost, or at or below some that the answer does not identify.
    Delegated(Option<Name>),
    /// An opt-out chain leaves open what is there: insecure.
    OptOut,
    /// No DS record can be checked, so nothing vouches for the zone's keys: insecure.
    Insecure,
    /// The name has a CNAME record, which leads there.
    Alias(Name),
    /// A wildcard stands for the name and has a CNAME record, which leads there.
    WildcardAlias(Name),
    /// A name above has a DNAME record.
    Dname {
        /// The owner of the record.
        owner: Name,
        /// The name that the name of the question becomes; none where that would be too long: YXDOMAIN (RFC 6672, 2.2).
        target: Option<Name>,
    },
    /// The name is at or below a delegation with DS records.
    Referral {
        /// The delegation.
        cut: Name,
        /// Its DS set.
        ds: DsSet,
    },
}

impl Verdict {
    /// The library's reply.
    #[must_use]
    pub fn reply(&self) -> Reply {
        Reply(match self {
            Verdict::Records(_) => sys::ZERMUITA_RECORDS,
            Verdict::Nodata(_) => sys::ZERMUITA_NODATA,
            Verdict::Nxdomain => sys::ZERMUITA_NXDOMAIN,
            Verdict::Wildcard(_) => sys::ZERMUITA_WILDCARD,
            Verdict::WildcardNodata => sys::ZERMUITA_WILDCARD_NODATA,
            Verdict::Delegated(_) => sys::ZERMUITA_DELEGATED,
            Verdict::OptOut => sys::ZERMUITA_OPTOUT,
            Verdict::Insecure => sys::ZERMUITA_INSECURE,
            Verdict::Alias(_) => sys::ZERMUITA_ALIAS,
            Verdict::WildcardAlias(_) => sys::ZERMUITA_WILDCARD_ALIAS,
            Verdict::Dname { .. } => sys::ZERMUITA_DNAME,
            Verdict::Referral { .. } => sys::ZERMUITA_REFERRAL,
        })
    }

    /// Whether this says all that the zone has to say of the question itself, an alias of it included: all but
    /// [`Delegated`](Verdict::Delegated), [`Referral`](Verdict::Referral) and what is insecure.
    #[must_use]
    pub fn is_answer(&self) -> bool {
        !matches!(self, Verdict::Delegated(_) | Verdict::Referral { .. } | Verdict::OptOut | Verdict::Insecure)
    }

    /// Reads the output of a verdict. `None` where it is not of the form that the header gives, which a library of the same version
    /// never writes.
    fn read(reply: u32, delegates: u16, mut rest: &[u8]) -> Option<Self> {
        Some(match reply {
            sys::ZERMUITA_RECORDS => Verdict::Records(RecordData::of(rest)),
            sys::ZERMUITA_NODATA => Verdict::Nodata(match delegates {
                sys::ZERMUITA_DELEGATES_YES => Delegates::Yes,
                sys::ZERMUITA_DELEGATES_NO => Delegates::No,
                _ => Delegates::Unknown,
            }),
            sys::ZERMUITA_NXDOMAIN => Verdict::Nxdomain,
            sys::ZERMUITA_WILDCARD => Verdict::Wildcard(RecordData::of(rest)),
            sys::ZERMUITA_WILDCARD_NODATA => Verdict::WildcardNodata,
            sys::ZERMUITA_DELEGATED => Verdict::Delegated(take::name(&mut rest)),
            sys::ZERMUITA_OPTOUT => Verdict::OptOut,
            sys::ZERMUITA_INSECURE => Verdict::Insecure,
            sys::ZERMUITA_ALIAS => Verdict::Alias(take::name(&mut rest)?),
            sys::ZERMUITA_WILDCARD_ALIAS => Verdict::WildcardAlias(take::name(&mut rest)?),
            sys::ZERMUITA_DNAME => {
                let owner = take::name(&mut rest)?;
                Verdict::Dname { owner, target: take::name(&mut rest) }
            }
            sys::ZERMUITA_REFERRAL => {
                let cut = take::name(&mut rest)?;
                Verdict::Referral { cut, ds: DsSet::from_octets(rest).ok()? }
            }
            _ => return None,
        })
    }
}

impl fmt::Display for Verdict {
    fn fmt(&self, f: &mut fmt::Formatter<'_>) -> fmt::Result {
        f.pad(self.reply().name())
    }
}

/// A verdict, and how long it lasts.
#[derive(Clone, Debug, PartialEq, Eq)]
#[non_exhaustive]
pub struct Judgement {
    /// What the zone says.
    pub verdict: Verdict,
    /// For how many seconds from its message's arrival the verdict may be kept.
    pub ttl: u32,
    /// The last second in which it stands. Both are 0 with [`Verdict::Insecure`].
    pub until: UnixTime,
    /// With [`Verdict::Insecure`] why no DS record can be checked, if there are some.
    pub extended: Option<ExtendedError>,
    /// The records of the answer that are verified for the verdict, if [`Case::places`](crate::Case::places) is set: their numbers,
    /// counted from 0 over all sections. RRSIG records have none.
    pub places: Vec<u32>,
    /// How many signatures were looked up among the checked ones, in the last call.
    pub verifications: u64,
    /// How many names were hashed, in the last call.
    pub hashes: u64,
}

impl Judgement {
    fn read(replied: &Replied, has_places: bool) -> Option<Self> {
        let (mut rest, mut places) = (replied.octets(), Vec::new());
        if has_places && replied.reply != sys::ZERMUITA_INSECURE {
            let count = usize::try_from(take::number_of(&mut rest, 4)?).ok()?;
            let octets = take::octets(&mut rest, count.checked_mul(4)?)?;
            places = octets.chunks_exact(4).map(|it| take::number(it) as u32).collect();
        }
        let report = &replied.report;
        Some(Judgement {
            verdict: Verdict::read(replied.reply, report.delegates, rest)?,
            ttl: report.ttl,
            until: report.until,
            extended: ExtendedError::of_report(report.ede),
            places,
            verifications: report.verifications,
            hashes: report.hashes,
        })
    }
}

/// There is no verdict.
#[derive(Clone, Copy, Debug, PartialEq, Eq, thiserror::Error)]
#[error("{}{}", .refusal.reply(), extended_text(.extended))]
#[non_exhaustive]
pub struct Refused {
    /// Why.
    pub refusal: Refusal,
    /// What to tell the client.
    pub extended: Option<ExtendedError>,
    /// How many signatures were looked up among the checked ones, in the last call.
    pub verifications: u64,
    /// How many names were hashed, in the last call.
    pub hashes: u64,
}

/// An extended error in brackets.
pub(crate) fn extended_text(extended: &Option<ExtendedError>) -> String {
    extended.map_or_else(String::new, |it| format!(" (EDE {}, {it})", it.0))
}

/// Why a case has no judgement.
#[derive(Clone, Debug, PartialEq, Eq, thiserror::Error)]
#[non_exhaustive]
pub enum JudgeError {
    /// There is no verdict.
    #[error(transparent)]
    Refused(#[from] Refused),
    /// A signature could not be checked.
    #[error(transparent)]
    Signature(#[from] SignatureError),
    /// What was handed in cannot be read.
    #[error("{}", .0.reply())]
    Unreadable(Unreadable),
    /// The library replied what this crate does not know. A resolver answers SERVFAIL.
    #[error("the library replied {}, which is unknown here", (.0).0)]
    Unknown(Reply),
}

/// The judgement that a reply is, or why there is none.
pub(crate) fn read(replied: &Replied, has_places: bool) -> Result<Judgement, JudgeError> {
    if let Some(refusal) = Refusal::of(replied.reply) {
        let report = &replied.report;
        let extended = ExtendedError::of_report(report.ede);
        return Err(Refused { refusal, extended, verifications: report.verifications, hashes: report.hashes }.into());
    }
    if let Some(unreadable) = Unreadable::of(replied.reply) {
        return Err(JudgeError::Unreadable(unreadable));
    }
    Judgement::read(replied, has_places).ok_or(JudgeError::Unknown(Reply(replied.reply)))
}
