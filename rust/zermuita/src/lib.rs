//! What a signed DNS zone says of a name, judged from messages alone (RFC 4035, 5), and what a tree of zones says of it from a
//! trust anchor down. This is the safe face of libzermuita, whose verdicts are proved by machine to be the zone's, under premises
//! that its documentation lists.
//!
//! Nothing here sends a query. A [`Case`] is what one zone answered, and [`Case::judge`] gives its [`Judgement`] or says why there
//! is none. A [`Walk`] goes from a [`TrustAnchor`] down: it says which messages it wants, takes them, and ends. A [`Zone`] is a
//! signed zone that is served. Signatures are checked by an implementation of [`Signatures`]: [`OpenSsl`](crypto::OpenSsl), `Ring`
//! with the feature `ring`, or one of the caller's.
//!
//! ```
//! use zermuita::{Case, DsSet, Name, Parent, Question, Rtype, Verdict};
//! # fn main() -> Result<(), Box<dyn std::error::Error>> {
//! # let at = |file: &str| std::fs::read(format!("{}/../../examples/c/nsec.test/{file}", env!("CARGO_MANIFEST_DIR")));
//! let apex: Name = "nsec.test".parse()?;
//! let ds = DsSet::from_octets(&at("ds")?)?;
//! let (dnskey, answer) = (at("dnskey")?, at("answer")?);
//! let question = Question::new("a.nsec.test".parse()?, Rtype::A);
//!
//! let case = Case::new(&apex, Parent::Ds(&ds), &dnskey, &answer, &question, 1_790_000_000);
//! # #[cfg(feature = "openssl")] {
//! let judgement = case.judge(&zermuita::crypto::OpenSsl)?;
//! match &judgement.verdict {
//!     Verdict::Records(records) => assert_eq!(records.iter().collect::<Vec<_>>(), [[192, 0, 2, 9], [192, 0, 2, 10]]),
//!     other => panic!("{other}"),
//! }
//! assert_eq!((judgement.ttl, judgement.until), (3600, 2_082_758_400));
//! # }
//! # Ok(())
//! # }
//! ```

#![deny(unsafe_code)]
#![warn(missing_docs)]

mod case;
mod checked;
pub mod crypto;
mod ds;
mod extended;
mod ffi;
mod judgement;
mod limits;
pub mod message;
mod name;
mod reply;
mod rtype;
mod take;
mod walk;
mod zone;

pub use case::{Case, Parent};
pub use checked::{Ask, Checked};
pub use crypto::{Algorithm, SignatureError, Signatures};
pub use ds::{DsError, DsSet, TrustAnchor};
pub use extended::ExtendedError;
pub use judgement::{Delegates, JudgeError, Judgement, RecordData, Refused, Verdict};
pub use limits::Limits;
pub use name::{Name, NameError};
pub use reply::{Refusal, Reply, Unreadable};
pub use rtype::{Question, Rtype, RtypeError};
pub use walk::{End, Outcome, Progress, Secure, Walk, WalkError, Wanted};
pub use zone::{Applied, Due, Facts, MasterError, Phase, Request, Response, Roll, SetType, SignError, Signer, Zone, ZoneError};

/// Seconds since 1970, without leap seconds.
pub type UnixTime = u64;

/// The version of the library that runs: major, minor and patch.
#[must_use]
pub fn library_version() -> (u32, u32, u32) {
    let version = ffi::version();
    (version >> 16, version >> 8 & 255, version & 255)
}
