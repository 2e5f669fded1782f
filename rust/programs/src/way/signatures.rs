//! The RRSIG records of a message, and what became of each.

use zermuita::message::{Message, Rrsig};
use zermuita::{Name, Rtype};

use super::Way;

/// What became of a signature.
#[derive(Clone, Copy, Debug, PartialEq, Eq)]
pub enum SignatureState {
    Passed,
    Failed,
    NotYetValid,
    Expired,
    OtherSigner,
    UnknownKey,
    UntrustedKey,
    NotChecked,
}

impl SignatureState {
    /// For people.
    pub fn sentence(self) -> &'static str {
        match self {
            SignatureState::Passed => "passed",
            SignatureState::Failed => "failed: its key did not make it over these records",
            SignatureState::NotYetValid => "not checked: it does not hold yet",
            SignatureState::Expired => "not checked: it has expired",
            SignatureState::OtherSigner => "not checked: its signer is not the zone",
            SignatureState::UnknownKey => "not checked: there is no key of its tag and algorithm",
            SignatureState::UntrustedKey => "not checked: no DS record names its key",
            SignatureState::NotChecked => "not checked",
        }
    }

    /// As JSON has it.
    pub fn word(self) -> &'static str {
        match self {
            SignatureState::Passed => "passed",
            SignatureState::Failed => "failed",
            SignatureState::NotYetValid => "not-yet-valid",
            SignatureState::Expired => "expired",
            SignatureState::OtherSigner => "other-signer",
            SignatureState::UnknownKey => "unknown-key",
            SignatureState::UntrustedKey => "untrusted-key",
            SignatureState::NotChecked => "not-checked",
        }
    }
}

/// An RRSIG record of a message.
pub struct Signature<'a> {
    pub owner: Name,
    pub rrsig: Rrsig<'a>,
    pub state: SignatureState,
}

/// What came of a signature among those that were checked for a message; of an answer for keys, for any message of the zone.
fn outcome(way: &Way<'_>, at: usize, signature: &[u8]) -> Option<bool> {
    let is_for_keys = way.is_for_keys(at);
    let is_its = |other: usize| other == at || is_for_keys && way.steps[other].zone == way.steps[at].zone;
    let checked = (0..way.steps.len()).filter(|it| is_its(*it)).flat_map(|it| &way.steps[it].judged).map(|it| &it.checked);
    checked.flat_map(|it| it.iter()).find(|it| it.0.signature == signature).map(|it| it.1)
}

/// Why a signature was not checked. Its times are compared as serial numbers (RFC 4034, 3.1.5).
fn why_not_checked(way: &Way<'_>, at: usize, rrsig: &Rrsig<'_>) -> SignatureState {
    let zone = match way.steps[at].zone.map(|it| &way.zones[it]).filter(|it| it.answer.is_some()) {
        Some(zone) => zone,
        None => return SignatureState::NotChecked,
    };
    let is_behind_now = |moment: u32| (moment.wrapping_sub(way.walk.now() as u32) as i32).signum();
    if rrsig.signer != zone.name {
        SignatureState::OtherSigner
    } else if is_behind_now(rrsig.inception) > 0 {
        SignatureState::NotYetValid
    } else if is_behind_now(rrsig.expiration) < 0 {
        SignatureState::Expired
    } else if !zone.keys.has(rrsig.tag, rrsig.algorithm, false) {
        SignatureState::UnknownKey
    } else if rrsig.covered == Rtype::DNSKEY && !zone.keys.has(rrsig.tag, rrsig.algorithm, true) {
        SignatureState::UntrustedKey
    } else {
        SignatureState::NotChecked
    }
}

/// The signatures of a message of the way.
pub fn signatures_of<'a>(way: &'a Way<'a>, at: usize) -> impl Iterator<Item = Signature<'a>> {
    let records = Message::read(way.steps[at].message).ok().into_iter().flat_map(|it| it.records());
    records.filter_map(move |record| {
        let rrsig = record.rrsig()?;
        let state = match outcome(way, at, rrsig.signature) {
            Some(true) => SignatureState::Passed,
            Some(false) => SignatureState::Failed,
            None => why_not_checked(way, at, &rrsig),
        };
        Some(Signature { owner: record.owner, rrsig, state })
    })
}
