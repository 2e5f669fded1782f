//! Why a message proves what it proves: which of its verified records shows which name to exist or not (RFC 4035, 5.4; RFC 5155, 8).
//! The library judges; here is only told by which records.

use zermuita::message::{Message, Record, Rrsig};
use zermuita::{Checked, Judgement, Name, Question, Rtype, Verdict};

use super::{by_hashes, by_names};
use crate::text;

/// Octets of SHA-1.
pub const HASH: usize = 20;

/// A hash of a name.
pub type Hash = [u8; HASH];

/// A verified NSEC record.
pub struct Link {
    pub owner: Name,
    pub next: Name,
    pub types: Vec<Rtype>,
}

/// A verified NSEC3 record of SHA-1.
pub struct HashLink {
    pub owner: Hash,
    pub next: Hash,
    pub opts_out: bool,
    pub iterations: u16,
    pub salt: Vec<u8>,
    pub types: Vec<Rtype>,
}

/// What a name's hash is to the records.
#[derive(Clone, Copy, Debug, PartialEq, Eq)]
pub enum HashState {
    Matched,
    Covered,
    CoveredByOptOut,
    Neither,
}

/// A name that was hashed, and the owner of the record that matches or covers its hash.
pub struct Hashed {
    pub name: Name,
    pub hash: Hash,
    pub record: Option<Hash>,
    pub state: HashState,
}

/// Sentences, and the names that were hashed.
#[derive(Default)]
pub struct Reasons {
    pub because: Vec<String>,
    pub hashes: Vec<Hashed>,
}

/// A question that a message was judged for, with the denial records that are verified.
pub struct Facts<'a> {
    pub apex: &'a Name,
    pub name: &'a Name,
    pub rtype: Rtype,
    pub links: Vec<Link>,
    pub hash_links: Vec<HashLink>,
}

impl Facts<'_> {
    /// Whether types are those of a delegation at an owner (RFC 6840, 4.1).
    pub fn is_cut(&self, types: &[Rtype], owner: &Name) -> bool {
        types.contains(&Rtype::NS) && owner != self.apex
    }

    /// What the types at a name say of the type that is asked for; `record` is NSEC or NSEC3.
    pub fn types_told(&self, record: &str, owner: &Name, types: &[Rtype]) -> String {
        let joined = text::joined(types, ", ");
        if !types.contains(&self.rtype) && !types.contains(&Rtype::CNAME) {
            format!("{owner} exists and has no {}: the types of its {record} record are {joined}", self.rtype)
        } else {
            format!("the types of the record of {owner} are {joined}")
        }
    }
}

/// Reads an NSEC record (RFC 4034, 4.1).
fn link(message: &Message<'_>, record: &Record<'_>) -> Option<Link> {
    let (next, end) = Name::read(message.as_octets(), record.at).ok()?;
    let types = record.data.get(end.checked_sub(record.at)?..)?;
    Some(Link { owner: record.owner.clone(), next, types: text::types(types) })
}

/// Reads a hash in base32hex off the first label of a name.
fn hash_of(owner: &Name) -> Option<Hash> {
    let label = owner.labels().next().filter(|it| it.len() == 32)?;
    let mut hash = Hash::default();
    for (at, digit) in label.iter().enumerate() {
        let value = char::from(*digit).to_digit(32)?;
        for bit in 0..5 {
            let place = 5 * at + bit;
            hash[place / 8] |= ((value >> (4 - bit) & 1) as u8) << (7 - place % 8);
        }
    }
    Some(hash)
}

/// Reads an NSEC3 record of SHA-1 (RFC 5155, 3.2).
fn hash_link(apex: &Name, record: &Record<'_>) -> Option<HashLink> {
    let owner = hash_of(&record.owner)?;
    let (fixed, rest) = (record.data.get(..5)?, record.data.get(5..)?);
    let salt = rest.get(..usize::from(fixed[4]))?;
    let rest = &rest[salt.len()..];
    let next = rest.get(1..=HASH).filter(|_| usize::from(rest[0]) == HASH)?;
    (fixed[0] == 1 && record.owner.parent().as_ref() == Some(apex)).then(|| HashLink {
        owner,
        next: next.try_into().unwrap_or_default(),
        opts_out: fixed[1] & 1 != 0,
        iterations: u16::from_be_bytes([fixed[2], fixed[3]]),
        salt: salt.to_vec(),
        types: text::types(&rest[1 + HASH..]),
    })
}

/// The records that have places.
fn facts<'a>(apex: &'a Name, question: &'a Question, places: &[u32], message: &Message<'_>) -> Facts<'a> {
    let (mut links, mut hash_links) = (Vec::new(), Vec::new());
    for record in message.records().filter(|it| places.contains(&it.place)) {
        match record.rtype {
            Rtype::NSEC => links.extend(link(message, &record)),
            Rtype::NSEC3 => hash_links.extend(hash_link(apex, &record)),
            _ => {}
        }
    }
    Facts { apex, name: &question.name, rtype: question.rtype, links, hash_links }
}

/// A signature that passed over records of the question or an alias, and counts fewer labels than the name has.
fn expansion<'a>(message: &Message<'a>, question: &Question, checked: &Checked) -> Option<Rrsig<'a>> {
    let depth = question.name.depth();
    let signatures = message.records().filter(|it| it.owner == question.name).filter_map(|it| it.rrsig());
    let has_passed = |it: &Rrsig<'_>| checked.iter().find(|entry| entry.0.signature == it.signature).map_or(false, |entry| entry.1);
    signatures.into_iter().find(|it| {
        (it.covered == question.rtype || it.covered == Rtype::CNAME)
            && usize::from(it.labels) < depth
            && !question.name.is_wildcard()
            && has_passed(it)
    })
}

/// Tells why a judgement came out so.
pub fn reasons(apex: &Name, question: &Question, judgement: &Judgement, octets: &[u8], checked: &Checked) -> Reasons {
    let mut reasons = Reasons::default();
    let message = match Message::read(octets) {
        Ok(message) => message,
        Err(_) => return reasons,
    };
    let facts = facts(apex, question, &judgement.places, &message);
    match &judgement.verdict {
        Verdict::Records(_) => reasons.because.push(format!("a signature of {} {} passed", question.name, question.rtype)),
        Verdict::Alias(_) => reasons.because.push(format!("a signature of {} CNAME passed", question.name)),
        Verdict::Wildcard(_) | Verdict::WildcardAlias(_) | Verdict::OptOut => match expansion(&message, question, checked) {
            Some(rrsig) => tell_expansion(&facts, &rrsig, &mut reasons),
            None => tell_denial(&facts, &mut reasons),
        },
        Verdict::Nodata(_) | Verdict::Nxdomain | Verdict::WildcardNodata | Verdict::Delegated(_) => tell_denial(&facts, &mut reasons),
        _ => {}
    }
    reasons
}

fn tell_expansion(facts: &Facts<'_>, rrsig: &Rrsig<'_>, reasons: &mut Reasons) {
    let (name, covered, labels) = (facts.name, rrsig.covered, rrsig.labels);
    reasons.because.push(format!("{name} {covered} is a wildcard's: its signature, which passed, counts {labels} labels"));
    if facts.hash_links.is_empty() {
        by_names::tell_expanded(facts, labels.into(), &mut reasons.because);
    } else {
        by_hashes::tell_expanded(facts, labels.into(), reasons);
    }
}

fn tell_denial(facts: &Facts<'_>, reasons: &mut Reasons) {
    if facts.hash_links.is_empty() {
        by_names::tell(facts, &mut reasons.because);
    } else {
        by_hashes::tell(facts, reasons);
    }
}
