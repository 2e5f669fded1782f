//! What NSEC3 records tell of a question.

use openssl::hash::{hash, MessageDigest};
use zermuita::{Name, Rtype};

use super::denial::{Facts, Hash, HashLink, HashState, Hashed, Reasons};
use crate::text;

/// Hashes a name with the salt and the iterations of the records, which all have the same (RFC 5155, 5).
fn hash_name(facts: &Facts<'_>, name: &Name) -> Option<Hash> {
    let link = facts.hash_links.first()?;
    let mut octets = name.to_canonical();
    for _ in 0..=link.iterations {
        octets.extend_from_slice(&link.salt);
        octets = hash(MessageDigest::sha1(), &octets).ok()?.to_vec();
    }
    octets.try_into().ok()
}

fn covers(link: &HashLink, hash: &Hash) -> bool {
    let (is_behind, is_before, is_last) = (link.owner < *hash, *hash < link.next, link.owner >= link.next);
    is_behind && is_before || is_last && (is_behind || is_before)
}

/// Hashes a name, finds the record that matches or covers its hash, and keeps both.
fn look_up<'a>(facts: &'a Facts<'_>, name: &Name, reasons: &mut Reasons) -> (HashState, Option<&'a HashLink>) {
    let hash = match hash_name(facts, name) {
        Some(hash) => hash,
        None => return (HashState::Neither, None),
    };
    let matching = facts.hash_links.iter().find(|it| it.owner == hash);
    let covering = || facts.hash_links.iter().find(|it| covers(it, &hash));
    let (state, found) = match (matching, covering()) {
        (Some(link), _) => (HashState::Matched, Some(link)),
        (None, Some(link)) if link.opts_out => (HashState::CoveredByOptOut, Some(link)),
        (None, Some(link)) => (HashState::Covered, Some(link)),
        (None, None) => (HashState::Neither, None),
    };
    reasons.hashes.push(Hashed { name: name.clone(), hash, record: found.map(|it| it.owner), state });
    (state, found)
}

fn types_of(link: &HashLink) -> String {
    format!("the types of its NSEC3 record are {}", text::joined(&link.types, ", "))
}

/// That a name whose hash is covered does not exist, or that opt-out leaves it open.
fn gap(name: &Name, state: HashState) -> Option<String> {
    match state {
        HashState::Covered => Some(format!("{name} does not exist: an NSEC3 record covers its hash")),
        HashState::CoveredByOptOut => {
            Some(format!("an unsigned delegation may be at {name}: the NSEC3 record that covers its hash opts out"))
        }
        _ => None,
    }
}

/// Tells of the record that matches the name itself.
fn tell_at_name(facts: &Facts<'_>, link: &HashLink, reasons: &mut Reasons) {
    reasons.because.push(if facts.is_cut(&link.types, facts.name) && facts.rtype != Rtype::DS {
        format!("{} is a delegation: {}", facts.name, types_of(link))
    } else {
        facts.types_told("NSEC3", facts.name, &link.types)
    });
}

/// Tells of the wildcard that would stand for the name.
fn tell_wildcard(facts: &Facts<'_>, encloser: &Name, reasons: &mut Reasons) {
    let wildcard = match encloser.wildcard() {
        Some(wildcard) => wildcard,
        None => return,
    };
    let told = match look_up(facts, &wildcard, reasons) {
        (HashState::Matched, Some(link)) => Some(facts.types_told("NSEC3", &wildcard, &link.types)),
        (state, _) => gap(&wildcard, state),
    };
    reasons.because.extend(told);
}

/// Tells of the record that matches the closest encloser, and of the next closer name (RFC 5155, 1.3).
fn tell_from_encloser(facts: &Facts<'_>, link: &HashLink, encloser: &Name, closer: HashState, reasons: &mut Reasons) {
    if facts.is_cut(&link.types, encloser) && !link.types.contains(&Rtype::DNAME) {
        reasons.because.push(format!("the name is below the delegation {encloser}: {}", types_of(link)));
        return;
    }
    let told = format!("the closest encloser that the chain shows is {encloser}: an NSEC3 record matches its hash");
    reasons.because.push(told);
    reasons.because.extend(gap(&facts.name.ancestor(encloser.depth() + 1), closer));
    if closer == HashState::Covered {
        tell_wildcard(facts, encloser, reasons);
    }
}

/// Tells what NSEC3 records say of the question.
pub fn tell(facts: &Facts<'_>, reasons: &mut Reasons) {
    let (apex, own) = (facts.apex.depth(), facts.name.depth());
    let mut closer = HashState::Neither;
    for depth in (apex..=own).rev() {
        let name = facts.name.ancestor(depth);
        match look_up(facts, &name, reasons) {
            (HashState::Matched, Some(link)) if depth == own => return tell_at_name(facts, link, reasons),
            (HashState::Matched, Some(link)) => return tell_from_encloser(facts, link, &name, closer, reasons),
            (state, _) => closer = state,
        }
    }
}

/// Tells what they say of a name for which a wildcard stands whose owner has so many labels.
pub fn tell_expanded(facts: &Facts<'_>, labels: usize, reasons: &mut Reasons) {
    let closer = facts.name.ancestor(labels + 1);
    let (state, _) = look_up(facts, &closer, reasons);
    reasons.because.extend(gap(&closer, state));
}
