//! What NSEC records tell of a question.

use zermuita::{Name, Rtype};

use super::denial::{Facts, Link};
use crate::text;

/// Whether a record shows that nothing is between its owner and its next name, where a name would be.
fn covers(facts: &Facts<'_>, link: &Link, name: &Name) -> bool {
    let is_redirected = name.is_below(&link.owner) && link.types.contains(&Rtype::DNAME);
    link.owner < *name && (link.next == *facts.apex || *name < link.next) && !is_redirected
}

/// Whether a record has no types but RRSIG and NSEC: its owner may be made up (RFC 4470, 3).
fn is_bare(link: &Link) -> bool {
    link.types.iter().all(|it| matches!(*it, Rtype::RRSIG | Rtype::NSEC))
}

/// Whether its types are those of a name that exists.
fn has_more(link: &Link) -> bool {
    !is_bare(link) && !link.types.contains(&Rtype::NXNAME)
}

/// Whether the next name is the first below the owner, as an empty non-terminal's is (RFC 9824, 3.2).
fn leads_first(link: &Link) -> bool {
    link.next.labels().next() == Some(&b"\0"[..]) && link.next.parent().as_ref() == Some(&link.owner)
}

/// The closest encloser of a name that a record covers: the deepest name above it that is at or above the owner or the next name;
/// or above the owner, where this may be made up.
fn encloser_of(link: &Link, name: &Name) -> Name {
    let mut above = name.parent().unwrap_or_else(Name::root);
    let owner = link.owner.parent().filter(|_| !has_more(link)).unwrap_or_else(|| link.owner.clone());
    while !owner.is_at_or_below(&above) && !link.next.is_at_or_below(&above) {
        match above.parent() {
            Some(it) => above = it,
            None => break,
        }
    }
    above
}

fn covered(link: &Link, name: &Name) -> String {
    format!("{name} does not exist: the NSEC record of {} to {} covers it", link.owner, link.next)
}

fn led_below(link: &Link, name: &Name) -> String {
    format!("{name} exists without records: the NSEC record of {} leads to {}, below it", link.owner, link.next)
}

fn enclosed(encloser: &Name) -> String {
    format!("its closest encloser is {encloser}")
}

/// Of a record at the name itself, where this may be made up.
fn made_up(facts: &Facts<'_>, link: &Link) -> Option<Vec<String>> {
    (link.owner == *facts.name).then(|| vec![format!("the NSEC record of {} has no types but RRSIG and NSEC: the name may be made up", link.owner)])
}

fn types_of(link: &Link) -> String {
    format!("the types of its NSEC record are {}", text::joined(&link.types, ", "))
}

/// Of a record at the name itself, unless this may be made up.
fn at_owner(facts: &Facts<'_>, link: &Link) -> Option<Vec<String>> {
    let tells = has_more(link) || leads_first(link) || link.types.contains(&Rtype::NXNAME);
    (link.owner == *facts.name && tells).then(|| {
        vec![if link.types.contains(&Rtype::NXNAME) {
            format!("{} does not exist: its NSEC record lists NXNAME", facts.name)
        } else if facts.is_cut(&link.types, facts.name) && facts.rtype != Rtype::DS {
            format!("{} is a delegation: {}", facts.name, types_of(link))
        } else {
            facts.types_told("NSEC", facts.name, &link.types)
        }]
    })
}

/// Of a record of a delegation above the name.
fn below_cut(facts: &Facts<'_>, link: &Link) -> Option<Vec<String>> {
    let is_cut = facts.is_cut(&link.types, &link.owner) && facts.name.is_below(&link.owner) && !link.types.contains(&Rtype::DNAME);
    is_cut.then(|| vec![format!("{} is below the delegation {}: {}", facts.name, link.owner, types_of(link))])
}

/// Of the wildcard that would stand for the name.
fn at_wildcard(facts: &Facts<'_>, wildcard: &Name) -> Option<String> {
    facts.links.iter().find_map(|link| {
        if link.owner == *wildcard && has_more(link) {
            Some(facts.types_told("NSEC", wildcard, &link.types))
        } else if covers(facts, link, wildcard) {
            Some(if link.next.is_below(wildcard) { led_below(link, wildcard) } else { covered(link, wildcard) })
        } else {
            None
        }
    })
}

/// Of a record that covers the name.
fn at_gap(facts: &Facts<'_>, link: &Link) -> Option<Vec<String>> {
    if !covers(facts, link, facts.name) {
        return None;
    }
    if link.next.is_below(facts.name) {
        return Some(vec![led_below(link, facts.name)]);
    }
    let encloser = encloser_of(link, facts.name);
    let mut told = vec![covered(link, facts.name), enclosed(&encloser)];
    told.extend(encloser.wildcard().and_then(|it| at_wildcard(facts, &it)));
    Some(told)
}

/// What a record tells of the question, if it tells something.
type Telling = fn(&Facts<'_>, &Link) -> Option<Vec<String>>;

/// Tells what NSEC records say of the question.
pub fn tell(facts: &Facts<'_>, because: &mut Vec<String>) {
    let ways: [Telling; 4] = [at_owner, below_cut, at_gap, made_up];
    let told = ways.iter().find_map(|tell| facts.links.iter().find_map(|link| tell(facts, link)));
    because.extend(told.into_iter().flatten());
}

/// Tells what they say of a name for which a wildcard stands whose owner has so many labels.
pub fn tell_expanded(facts: &Facts<'_>, labels: usize, because: &mut Vec<String>) {
    for link in facts.links.iter().filter(|it| covers(facts, it, facts.name) && !it.next.is_below(facts.name)) {
        let encloser = encloser_of(link, facts.name);
        if encloser.depth() == labels {
            because.extend([covered(link, facts.name), enclosed(&encloser)]);
            return;
        }
    }
}
