//! The chain of trust: from the anchors down, by DS sets that were proved. A DS set counts if a message of the parent was judged by the
//! parent's keys, which themselves count by the parent's DS set, and as long as the TTLs of that message allow. Nothing is asked for,
//! and nothing is guessed: what no message proved is not known.

use std::sync::Arc;

use zermuita::message::{flags, Rcode};
use zermuita::{DsSet, Name, Question, RecordData, Rtype, TrustAnchor, UnixTime};

use super::config::is_known;
use super::judge::{Finding, Judge, Octets, Trial};
use super::rewrite;
use super::seen::Seen;
use super::table::Table;

/// How many entries each table has at most.
const MOST_ENTRIES: usize = 65_536;

/// What is proved of a name.
#[derive(Clone)]
enum Cut {
    Signed(DsSet),
    Unsigned,
    Unchecked,
    None,
}

/// What vouches for a zone.
#[derive(Clone, Debug, PartialEq, Eq)]
pub enum Standing {
    /// No anchor is above the name.
    NoAnchor,
    /// The zone's DS set is proved.
    Signed(DsSet),
    /// It is proved that there is none.
    Unsigned,
    /// The zone's DS set is proved, and has no record of an algorithm and a digest that are checked here.
    Unchecked,
}

/// Where the way down to a name ends.
#[derive(Clone, Debug)]
pub struct Place {
    pub standing: Standing,
    /// The last zone on the way.
    pub apex: Name,
    /// The first name below the apex of which it is not proved that no zone begins there; none if it is proved of all.
    pub unseen: Option<Name>,
}

impl Place {
    /// Whether it is proved of all names on the way that no zone begins there.
    pub fn is_whole(&self) -> bool {
        self.unseen.is_none()
    }
}

/// What was seen of keys and DS sets, and what is proved by it.
pub struct Chain {
    anchors: Vec<TrustAnchor>,
    keys: Table<Octets>,
    pending: Table<Octets>,
    cuts: Table<Cut>,
}

impl Chain {
    pub fn new(anchors: Vec<TrustAnchor>, most_octets: usize) -> Self {
        let third = most_octets / 3;
        Chain {
            anchors,
            keys: Table::new(MOST_ENTRIES, third),
            pending: Table::new(MOST_ENTRIES, third),
            cuts: Table::new(MOST_ENTRIES, third),
        }
    }

    pub fn evicted(&self) -> u64 {
        self.keys.evicted() + self.pending.evicted() + self.cuts.evicted()
    }

    /// The answer of a zone for its keys. It counts if a judgement with the zone's DS set says so.
    pub fn keys(&mut self, apex: &Name, now: UnixTime) -> Option<Octets> {
        self.keys.get(apex, Rtype::DNSKEY, now)
    }

    /// Keeps what a message says of the DS set of a name, as an answer to the question for it, until it is judged.
    fn learn_ds(&mut self, seen: &Seen<'_>, name: &Name, now: UnixTime) {
        if let Some(answer) = rewrite::ds_answer(seen, name) {
            let (len, until) = (answer.len(), now + u64::from(seen.least_ttl(now)));
            self.pending.put(name, Rtype::DS, answer.into(), len, until);
        }
    }

    /// Keeps an answer for keys. One without signatures proves that the zone's keys cannot be trusted, unless others are there.
    fn learn_keys(&mut self, seen: &Seen<'_>, now: UnixTime) {
        let apex = &seen.question.name;
        let is_signed = seen.is_signed_by(None) && seen.has_answer(Some(apex), Rtype::DNSKEY);
        let is_of_server = seen.has(flags::AA) && seen.rcode() == Rcode::NOERROR;
        if is_signed || is_of_server && self.keys(apex, now).is_none() {
            let until = now + u64::from(seen.least_ttl(now));
            self.keys.put(apex, Rtype::DNSKEY, seen.octets().into(), seen.octets().len(), until);
        }
    }

    /// Takes what a message says of keys and of DS sets. Nothing of it counts before it is proved.
    pub fn learn(&mut self, seen: &Seen<'_>, now: UnixTime) {
        if seen.question.rtype == Rtype::DNSKEY {
            self.learn_keys(seen, now);
        } else if !seen.is_signed_by(None) {
            // Nothing is proved without a signature.
        } else if let Some(cut) = seen.referral() {
            self.learn_ds(seen, &cut, now);
        } else if seen.question.rtype == Rtype::DS {
            self.learn_ds(seen, &seen.question.name, now);
        }
    }

    fn keep(&mut self, name: &Name, cut: Cut, until: UnixTime) {
        let len = if let Cut::Signed(ds) = &cut { ds.as_octets().len() } else { 0 };
        self.cuts.put(name, Rtype::DS, cut, len, until);
    }

    /// Judges an answer for DS by the keys of the zone above, and keeps what it proves.
    fn prove(&mut self, judge: &Judge, place: &Place, ds: &DsSet, name: &Name, answer: Octets, times: (UnixTime, UnixTime)) {
        let (now, until) = times;
        let dnskey = match self.keys(&place.apex, now) {
            Some(keys) => keys,
            None => return,
        };
        let question = Question::new(name.clone(), Rtype::DS);
        let trial = Trial { apex: place.apex.clone(), ds: Some(ds.clone()), dnskey, answer, question, now };
        let cut = match judge.judge(&trial).finding {
            Finding::Records(records) => Some(cut_of(&records)),
            Finding::Nodata => cut_of_nodata(judge, trial),
            Finding::OptOut => Some(Cut::Unsigned),
            Finding::Nxdomain | Finding::Wildcard(_) | Finding::WildcardNodata => Some(Cut::None),
            _ => None,
        };
        if let Some(cut) = cut {
            self.keep(name, cut, until);
        }
    }

    /// Judges what waits for a name, if the zone above signed it and that zone's keys were seen.
    fn prove_pending(&mut self, judge: &Judge, place: &Place, ds: &DsSet, name: &Name, now: UnixTime) {
        let (answer, until) = match self.pending.get_until(name, Rtype::DS, now) {
            Some(it) => it,
            None => return,
        };
        let is_signed = Seen::read(&answer).map_or(false, |it| it.is_signed_by(Some(&place.apex)));
        if is_signed && self.keys(&place.apex, now).is_some() {
            self.prove(judge, place, ds, name, answer, (now, until));
            self.pending.remove(name, Rtype::DS);
        }
    }

    /// Goes a name further down.
    fn step(&mut self, judge: &Judge, name: &Name, now: UnixTime, mut place: Place) -> Place {
        if let Standing::Signed(ds) = place.standing.clone() {
            self.prove_pending(judge, &place, &ds, name, now);
        }
        let standing = match self.cuts.get(name, Rtype::DS, now) {
            Some(Cut::None) => return place,
            Some(Cut::Signed(ds)) => Standing::Signed(ds),
            Some(Cut::Unsigned) => Standing::Unsigned,
            Some(Cut::Unchecked) => Standing::Unchecked,
            None => {
                place.unseen.get_or_insert_with(|| name.clone());
                return place;
            }
        };
        Place { standing, apex: name.clone(), unseen: None }
    }

    /// The way down to the zone that answers a question: one for DS is answered by the zone above.
    pub fn descend(&mut self, judge: &Judge, question: &Question, now: UnixTime) -> Place {
        let labels = question.name.depth();
        let depth = if question.rtype == Rtype::DS { labels.saturating_sub(1) } else { labels };
        let target = question.name.ancestor(depth);
        let above = self.anchors.iter().filter(|it| target.is_at_or_below(&it.zone)).max_by_key(|it| it.zone.depth());
        let mut place = match above {
            Some(anchor) => Place { standing: Standing::Signed(anchor.ds.clone()), apex: anchor.zone.clone(), unseen: None },
            None => return Place { standing: Standing::NoAnchor, apex: Name::root(), unseen: None },
        };
        for count in place.apex.depth() + 1..=depth {
            if !matches!(place.standing, Standing::Signed(_)) {
                break;
            }
            place = self.step(judge, &question.name.ancestor(count), now, place);
        }
        place
    }
}

/// The records of a DS set that count. A zone of which none is left is insecure for a validator that knows no more (RFC 4035, 5.2); but
/// a resolver may know more, and be right.
fn cut_of(records: &RecordData) -> Cut {
    DsSet::from_records(records.iter().filter(|it| is_known(it))).map_or(Cut::Unchecked, Cut::Signed)
}

/// What NODATA for DS means: an unsigned zone if the record has type NS, else none (RFC 6840, 4.4). The question is made one for NS.
fn cut_of_nodata(judge: &Judge, mut trial: Trial) -> Option<Cut> {
    let mut answer = trial.answer.to_vec();
    let at = zermuita::message::HEADER + trial.question.name.as_wire().len();
    answer.get_mut(at..at + 2)?.copy_from_slice(&Rtype::NS.0.to_be_bytes());
    trial.answer = Arc::from(answer);
    trial.question.rtype = Rtype::NS;
    match judge.judge(&trial).finding {
        Finding::Delegated => Some(Cut::Unsigned),
        Finding::Nodata => Some(Cut::None),
        _ => None,
    }
}
