//! Denials that are remembered: verified NSEC records answer for other names (RFC 8198). A message is made of them, which the library
//! judges like any other.

use std::collections::{BTreeMap, HashMap};
use std::sync::{Arc, Mutex, PoisonError};
use std::time::Duration;

use tokio::time::Instant;
use zermuita::message::{flags, Rcode, HEADER};
use zermuita::{Case, DsSet, Name, Parent, Question, Rtype, Signatures, UnixTime, Verdict};

use super::draft::{is_made_up, is_of_apex};
use super::resolved::{Resolved, Rr, State};

/// What was proved beside a denial: the zone's DS set, its answer for its keys, the denial's records, and how long all of it lasts.
pub struct Proved<'a> {
    pub zone: &'a Name,
    pub ds: &'a DsSet,
    pub dnskey: &'a [u8],
    pub authority: &'a [Rr],
    pub ttl: u32,
    pub until: UnixTime,
}

/// Records with the signatures over them, up to a moment.
#[derive(Clone)]
struct Set {
    records: Arc<[Rr]>,
    end: Instant,
}

/// An NSEC record, its owner and the next name.
#[derive(Clone)]
struct Nsec {
    owner: Name,
    next: Name,
    set: Set,
}

/// What is kept of a zone. NSEC records stand in canonical order (RFC 4034, 6.1).
struct Zone {
    ds: DsSet,
    dnskey: Arc<[u8]>,
    end: Instant,
    until: UnixTime,
    soa: Set,
    nsecs: BTreeMap<Vec<u8>, Nsec>,
}

#[derive(Default)]
struct Kept {
    zones: HashMap<Name, Zone>,
    count: usize,
}

/// The denials of all zones, so many NSEC records at most.
pub struct Denials {
    room: usize,
    kept: Mutex<Kept>,
}

/// Octets in whose order names are in canonical order: labels from the root's on, in lower case, each behind an octet that is lower than
/// all in it.
fn sorted(name: &Name) -> Vec<u8> {
    let canonical = Name::from_wire(&name.to_canonical()).unwrap_or_else(|_| name.clone());
    let mut labels: Vec<_> = canonical.labels().collect();
    labels.reverse();
    let mut key = Vec::with_capacity(name.as_wire().len());
    for label in labels {
        key.push(0);
        for octet in label {
            match octet {
                0 | 1 => key.extend_from_slice(&[1, octet + 1]),
                _ => key.push(*octet),
            }
        }
    }
    key
}

/// The records of a type, and the signatures over them.
fn set_of(authority: &[Rr], owner: &Name, rtype: Rtype) -> Vec<Rr> {
    let covers = |it: &Rr| it.rtype == Rtype::RRSIG && it.data.get(..2) == Some(&rtype.0.to_be_bytes()[..]);
    authority.iter().filter(|it| it.owner == *owner && (it.rtype == rtype || covers(it))).cloned().collect()
}

/// The longest name that is above or at two names.
fn common(one: &Name, other: &Name) -> Name {
    let most = one.depth().min(other.depth());
    let depth = (0..=most).rev().find(|it| one.ancestor(*it) == other.ancestor(*it)).unwrap_or(0);
    one.ancestor(depth)
}

impl Zone {
    /// The NSEC record that is at a name, or that covers it: the last one of the zone leads to its apex.
    fn covering(&self, apex: &Name, name: &Name, now: Instant) -> Option<&Nsec> {
        let key = sorted(name);
        let (at, nsec) = self.nsecs.range(..=key.clone()).next_back()?;
        let is_next_behind = nsec.next == *apex || key < sorted(&nsec.next);
        ((*at == key || is_next_behind) && nsec.set.end > now).then(|| nsec)
    }

    /// The records that deny a name: those at or over it, and over the wildcard below its closest encloser. And the response code.
    fn denying(&self, apex: &Name, name: &Name, now: Instant) -> Option<(Vec<Nsec>, Rcode)> {
        let first = self.covering(apex, name, now)?.clone();
        if first.owner == *name || first.next.is_below(name) {
            return Some((vec![first], Rcode::NOERROR));
        }
        let (left, right) = (common(name, &first.owner), common(name, &first.next));
        let encloser = if left.depth() >= right.depth() { left } else { right };
        let second = self.covering(apex, &encloser.wildcard()?, now)?.clone();
        let is_wildcard = second.owner.is_wildcard() && second.owner.parent().as_ref() == Some(&encloser);
        let rcode = if is_wildcard { Rcode::NOERROR } else { Rcode::NXDOMAIN };
        let both = if second.owner == first.owner { vec![first] } else { vec![first, second] };
        Some((both, rcode))
    }
}

/// A response of records in the authority section.
fn message(question: &Question, rcode: Rcode, records: &[&Rr]) -> Vec<u8> {
    let mut out = vec![0; HEADER];
    out[2..4].copy_from_slice(&(flags::QR | flags::AA | u16::from(rcode.0)).to_be_bytes());
    out[5] = 1;
    out[8..10].copy_from_slice(&(records.len() as u16).to_be_bytes());
    out.extend_from_slice(question.name.as_wire());
    out.extend_from_slice(&[question.rtype.0.to_be_bytes(), 1u16.to_be_bytes()].concat());
    for it in records {
        out.extend_from_slice(it.owner.as_wire());
        out.extend_from_slice(&[it.rtype.0.to_be_bytes(), 1u16.to_be_bytes()].concat());
        out.extend_from_slice(&it.ttl.to_be_bytes());
        out.extend_from_slice(&(it.data.len() as u16).to_be_bytes());
        out.extend_from_slice(&it.data);
    }
    out
}

/// A denial that is to be judged: the records, the zone's proof, and until when all of it lasts.
struct Made {
    zone: Name,
    ds: DsSet,
    dnskey: Arc<[u8]>,
    sets: Vec<Set>,
    rcode: Rcode,
    end: Instant,
    until: UnixTime,
}

impl Kept {
    fn drop_expired(&mut self, now: Instant) {
        for zone in self.zones.values_mut() {
            zone.nsecs.retain(|_, it| it.set.end > now);
        }
        self.zones.retain(|_, it| it.end > now && !it.nsecs.is_empty());
        self.count = self.zones.values().map(|it| it.nsecs.len()).sum();
    }

    /// Makes room for more: drops what has expired, and then zones.
    fn make_room(&mut self, room: usize, more: usize, now: Instant) {
        if self.count + more <= room {
            return;
        }
        self.drop_expired(now);
        while self.count + more > room {
            let first = match self.zones.keys().next() {
                Some(first) => first.clone(),
                None => return,
            };
            self.count -= self.zones.remove(&first).map_or(0, |it| it.nsecs.len());
        }
    }

    /// The denial of the lowest zone that is known. A question for DS is answered by the zone above (RFC 4035, 3.1.4.1).
    fn made(&self, question: &Question, now: Instant) -> Option<Made> {
        let above = u8::from(question.rtype == Rtype::DS);
        let ancestors = (0..=question.name.depth().checked_sub(above.into())?).rev().map(|it| question.name.ancestor(it));
        let (apex, zone) = ancestors.filter_map(|it| self.zones.get_key_value(&it)).next()?;
        let (nsecs, rcode) = zone.denying(apex, &question.name, now)?;
        let sets: Vec<_> = std::iter::once(zone.soa.clone()).chain(nsecs.into_iter().map(|it| it.set)).collect();
        let end = sets.iter().map(|it| it.end).chain([zone.end]).min()?;
        let (ds, dnskey, until) = (zone.ds.clone(), zone.dnskey.clone(), zone.until);
        (end > now).then(|| Made { zone: apex.clone(), ds, dnskey, sets, rcode, end, until })
    }
}

impl Denials {
    pub fn new(room: usize) -> Self {
        Denials { room, kept: Mutex::default() }
    }

    fn with<T>(&self, work: impl FnOnce(&mut Kept) -> T) -> T {
        work(&mut self.kept.lock().unwrap_or_else(PoisonError::into_inner))
    }

    /// How many NSEC records are kept.
    #[cfg(test)]
    fn len(&self) -> usize {
        self.with(|it| it.count)
    }

    /// Keeps the NSEC records of a denial, which are verified. Those that were made for a question say nothing of others (RFC 9824, 6).
    pub fn learn(&self, proved: &Proved<'_>) {
        let now = Instant::now();
        let end = now + Duration::from_secs(proved.ttl.into());
        let kept = |records: Vec<Rr>| Set { records: records.into(), end };
        let is_signed = |it: &Vec<Rr>| it.iter().any(|it| it.rtype == Rtype::RRSIG);
        let soa = Some(set_of(proved.authority, proved.zone, Rtype::SOA)).filter(is_signed);
        let nsecs: Vec<_> = proved
            .authority
            .iter()
            .filter(|it| it.rtype == Rtype::NSEC && it.owner.is_at_or_below(proved.zone) && !is_made_up(&it.data))
            .filter_map(|it| {
                let records = Some(set_of(proved.authority, &it.owner, Rtype::NSEC)).filter(is_signed)?;
                Some(Nsec { owner: it.owner.clone(), next: Name::take(&it.data).ok()?.0, set: kept(records) })
            })
            .collect();
        let soa = match soa.filter(|_| proved.ttl > 0 && !nsecs.is_empty() && nsecs.len() <= self.room) {
            Some(soa) => kept(soa),
            None => return,
        };
        self.with(|all| {
            all.make_room(self.room, nsecs.len(), now);
            let zone = Zone { ds: proved.ds.clone(), dnskey: proved.dnskey.into(), end, until: proved.until, soa, nsecs: BTreeMap::new() };
            match all.zones.get_mut(proved.zone).filter(|it| it.ds == zone.ds && it.dnskey == zone.dnskey) {
                Some(old) => {
                    (old.end, old.until, old.soa) = (old.end.max(end), old.until.max(zone.until), zone.soa);
                }
                None => {
                    let old = all.zones.insert(proved.zone.clone(), zone);
                    all.count -= old.map_or(0, |it| it.nsecs.len());
                }
            }
            if let Some(zone) = all.zones.get_mut(proved.zone) {
                let added = nsecs.into_iter().filter(|it| zone.nsecs.insert(sorted(&it.owner), it.clone()).is_none()).count();
                all.count += added;
            }
        });
    }

    /// The answer to a question that records of other answers deny, if the library says that they do.
    pub fn answer<S: Signatures + ?Sized>(&self, question: &Question, signatures: &S, iterations: u16) -> Option<Resolved> {
        let (now, clock) = (Instant::now(), crate::out::now());
        let made = self.with(|it| it.made(question, now)).filter(|it| clock <= it.until)?;
        let records: Vec<_> = made.sets.iter().flat_map(|it| it.records.iter()).collect();
        let octets = message(question, made.rcode, &records);
        let mut case = Case::new(&made.zone, Parent::Ds(&made.ds), &made.dnskey, &octets, question, clock);
        case.limits.nsec3_iterations = iterations;
        let judgement = case.judge(signatures).ok()?;
        // At a delegation that is of the zone below (RFC 6840, 4.4).
        if question.rtype == Rtype::DS && records.iter().any(|it| it.owner == question.name && is_of_apex(it.rtype, &it.data)) {
            return None;
        }
        let rcode = match judgement.verdict {
            Verdict::Nxdomain => Rcode::NXDOMAIN,
            Verdict::Nodata(_) | Verdict::WildcardNodata => Rcode::NOERROR,
            _ => return None,
        };
        let left = u32::try_from(made.end.saturating_duration_since(now).as_secs()).unwrap_or(u32::MAX);
        let until = judgement.until.min(made.until);
        let ttl = judgement.ttl.min(left).min(u32::try_from(until.saturating_sub(clock)).unwrap_or(u32::MAX));
        let authority = records.into_iter().cloned().map(|it| Rr { ttl: it.ttl.min(ttl), ..it }).collect();
        let answer = Vec::new();
        Some(Resolved { state: State::Secure, rcode, answer, authority, extended: None, made: now, ttl, until })
    }
}

#[cfg(test)]
mod tests {
    use super::*;

    fn name(text: &str) -> Name {
        text.parse().unwrap()
    }

    #[test]
    fn the_order_is_canonical() {
        // RFC 4034, 6.1.
        let names = ["example", "a.example", "yljkjljk.a.example", "Z.a.example", "zABC.a.EXAMPLE", "z.example", r"\001.z.example",
            "*.z.example", r"\200.z.example"];
        let keys: Vec<_> = names.iter().map(|it| sorted(&name(it))).collect();
        assert!(keys.windows(2).all(|it| it[0] < it[1]));
        assert!(sorted(&name(r"a\000.b")) < sorted(&name(r"a\001.b")) && sorted(&name(r"a\001.b")) < sorted(&name(r"a\002.b")));
    }

    fn nsec(owner: &str, next: &str) -> Vec<Rr> {
        let rr = |rtype, data| Rr { owner: name(owner), rtype, ttl: 60, data };
        vec![
            rr(Rtype::NSEC, [name(next).as_wire(), b"\0\x01\x40"].concat()),
            rr(Rtype::RRSIG, [&Rtype::NSEC.0.to_be_bytes()[..], &[0; 20]].concat()),
        ]
    }

    fn learnt(denials: &Denials, ds: &str, sets: &[(&str, &str)]) {
        let apex = name("z");
        let mut authority: Vec<_> = sets.iter().flat_map(|it| nsec(it.0, it.1)).collect();
        let rr = |rtype, data| Rr { owner: apex.clone(), rtype, ttl: 60, data };
        authority.extend([rr(Rtype::SOA, vec![0; 22]), rr(Rtype::RRSIG, [&Rtype::SOA.0.to_be_bytes()[..], &[0; 20]].concat())]);
        let ds: DsSet = ds.parse().unwrap();
        denials.learn(&Proved { zone: &apex, ds: &ds, dnskey: b"keys", authority: &authority, ttl: 60, until: u64::MAX });
    }

    #[test]
    fn names_are_covered_by_what_was_kept() {
        let denials = Denials::new(8);
        learnt(&denials, "1 13 2 E0", &[("z", "b.z"), ("c.z", "z")]);
        let owners = |text: &str| {
            let question = Question::new(name(text), Rtype::A);
            let made = denials.with(|it| it.made(&question, Instant::now()));
            made.map(|it| (it.sets.len() - 1, it.rcode))
        };
        for (text, told) in [
            ("a.z", Some((1, Rcode::NXDOMAIN))),
            ("d.z", Some((2, Rcode::NXDOMAIN))),
            ("x.d.z", Some((2, Rcode::NXDOMAIN))),
            ("c.z", Some((1, Rcode::NOERROR))),
            ("x.c.z", Some((1, Rcode::NXDOMAIN))),
            ("b.z", None),
            ("bb.z", None),
            ("y", None),
        ] {
            assert_eq!(owners(text), told, "{text}");
        }
        let ds = Question::new(name("z"), Rtype::DS);
        assert!(denials.with(|it| it.made(&ds, Instant::now())).is_none());
        // Other keys or another DS set: what was kept is of no use.
        learnt(&denials, "2 13 2 E0", &[("c.z", "z")]);
        assert_eq!((denials.len(), owners("a.z")), (1, None));
    }

    #[test]
    fn records_that_were_made_for_a_question_are_not_kept() {
        let denials = Denials::new(8);
        let made = b"\0\x06\0\0\0\0\0\x03";
        assert!(is_made_up(&[name("b.z").as_wire(), made].concat()) && !is_made_up(&nsec("a.z", "b.z")[0].data));
        let mut authority = nsec("a.z", "b.z");
        authority[0].data = [name("b.z").as_wire(), made].concat();
        let rr = |rtype, data| Rr { owner: name("z"), rtype, ttl: 60, data };
        authority.extend([rr(Rtype::SOA, vec![0; 22]), rr(Rtype::RRSIG, [&Rtype::SOA.0.to_be_bytes()[..], &[0; 20]].concat())]);
        let ds: DsSet = "1 13 2 E0".parse().unwrap();
        denials.learn(&Proved { zone: &name("z"), ds: &ds, dnskey: b"keys", authority: &authority, ttl: 60, until: u64::MAX });
        assert_eq!(denials.len(), 0);
    }

    #[test]
    fn no_more_are_kept_than_there_is_room_for() {
        let denials = Denials::new(3);
        for at in 0..20 {
            learnt(&denials, "1 13 2 E0", &[(&format!("n{at}.z"), &format!("n{at}x.z"))]);
            assert!((1..=3).contains(&denials.len()));
        }
    }
}
