//! Queries of clients, and responses to them.

use std::collections::HashMap;

use zermuita::message::{flags, Message, Rcode, HEADER};
use zermuita::{ExtendedError, Name, Question, Rtype};

use super::resolved::{Resolved, Rr, State};
use crate::net::UDP_SIZE;

/// The code of an extended error among the options of EDNS (RFC 8914, 2).
const EDE: u16 = 15;
/// Flags of EDNS: that signatures are wanted (RFC 3225), and that NXDOMAIN is taken beside NXNAME (RFC 9824, 5.1).
const DO: u16 = 0x8000;
const CO: u16 = 0x4000;
/// The least that a response by a datagram may have.
const LEAST: u16 = 512;

/// What EDNS says beside a query.
#[derive(Clone, Copy, Debug)]
struct Edns {
    size: u16,
    version: u8,
    flags: u16,
}

/// A query that can be answered.
#[derive(Clone, Debug)]
pub struct Query {
    id: u16,
    flags: u16,
    pub question: Question,
    class: u16,
    edns: Option<Edns>,
}

/// What becomes of octets that a client sent.
pub enum Heard {
    Query(Query),
    /// These octets are sent at once.
    Answer(Vec<u8>),
    /// Nothing is sent.
    Nothing,
}

/// A response without records: the header, and a question where there is one.
fn bare(octets: &[u8], rcode: Rcode) -> Vec<u8> {
    let (high, low) = (octets[2], rcode.0);
    // The operation and RD are the query's.
    let mut response = vec![octets[0], octets[1], 0x80 | high & 0x79, low];
    response.extend_from_slice(&[0; HEADER - 4]);
    response
}

fn is_meta(rtype: Rtype) -> bool {
    rtype == Rtype::OPT || rtype.0 == 0 || (128..255).contains(&rtype.0)
}

/// Reads what a client sent.
pub fn hear(octets: &[u8]) -> Heard {
    if octets.len() < HEADER || octets[2] & 0x80 != 0 {
        return Heard::Nothing;
    }
    let message = match Message::read(octets) {
        Ok(message) => message,
        Err(_) => return Heard::Answer(bare(octets, Rcode::FORMERR)),
    };
    if message.opcode() != 0 {
        return Heard::Answer(bare(octets, Rcode::NOTIMP));
    }
    let (question, class) = match message.question() {
        Some(it) => it,
        None => return Heard::Answer(bare(octets, Rcode::FORMERR)),
    };
    let expected = message.counts().iter().map(|it| usize::from(*it)).sum::<usize>();
    let records: Vec<_> = message.records().collect();
    let mut opts = records.iter().filter(|it| it.rtype == Rtype::OPT);
    let edns = opts.next().map(|it| Edns {
        size: it.class.clamp(LEAST, UDP_SIZE),
        version: (it.ttl >> 16) as u8,
        flags: it.ttl as u16 & (DO | CO),
    });
    if records.len() != expected || opts.next().is_some() {
        return Heard::Answer(bare(octets, Rcode::FORMERR));
    }
    let query = Query { id: message.id(), flags: message.flags(), question, class, edns };
    match () {
        () if edns.map_or(false, |it| it.version > 0) => Heard::Answer(query.empty(Rcode(16))),
        () if query.class != 1 => Heard::Answer(query.empty(Rcode::REFUSED)),
        () if query.question.rtype == Rtype::NXNAME => Heard::Answer(query.invalid()),
        () if is_meta(query.question.rtype) => Heard::Answer(query.empty(Rcode::NOTIMP)),
        () => Heard::Query(query),
    }
}

/// A message that is being written. Owners are compressed, letter by letter as they are.
struct Writer {
    octets: Vec<u8>,
    places: HashMap<Vec<u8>, u16>,
}

impl Writer {
    fn number(&mut self, number: u16) {
        self.octets.extend_from_slice(&number.to_be_bytes());
    }

    fn name(&mut self, name: &Name) {
        let mut rest = name.as_wire();
        while let [len @ 1..=63, ..] = rest {
            if let Some(place) = self.places.get(rest) {
                self.number(0xc000 | place);
                return;
            }
            if let Ok(place @ 0..=0x3fff) = u16::try_from(self.octets.len()) {
                self.places.insert(rest.to_vec(), place);
            }
            let label = 1 + usize::from(*len);
            self.octets.extend_from_slice(&rest[..label]);
            rest = &rest[label..];
        }
        self.octets.push(0);
    }

    fn record(&mut self, rr: &Rr, ttl: u32) {
        self.name(&rr.owner);
        self.number(rr.rtype.0);
        self.number(1);
        self.octets.extend_from_slice(&ttl.to_be_bytes());
        self.number(rr.data.len() as u16);
        self.octets.extend_from_slice(&rr.data);
    }
}

impl Query {
    /// Whether the client checks by itself.
    pub fn is_unchecked(&self) -> bool {
        self.flags & flags::CD != 0
    }

    fn has_flag(&self, flag: u16) -> bool {
        self.edns.map_or(false, |it| it.flags & flag != 0)
    }

    fn wants_dnssec(&self) -> bool {
        self.has_flag(DO)
    }

    /// What is said to this client: one that sets DO and not CO sees by NXNAME alone that there is no such name (RFC 9824, 5.1).
    fn rcode_of(&self, resolved: &Resolved) -> Rcode {
        match resolved.rcode {
            Rcode::NXDOMAIN if self.wants_dnssec() && !self.has_flag(CO) && resolved.has_nxname() => Rcode::NOERROR,
            rcode => rcode,
        }
    }

    /// How many octets a response by a datagram has at most.
    pub fn room(&self) -> usize {
        self.edns.map_or(LEAST, |it| it.size).into()
    }

    fn begun(&self, header: u16, rcode: Rcode) -> Writer {
        let mut writer = Writer { octets: Vec::with_capacity(512), places: HashMap::new() };
        writer.number(self.id);
        writer.number(flags::QR | flags::RA | self.flags & (flags::RD | flags::CD) | header | u16::from(rcode.0 & 15));
        for count in [1, 0, 0, 0] {
            writer.number(count);
        }
        writer.name(&self.question.name);
        writer.number(self.question.rtype.0);
        writer.number(self.class);
        writer
    }

    fn ended(&self, mut writer: Writer, counts: [usize; 2], rcode: Rcode, option: &[u8]) -> Vec<u8> {
        if let Some(edns) = self.edns {
            writer.octets.push(0);
            writer.number(Rtype::OPT.0);
            writer.number(UDP_SIZE);
            writer.octets.extend_from_slice(&[rcode.0 >> 4, 0]);
            writer.number(edns.flags);
            writer.number(option.len() as u16);
            writer.octets.extend_from_slice(option);
        }
        for (at, count) in [(6, counts[0]), (8, counts[1]), (10, usize::from(self.edns.is_some()))] {
            writer.octets[at..at + 2].copy_from_slice(&(count as u16).to_be_bytes());
        }
        writer.octets
    }

    /// A response without records.
    pub fn empty(&self, rcode: Rcode) -> Vec<u8> {
        self.ended(self.begun(0, rcode), [0, 0], rcode, &[])
    }

    /// The response to a query for a type that stands in denials alone (RFC 9824, 3.5).
    fn invalid(&self) -> Vec<u8> {
        let why = self.option(ExtendedError::INVALID_QUERY_TYPE, "");
        self.ended(self.begun(0, Rcode::FORMERR), [0, 0], Rcode::FORMERR, &why)
    }

    /// The option of EDNS that has an extended error, where the query has EDNS.
    fn option(&self, error: ExtendedError, text: &str) -> Vec<u8> {
        let numbers = [EDE, (2 + text.len()) as u16, error.0].map(u16::to_be_bytes).concat();
        self.edns.map_or_else(Vec::new, |_| [&numbers[..], text.as_bytes()].concat())
    }

    /// The response to the query; one that is cut off where it has more octets than there is room for.
    pub fn answered(&self, resolved: &Resolved, room: usize) -> Vec<u8> {
        let asks_ad = self.flags & flags::AD != 0 || self.wants_dnssec();
        let ad = if resolved.state == State::Secure && asks_ad && !self.is_unchecked() { flags::AD } else { 0 };
        let option = resolved.extended.as_ref().map_or_else(Vec::new, |(code, text)| self.option(*code, text));
        let rcode = self.rcode_of(resolved);
        let age = u32::try_from(resolved.made.elapsed().as_secs()).unwrap_or(u32::MAX);
        let mut writer = self.begun(ad, rcode);
        let mut counts = [0, 0];
        for (count, records) in counts.iter_mut().zip([&resolved.answer, &resolved.authority]) {
            for rr in records.iter().filter(|it| self.is_for(it)) {
                writer.record(rr, rr.ttl.saturating_sub(age));
                *count += 1;
            }
        }
        let whole = self.ended(writer, counts, rcode, &option);
        if whole.len() <= room {
            return whole;
        }
        self.ended(self.begun(flags::TC, rcode), [0, 0], rcode, &[])
    }

    /// Whether a record is for this client: those of DNSSEC are for one that asks for them.
    fn is_for(&self, rr: &Rr) -> bool {
        let is_of_dnssec = matches!(rr.rtype, Rtype::RRSIG | Rtype::NSEC | Rtype::NSEC3);
        !is_of_dnssec || self.wants_dnssec() || rr.rtype == self.question.rtype
    }
}

#[cfg(test)]
mod tests {
    use tokio::time::Instant;
    use zermuita::message::query;

    use super::*;

    fn question(name: &str, rtype: Rtype) -> Question {
        Question::new(name.parse().unwrap(), rtype)
    }

    fn heard(octets: &[u8]) -> Query {
        match hear(octets) {
            Heard::Query(query) => query,
            _ => panic!("no query"),
        }
    }

    #[test]
    fn queries_are_heard() {
        let octets = query(7, flags::RD, &question("www.Example", Rtype::A), 4096);
        let query = heard(&octets);
        assert!(query.wants_dnssec() && !query.is_unchecked() && query.room() == usize::from(UDP_SIZE));
        for len in 0..octets.len() {
            match hear(&octets[..len]) {
                Heard::Nothing => assert!(len < HEADER),
                Heard::Answer(it) => assert_eq!(it[3] & 15, Rcode::FORMERR.0),
                Heard::Query(_) => panic!("{len}"),
            }
        }
        let answer = |question: &Question| match hear(&octets_of(question)) {
            Heard::Answer(it) => it[3] & 15,
            _ => 255,
        };
        assert_eq!(answer(&question("a", Rtype::AXFR)), Rcode::NOTIMP.0);
    }

    #[test]
    fn nxname_is_not_asked_for() {
        let mut octets = octets_of(&question("a", Rtype::NXNAME));
        let said = |octets: &[u8]| match hear(octets) {
            Heard::Answer(it) => it,
            _ => Vec::new(),
        };
        let answer = said(&octets);
        assert!(answer[3] & 15 == Rcode::FORMERR.0 && answer.ends_with(b"\0\x0f\0\x02\0\x1e"));
        // Without EDNS there is no room for an extended error.
        octets.truncate(octets.len() - 11);
        octets[11] = 0;
        assert_eq!(said(&octets)[3] & 15, Rcode::FORMERR.0);
    }

    #[test]
    fn nxdomain_beside_nxname_is_for_clients_that_take_it() {
        let mut octets = octets_of(&question("a.example", Rtype::A));
        let flags_at = octets.len() - 4;
        let owner: Name = "a.example".parse().unwrap();
        let mut data = b"\x01\0\x01a\x07example\0".to_vec();
        data.extend_from_slice(b"\0\x11\0\0\0\0\0\x03\0\0\0\0\0\0\0\0\0\0\x80");
        let nsec = Rr { owner, rtype: Rtype::NSEC, ttl: 60, data };
        let mut resolved = Resolved {
            state: State::Secure,
            rcode: Rcode::NXDOMAIN,
            answer: vec![],
            authority: vec![nsec],
            extended: None,
            made: Instant::now(),
            ttl: 60,
            until: u64::MAX,
        };
        let mut rcode = |high: u8, resolved: &Resolved| {
            octets[flags_at] = high;
            let query = heard(&octets);
            let answer = query.answered(resolved, query.room());
            (answer[3] & 15, answer[answer.len() - 4])
        };
        assert_eq!(rcode(0x80, &resolved), (Rcode::NOERROR.0, 0x80));
        assert_eq!(rcode(0xc0, &resolved), (Rcode::NXDOMAIN.0, 0xc0));
        assert_eq!(rcode(0, &resolved), (Rcode::NXDOMAIN.0, 0));
        resolved.authority[0].data.truncate(21);
        assert_eq!(rcode(0x80, &resolved), (Rcode::NXDOMAIN.0, 0x80));
    }

    fn octets_of(question: &Question) -> Vec<u8> {
        query(7, flags::RD, question, 1232)
    }

    #[test]
    fn responses_have_what_is_asked_for() {
        let owner: Name = "www.example".parse().unwrap();
        let rr = |rtype, len| Rr { owner: owner.clone(), rtype, ttl: 60, data: vec![0; len] };
        let mut resolved = Resolved {
            state: State::Secure,
            rcode: Rcode::NOERROR,
            answer: vec![rr(Rtype::A, 4), rr(Rtype::RRSIG, 90)],
            authority: vec![],
            extended: None,
            made: Instant::now(),
            ttl: 60,
            until: u64::MAX,
        };
        let query = heard(&octets_of(&question("www.example", Rtype::A)));
        let octets = query.answered(&resolved, query.room());
        let message = Message::read(&octets).unwrap();
        assert_eq!((message.flags() & flags::AD, message.records().count()), (flags::AD, 3));
        resolved.answer[1].data = vec![0; 3000];
        let octets = query.answered(&resolved, query.room());
        assert_eq!((octets[2] & 2, Message::read(&octets).unwrap().records().count()), (2, 1));
        let failed = Resolved::failed(State::Bogus, Some(ExtendedError::SIGNATURE_EXPIRED), "why".to_owned(), 5);
        let octets = query.answered(&failed, query.room());
        assert!(octets.ends_with(b"\0\x0f\0\x05\0\x07why") && octets[3] & 15 == 2);
    }
}
