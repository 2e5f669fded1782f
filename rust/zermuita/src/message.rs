//! Messages of the DNS, record by record (RFC 1035, 4), as a caller of the judge needs them: the judge itself reads them whole.
#![forbid(unsafe_code)]

use crate::name::NameError;
use crate::{Name, Question, Rtype};

/// How many octets a header has.
pub const HEADER: usize = 12;

/// The bits of a header's second number.
pub mod flags {
    /// It is a response.
    pub const QR: u16 = 0x8000;
    /// Its server has the zone.
    pub const AA: u16 = 0x0400;
    /// It is cut off.
    pub const TC: u16 = 0x0200;
    /// Recursion is desired.
    pub const RD: u16 = 0x0100;
    /// Recursion is available.
    pub const RA: u16 = 0x0080;
    /// The data are authentic (RFC 4035, 3.2.3).
    pub const AD: u16 = 0x0020;
    /// Checking is disabled (RFC 4035, 3.2.2).
    pub const CD: u16 = 0x0010;
}

/// A response code (RFC 1035, 4.1.1; RFC 6895, 2.3); as text its name.
#[derive(Clone, Copy, Debug, PartialEq, Eq, Hash)]
pub struct Rcode(pub u8);

#[allow(missing_docs)]
impl Rcode {
    pub const NOERROR: Rcode = Rcode(0);
    pub const FORMERR: Rcode = Rcode(1);
    pub const SERVFAIL: Rcode = Rcode(2);
    pub const NXDOMAIN: Rcode = Rcode(3);
    pub const NOTIMP: Rcode = Rcode(4);
    pub const REFUSED: Rcode = Rcode(5);
    pub const YXDOMAIN: Rcode = Rcode(6);

    /// Whether it is of an answer; other codes are failures of the server.
    #[must_use]
    pub fn is_answer(self) -> bool {
        matches!(self, Rcode::NOERROR | Rcode::NXDOMAIN | Rcode::YXDOMAIN)
    }
}

impl std::fmt::Display for Rcode {
    fn fmt(&self, f: &mut std::fmt::Formatter<'_>) -> std::fmt::Result {
        const NAMES: [&str; 11] = [
            "NOERROR", "FORMERR", "SERVFAIL", "NXDOMAIN", "NOTIMP", "REFUSED", "YXDOMAIN", "YXRRSET", "NXRRSET", "NOTAUTH", "NOTZONE",
        ];
        match NAMES.get(usize::from(self.0)) {
            Some(name) => f.pad(name),
            None => write!(f, "RCODE {}", self.0),
        }
    }
}

/// Octets are no message.
#[derive(Clone, Copy, Debug, PartialEq, Eq, thiserror::Error)]
#[non_exhaustive]
pub enum MessageError {
    /// They end within the header, a question or a record.
    #[error("the message ends too early")]
    Short,
    /// A name cannot be read.
    #[error("a name in the message: {0}")]
    Name(#[from] NameError),
}

/// A section of a message.
#[derive(Clone, Copy, Debug, PartialEq, Eq, Hash)]
pub enum Section {
    /// What answers the question.
    Answer,
    /// What stands beside it, as the records of a denial.
    Authority,
    /// What is added.
    Additional,
}

/// A record of a message.
#[derive(Clone, Debug, PartialEq, Eq)]
pub struct Record<'a> {
    /// Its number, counted from 0 over all sections, as [`places`](crate::Judgement::places) count.
    pub place: u32,
    /// Where it stands.
    pub section: Section,
    /// Its owner.
    pub owner: Name,
    /// Its type.
    pub rtype: Rtype,
    /// Its class, which is 1 for IN.
    pub class: u16,
    /// Its TTL.
    pub ttl: u32,
    /// Where its data begin in the message.
    pub at: usize,
    /// Its data, whose names may have pointers into the message.
    pub data: &'a [u8],
}

/// The fields of an RRSIG record (RFC 4034, 3.1).
#[derive(Clone, Debug, PartialEq, Eq)]
#[allow(missing_docs)]
pub struct Rrsig<'a> {
    pub covered: Rtype,
    pub algorithm: u8,
    pub labels: u8,
    pub original_ttl: u32,
    pub expiration: u32,
    pub inception: u32,
    pub tag: u16,
    pub signer: Name,
    pub signature: &'a [u8],
}

/// A message, whose header and questions can be read.
#[derive(Clone, Copy, Debug, PartialEq, Eq)]
pub struct Message<'a> {
    octets: &'a [u8],
    records: usize,
    counts: [u16; 3],
}

fn number16(octets: &[u8], at: usize) -> Result<u16, MessageError> {
    match octets.get(at..).unwrap_or(&[]) {
        [high, low, ..] => Ok(u16::from_be_bytes([*high, *low])),
        _ => Err(MessageError::Short),
    }
}

fn number32(octets: &[u8], at: usize) -> Result<u32, MessageError> {
    Ok(u32::from(number16(octets, at)?) << 16 | u32::from(number16(octets, at + 2)?))
}

impl<'a> Message<'a> {
    /// Reads the header and the questions.
    ///
    /// # Errors
    ///
    /// If the octets end there, or a name cannot be read.
    pub fn read(octets: &'a [u8]) -> Result<Self, MessageError> {
        let count = |at| number16(octets, at);
        let (questions, counts) = (count(4)?, [count(6)?, count(8)?, count(10)?]);
        let mut records = HEADER;
        for _ in 0..questions {
            let (_, end) = Name::read(octets, records)?;
            number32(octets, end)?;
            records = end + 4;
        }
        Ok(Message { octets, records, counts })
    }

    /// The octets.
    #[must_use]
    pub fn as_octets(&self) -> &'a [u8] {
        self.octets
    }

    /// The number by which a response is known (RFC 1035, 4.1.1).
    #[must_use]
    pub fn id(&self) -> u16 {
        number16(self.octets, 0).unwrap_or(0)
    }

    /// The header's flags, with operation and response code.
    #[must_use]
    pub fn flags(&self) -> u16 {
        number16(self.octets, 2).unwrap_or(0)
    }

    /// The response code.
    #[must_use]
    pub fn rcode(&self) -> Rcode {
        Rcode((self.flags() & 15) as u8)
    }

    /// The operation, which is 0 for a query.
    #[must_use]
    pub fn opcode(&self) -> u8 {
        (self.flags() >> 11 & 15) as u8
    }

    /// How many records the sections have.
    #[must_use]
    pub fn counts(&self) -> [u16; 3] {
        self.counts
    }

    /// The question and its class, if there is exactly one.
    #[must_use]
    pub fn question(&self) -> Option<(Question, u16)> {
        if number16(self.octets, 4) != Ok(1) {
            return None;
        }
        let (name, end) = Name::read(self.octets, HEADER).ok()?;
        let (rtype, class) = (number16(self.octets, end).ok()?, number16(self.octets, end + 2).ok()?);
        Some((Question::new(name, Rtype(rtype)), class))
    }

    /// Whether this answers a question of class IN.
    #[must_use]
    pub fn answers(&self, question: &Question) -> bool {
        self.question().map_or(false, |(it, class)| it == *question && class == 1)
    }

    /// The records of all sections, up to one that cannot be read.
    pub fn records(&self) -> impl Iterator<Item = Record<'a>> {
        let (octets, counts) = (self.octets, self.counts.map(u32::from));
        let (mut at, mut place) = (self.records, 0);
        std::iter::from_fn(move || {
            let section = match place {
                it if it < counts[0] => Section::Answer,
                it if it < counts[0] + counts[1] => Section::Authority,
                it if it < counts.iter().sum() => Section::Additional,
                _ => return None,
            };
            let (record, end) = record(octets, at, place, section).ok()?;
            at = end;
            place += 1;
            Some(record)
        })
    }
}

fn record(octets: &[u8], at: usize, place: u32, section: Section) -> Result<(Record<'_>, usize), MessageError> {
    let (owner, at) = Name::read(octets, at)?;
    let (rtype, class) = (Rtype(number16(octets, at)?), number16(octets, at + 2)?);
    let (ttl, len) = (number32(octets, at + 4)?, usize::from(number16(octets, at + 8)?));
    let at = at + 10;
    let data = octets.get(at..at + len).ok_or(MessageError::Short)?;
    Ok((Record { place, section, owner, rtype, class, ttl, at, data }, at + len))
}

impl<'a> Record<'a> {
    /// The fields of an RRSIG record; none if it is not one.
    #[must_use]
    pub fn rrsig(&self) -> Option<Rrsig<'a>> {
        if self.rtype != Rtype::RRSIG {
            return None;
        }
        let (data, number) = (self.data, |at| number32(self.data, at).ok());
        let (signer, len) = Name::take(data.get(18..)?).ok()?;
        Some(Rrsig {
            covered: Rtype(number16(data, 0).ok()?),
            algorithm: *data.get(2)?,
            labels: *data.get(3)?,
            original_ttl: number(4)?,
            expiration: number(8)?,
            inception: number(12)?,
            tag: number16(data, 16).ok()?,
            signer,
            signature: data.get(18 + len..)?,
        })
    }

    /// The name that is the data of a record of NS, CNAME, PTR or DNAME.
    #[must_use]
    pub fn target(&self, message: &Message<'_>) -> Option<Name> {
        if !matches!(self.rtype, Rtype::NS | Rtype::CNAME | Rtype::PTR | Rtype::DNAME) {
            return None;
        }
        let (name, end) = Name::read(message.octets, self.at).ok()?;
        (end == self.at + self.data.len()).then(|| name)
    }

    /// The data without pointers, so that they can stand in another message. None if they cannot be read.
    #[must_use]
    pub fn expanded(&self, message: &Message<'_>) -> Option<Vec<u8>> {
        // How many octets stand before the first name, and how many names there are: the types whose names may have pointers
        // (RFC 3597, 4; RFC 1035, 3.3; RFC 2163; RFC 1183; RFC 2535).
        let (front, names) = match self.rtype {
            Rtype::NS | Rtype::CNAME | Rtype::PTR | Rtype::DNAME => (0, 1),
            Rtype(3 | 4 | 7 | 8 | 9) => (0, 1),
            Rtype::SOA | Rtype(14) | Rtype::RP => (0, 2),
            Rtype::MX | Rtype::AFSDB | Rtype(21) | Rtype::KX => (2, 1),
            Rtype(26) => (2, 2),
            Rtype::SRV => (6, 1),
            _ => return Some(self.data.to_vec()),
        };
        let mut data = self.data.get(..front)?.to_vec();
        let (mut at, end) = (self.at + front, self.at + self.data.len());
        for _ in 0..names {
            let (name, behind) = Name::read(message.octets, at).ok()?;
            data.extend_from_slice(name.as_wire());
            at = behind;
        }
        data.extend_from_slice(message.octets.get(at..end)?);
        Some(data)
    }
}

/// A query for a question, with EDNS and its bit DO (RFC 3225, RFC 6891).
#[must_use]
pub fn query(id: u16, header_flags: u16, question: &Question, udp_size: u16) -> Vec<u8> {
    let mut octets = Vec::with_capacity(HEADER + question.name.as_wire().len() + 15);
    for number in [id, header_flags, 1, 0, 0, 1] {
        octets.extend_from_slice(&number.to_be_bytes());
    }
    octets.extend_from_slice(question.name.as_wire());
    octets.extend_from_slice(&question.rtype.0.to_be_bytes());
    octets.extend_from_slice(&1u16.to_be_bytes());
    octets.push(0);
    octets.extend_from_slice(&Rtype::OPT.0.to_be_bytes());
    octets.extend_from_slice(&udp_size.to_be_bytes());
    octets.extend_from_slice(&[0, 0, 0x80, 0, 0, 0]);
    octets
}

#[cfg(test)]
mod tests {
    use super::*;

    #[test]
    fn a_query_is_read() {
        let question = Question::new("www.example".parse().unwrap(), Rtype::A);
        let octets = query(7, flags::RD, &question, 1232);
        let message = Message::read(&octets).unwrap();
        assert!(message.answers(&question));
        assert_eq!((message.id(), message.flags(), message.rcode()), (7, flags::RD, Rcode::NOERROR));
        let records: Vec<_> = message.records().map(|it| (it.section, it.rtype, it.class, it.ttl)).collect();
        assert_eq!(records, [(Section::Additional, Rtype::OPT, 1232, 0x8000)]);
    }

    #[test]
    fn no_octets_panic() {
        let question = Question::new("www.example".parse().unwrap(), Rtype::SOA);
        let whole = query(7, 0, &question, 1232);
        for len in 0..whole.len() {
            let read = Message::read(&whole[..len]).map(|it| it.records().count());
            assert!(read.map_or(true, |it| it == 0), "{len}");
        }
    }
}
