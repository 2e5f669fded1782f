//! What a message says beside its octets.

use zermuita::message::{flags, Message, Rcode, Record, Rrsig, Section};
use zermuita::{Name, Question, Rtype};

use crate::text;

/// Extended errors among the options of EDNS (RFC 8914, 2).
const EDE: u16 = 15;
/// Where an NSEC3 record has its flags, and the one of opt-out (RFC 5155, 3.1.2).
const OPT_OUT: u8 = 1;

/// A message with one question, whose records can all be read.
pub struct Seen<'a> {
    pub message: Message<'a>,
    pub question: Question,
    pub class: u16,
    pub records: Vec<Record<'a>>,
}

impl<'a> Seen<'a> {
    /// Reads a message. `None` if it, or one of its records, cannot be read.
    pub fn read(octets: &'a [u8]) -> Option<Self> {
        let message = Message::read(octets).ok()?;
        let (question, class) = message.question()?;
        let records: Vec<_> = message.records().collect();
        let all = message.counts().iter().map(|it| usize::from(*it)).sum::<usize>();
        (records.len() == all).then(|| Seen { message, question, class, records })
    }

    pub fn octets(&self) -> &'a [u8] {
        self.message.as_octets()
    }

    pub fn rcode(&self) -> Rcode {
        self.message.rcode()
    }

    pub fn has(&self, flag: u16) -> bool {
        self.message.flags() & flag != 0
    }

    /// Whether this is a whole response to a query of class IN.
    pub fn is_response(&self) -> bool {
        self.has(flags::QR) && !self.has(flags::TC) && self.message.opcode() == 0 && self.class == 1
    }

    fn of(&self, section: Section) -> impl Iterator<Item = &Record<'a>> {
        self.records.iter().filter(move |it| it.section == section)
    }

    /// The records of the answer and the authority section.
    pub fn told(&self) -> impl Iterator<Item = &Record<'a>> {
        self.records.iter().filter(|it| it.section != Section::Additional)
    }

    fn signatures(&self) -> impl Iterator<Item = (&Record<'a>, Rrsig<'a>)> {
        self.told().filter_map(|it| Some((it, it.rrsig()?)))
    }

    /// Whether there is a signature; by a signer, if one is named.
    pub fn is_signed_by(&self, signer: Option<&Name>) -> bool {
        self.signatures().any(|it| signer.map_or(true, |signer| it.1.signer == *signer))
    }

    /// Whether the answer section has a record of a type; of an owner, if one is named.
    pub fn has_answer(&self, owner: Option<&Name>, rtype: Rtype) -> bool {
        self.of(Section::Answer).any(|it| it.rtype == rtype && owner.map_or(true, |owner| it.owner == *owner))
    }

    fn has_soa(&self) -> bool {
        self.of(Section::Authority).any(|it| it.rtype == Rtype::SOA)
    }

    /// Whether there is an alias in the answer section.
    pub fn is_alias(&self) -> bool {
        self.has_answer(None, Rtype::CNAME) || self.has_answer(None, Rtype::DNAME)
    }

    /// Whether there is an alias, and nothing is said of what it leads to: no record of the type, and no SOA record.
    pub fn is_alias_alone(&self) -> bool {
        self.rcode() == Rcode::NOERROR && self.is_alias() && !self.has_soa() && !self.has_answer(None, self.question.rtype)
    }

    /// Whether an NSEC3 record says that unsigned delegations may be left out (RFC 5155, 6).
    pub fn has_opt_out(&self) -> bool {
        self.told().any(|it| it.rtype == Rtype::NSEC3 && it.data.get(1).map_or(false, |it| it & OPT_OUT != 0))
    }

    /// Whether an NSEC or NSEC3 record says that its name does not exist (RFC 9824, 3.1, 4).
    pub fn has_nxname(&self) -> bool {
        self.told().any(|it| text::types_in(it.rtype, it.data).contains(&Rtype::NXNAME))
    }

    /// The record of EDNS (RFC 6891).
    pub fn edns(&self) -> Option<&Record<'a>> {
        self.of(Section::Additional).find(|it| it.rtype == Rtype::OPT)
    }

    /// The codes of the extended errors.
    pub fn extended_errors(&self) -> Vec<u16> {
        let mut rest = self.edns().map_or(&[][..], |it| it.data);
        let mut codes = Vec::new();
        while let [code_high, code_low, len_high, len_low, behind @ ..] = rest {
            let len = usize::from(u16::from_be_bytes([*len_high, *len_low]));
            let option = match behind.get(..len) {
                Some(option) => option,
                None => break,
            };
            if let (EDE, [high, low, ..]) = (u16::from_be_bytes([*code_high, *code_low]), option) {
                codes.push(u16::from_be_bytes([*high, *low]));
            }
            rest = &behind[len..];
        }
        codes
    }

    /// The delegation that this refers to: the owner of its NS set.
    pub fn referral(&self) -> Option<Name> {
        let is_answer = self.has(flags::AA) || self.rcode() != Rcode::NOERROR || self.message.counts()[0] != 0;
        if is_answer || self.has_soa() {
            return None;
        }
        let cut = &self.of(Section::Authority).filter(|it| it.rtype == Rtype::NS).last()?.owner;
        self.question.name.is_at_or_below(cut).then(|| cut.clone())
    }

    /// For how many seconds all records may be kept together (RFC 4035, 5.3.3; RFC 2308, 5). A signature that has expired bounds
    /// nothing: what is made of it is kept, too.
    pub fn least_ttl(&self, now: u64) -> u32 {
        let of = |it: &Record<'a>| {
            let minimum = (it.rtype == Rtype::SOA).then(|| last_number(it.data)).flatten();
            let original = it.rrsig().map(|it| it.original_ttl);
            let left = it.rrsig().map(|it| it.expiration.wrapping_sub(now as u32)).filter(|it| *it <= i32::MAX as u32);
            [Some(it.ttl), minimum, original, left].into_iter().flatten().min().unwrap_or(it.ttl)
        };
        self.told().map(of).min().unwrap_or(0)
    }

    /// Whether a signature says something of a name: it is over records of the name in the answer section, over a DNAME record
    /// above it, or over records of the authority section. NSEC and NSEC3 records there say something of the name if the answer
    /// section has nothing of it; else they stand beside a wildcard of another name (RFC 4035, 3.1.3.3).
    fn is_of_name(&self, record: &Record<'a>, covered: Rtype, name: &Name, is_denied: bool) -> bool {
        if record.section == Section::Answer {
            return record.owner == *name || covered == Rtype::DNAME && name.is_at_or_below(&record.owner);
        }
        is_denied || !matches!(covered, Rtype::NSEC | Rtype::NSEC3)
    }

    /// The zone that signed what the message has of a name: the signer furthest down. What is signed of the aliases that led to the
    /// name says nothing of it. None if a SOA record says that an unsigned zone further down answered.
    pub fn signer_of(&self, name: &Name) -> Option<Name> {
        let is_denied = !self.of(Section::Answer).any(|it| it.owner == *name);
        let len = |it: &Name| it.as_wire().len();
        let found = self
            .signatures()
            .filter(|(record, rrsig)| {
                name.is_at_or_below(&rrsig.signer) && self.is_of_name(record, rrsig.covered, name, is_denied)
            })
            .map(|it| it.1.signer)
            .fold(None, |found: Option<Name>, it| match found {
                Some(found) if len(&found) >= len(&it) => Some(found),
                _ => Some(it),
            })?;
        let is_soa = |it: &&Record<'a>| it.rtype == Rtype::SOA && name.is_at_or_below(&it.owner);
        let denying = self.of(Section::Authority).filter(is_soa).last().map_or(0, |it| len(&it.owner));
        (denying <= len(&found)).then(|| found)
    }
}

/// The number in the last four octets of data.
fn last_number(data: &[u8]) -> Option<u32> {
    let last = data.get(data.len().checked_sub(4)?..)?;
    Some(u32::from_be_bytes(last.try_into().ok()?))
}

#[cfg(test)]
mod tests {
    use zermuita::message::query;

    use super::*;

    #[test]
    fn extended_errors_are_read() {
        let question = Question::new("a.test".parse().unwrap(), Rtype::A);
        let mut octets = query(1, flags::QR, &question, 1232);
        octets.truncate(octets.len() - 2);
        // An option of another kind, and two errors, the second with a text (RFC 8914, 2).
        let options = b"\0\x0a\0\x02xy\0\x0f\0\x02\0\x06\0\x0f\0\x05\0\x16abc";
        octets.extend_from_slice(&(options.len() as u16).to_be_bytes());
        octets.extend_from_slice(options);
        assert_eq!(Seen::read(&octets).unwrap().extended_errors(), [6, 22]);
        assert!(Seen::read(&octets[..octets.len() - 1]).is_none());
    }
}
