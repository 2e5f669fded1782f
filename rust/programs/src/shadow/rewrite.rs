//! Messages that are written anew. No verdict rests on how records are put together.

use zermuita::message::{flags, Record, HEADER};
use zermuita::{Name, Question, Rtype};

use super::seen::Seen;

/// How many octets a message has at most.
const MOST_OCTETS: usize = 65_535;

/// Where names stand in data that are signed in lower case (RFC 4034, 6.2): behind so many octets and character strings.
struct Form {
    octets: usize,
    strings: usize,
    names: usize,
}

fn form_of(rtype: Rtype) -> Option<Form> {
    let (octets, strings, names) = match rtype.0 {
        2..=5 | 7..=9 | 12 | 39 => (0, 0, 1),
        6 | 14 | 17 => (0, 0, 2),
        15 | 18 | 21 | 36 => (2, 0, 1),
        26 => (2, 0, 2),
        33 => (6, 0, 1),
        35 => (4, 3, 1),
        _ => return None,
    };
    Some(Form { octets, strings, names })
}

/// A record's data with names in full and in lower case.
fn canonical_data(octets: &[u8], record: &Record<'_>, form: &Form) -> Option<Vec<u8>> {
    let end = record.at + record.data.len();
    let all = octets.get(..end)?;
    let mut at = record.at + form.octets;
    for _ in 0..form.strings {
        at += 1 + usize::from(*all.get(at)?);
    }
    let mut data = all.get(record.at..at)?.to_vec();
    for _ in 0..form.names {
        let (name, behind) = Name::read(all, at).ok()?;
        data.extend_from_slice(&name.to_canonical());
        at = behind;
    }
    data.extend_from_slice(all.get(at..)?);
    Some(data)
}

/// A record's data with names in full, those that are signed so in lower case. Data that cannot be read are as they stand.
pub fn data_in_full(octets: &[u8], record: &Record<'_>) -> Vec<u8> {
    form_of(record.rtype).and_then(|form| canonical_data(octets, record, &form)).unwrap_or_else(|| record.data.to_vec())
}

/// Writes a record with its owner in full, and given data.
pub fn put_record(out: &mut Vec<u8>, record: &Record<'_>, data: &[u8]) {
    out.extend_from_slice(&record.owner.to_canonical());
    out.extend_from_slice(&record.rtype.0.to_be_bytes());
    out.extend_from_slice(&record.class.to_be_bytes());
    out.extend_from_slice(&record.ttl.to_be_bytes());
    out.extend_from_slice(&(data.len() as u16).to_be_bytes());
    out.extend_from_slice(data);
}

fn put_question(out: &mut Vec<u8>, question: &Question, class: u16) {
    out.extend_from_slice(&question.name.to_canonical());
    out.extend_from_slice(&question.rtype.0.to_be_bytes());
    out.extend_from_slice(&class.to_be_bytes());
}

fn put_in_full<'a>(out: &mut Vec<u8>, octets: &[u8], records: impl Iterator<Item = &'a Record<'a>>) -> u16 {
    records.fold(0, |count, it| {
        put_record(out, it, &data_in_full(octets, it));
        count + 1
    })
}

/// What a message says of the DS set of a name, as an answer to the question for it: the DS set, NSEC and NSEC3 records, and their
/// signatures. None if it has too many octets.
pub fn ds_answer(seen: &Seen<'_>, name: &Name) -> Option<Vec<u8>> {
    let mut out = vec![0; HEADER];
    out[2..4].copy_from_slice(&flags::QR.to_be_bytes());
    out[5] = 1;
    put_question(&mut out, &Question::new(name.clone(), Rtype::DS), 1);
    let of = |it: &&Record<'_>| it.rrsig().map_or(it.rtype, |it| it.covered);
    let of_set = seen.told().filter(|it| of(it) == Rtype::DS && it.owner == *name);
    let answers = put_in_full(&mut out, seen.octets(), of_set);
    let of_chain = seen.told().filter(|it| matches!(of(it), Rtype::NSEC | Rtype::NSEC3));
    let authorities = put_in_full(&mut out, seen.octets(), of_chain);
    out[6..8].copy_from_slice(&answers.to_be_bytes());
    out[8..10].copy_from_slice(&authorities.to_be_bytes());
    (out.len() <= MOST_OCTETS).then(|| out)
}

/// A message as an answer to the question for another name. None if it has too many octets.
pub fn answer_for(seen: &Seen<'_>, name: &Name) -> Option<Vec<u8>> {
    let mut out = seen.octets().get(..HEADER)?.to_vec();
    put_question(&mut out, &Question::new(name.clone(), seen.question.rtype), seen.class);
    put_in_full(&mut out, seen.octets(), seen.records.iter());
    (out.len() <= MOST_OCTETS).then(|| out)
}

#[cfg(test)]
mod tests {
    use zermuita::message::{Message, Section};

    use super::*;

    /// A referral of `B.test.`, whose records have pointers to the question's name.
    const REFERRAL: &[u8] = b"\0\x01\x80\0\0\x01\0\0\0\x02\0\0\x01a\x01B\x04test\0\0\x01\0\x01\
        \xc0\x0e\0\x02\0\x01\0\0\0\x3c\0\x05\x02NS\xc0\x0e\xc0\x0e\0\x2b\0\x01\0\0\0\x3c\0\x05\0\x01\x0d\x02\xff";

    #[test]
    fn referrals_are_answers_for_ds() {
        let seen = Seen::read(REFERRAL).unwrap();
        let cut = seen.referral().unwrap();
        assert_eq!(cut, "b.test".parse().unwrap());
        let octets = ds_answer(&seen, &cut).unwrap();
        let message = Message::read(&octets).unwrap();
        assert!(message.answers(&Question::new(cut.clone(), Rtype::DS)));
        let records: Vec<_> = message.records().map(|it| (it.section, it.rtype, it.data.to_vec())).collect();
        assert_eq!(records, [(Section::Answer, Rtype::DS, b"\0\x01\x0d\x02\xff".to_vec())]);
    }

    #[test]
    fn names_are_in_full_and_in_lower_case() {
        let seen = Seen::read(REFERRAL).unwrap();
        let octets = answer_for(&seen, &"c.test".parse().unwrap()).unwrap();
        let message = Message::read(&octets).unwrap();
        assert_eq!(message.records().next().map(|it| it.data.to_vec()), Some(b"\x02ns\x01b\x04test\0".to_vec()));
        assert_eq!(message.question().map(|it| it.0), Some(Question::new("c.test".parse().unwrap(), Rtype::A)));
    }
}
