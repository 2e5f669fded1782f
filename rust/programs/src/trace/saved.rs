//! Files of the messages of a walk: the moment in eight bytes, and the messages with what they answer, as the library takes them.

use std::path::Path;

use zermuita::{Name, Question, Rtype, Walk, Wanted};

use crate::out::{self, Failure};

pub struct Saved {
    pub moment: u64,
    pub messages: Vec<(Wanted, Vec<u8>)>,
}

/// Takes a part behind its length off the front.
fn part<'a>(rest: &mut &'a [u8], width: usize) -> Option<&'a [u8]> {
    let len = rest.get(..width)?.iter().fold(0, |len, it| len << 8 | usize::from(*it));
    let part = rest.get(width..)?.get(..len)?;
    *rest = &rest[width + len..];
    Some(part)
}

fn message(rest: &mut &[u8]) -> Option<(Wanted, Vec<u8>)> {
    let zone = Name::from_wire(part(rest, 2)?).ok()?;
    let name = Name::from_wire(part(rest, 2)?).ok()?;
    let rtype = Rtype(u16::from_be_bytes(rest.get(..2)?.try_into().ok()?));
    *rest = &rest[2..];
    Some((Wanted::new(zone, Question::new(name, rtype)), part(rest, 4)?.to_vec()))
}

fn read(octets: &[u8]) -> Option<Saved> {
    let moment = u64::from_be_bytes(octets.get(..8)?.try_into().ok()?);
    let (mut rest, mut messages) = (&octets[8..], Vec::new());
    while !rest.is_empty() {
        messages.push(message(&mut rest)?);
    }
    Some(Saved { moment, messages })
}

pub fn load(path: &Path) -> Result<Saved, Failure> {
    let octets = out::read_bytes(path)?;
    let reason = "not a file that zermuita trace --save wrote";
    read(&octets).ok_or_else(|| Failure::Content { path: path.to_owned(), reason: reason.to_owned() })
}

pub fn save(path: &Path, walk: &Walk) -> Result<(), Failure> {
    let mut octets = walk.now().to_be_bytes().to_vec();
    for (wanted, message) in walk.messages() {
        for name in [&wanted.zone, &wanted.question.name] {
            octets.extend_from_slice(&(name.as_wire().len() as u16).to_be_bytes());
            octets.extend_from_slice(name.as_wire());
        }
        octets.extend_from_slice(&wanted.question.rtype.0.to_be_bytes());
        octets.extend_from_slice(&(message.len() as u32).to_be_bytes());
        octets.extend_from_slice(message);
    }
    std::fs::write(path, octets).map_err(|error| Failure::File { path: path.to_owned(), error })
}
