//! Taking parts off octets, as the inline functions of the headers do.
#![forbid(unsafe_code)]

use crate::Name;

/// The number that octets spell, the highest first. No more than eight are handed in.
pub(crate) fn number(octets: &[u8]) -> u64 {
    octets.iter().fold(0, |number, &octet| number << 8 | u64::from(octet))
}

/// Takes so many octets off the front.
pub(crate) fn octets<'a>(rest: &mut &'a [u8], len: usize) -> Option<&'a [u8]> {
    if len > rest.len() {
        return None;
    }
    let (taken, behind) = rest.split_at(len);
    *rest = behind;
    Some(taken)
}

/// Takes a number of so many octets off the front.
pub(crate) fn number_of(rest: &mut &[u8], width: usize) -> Option<u64> {
    octets(rest, width).map(number)
}

/// Takes a part behind its length off the front; leaves all where there is none.
pub(crate) fn part<'a>(rest: &mut &'a [u8], width: usize) -> Option<&'a [u8]> {
    let mut behind = *rest;
    let len = usize::try_from(number_of(&mut behind, width)?).ok()?;
    let part = octets(&mut behind, len)?;
    *rest = behind;
    Some(part)
}

/// Takes a name off the front.
pub(crate) fn name(rest: &mut &[u8]) -> Option<Name> {
    let (name, len) = Name::take(rest).ok()?;
    octets(rest, len)?;
    Some(name)
}

/// Writes a part behind its length in two octets. It has fewer than 65,536.
pub(crate) fn put_part(out: &mut Vec<u8>, part: &[u8]) {
    out.extend_from_slice(&(part.len() as u16).to_be_bytes());
    out.extend_from_slice(part);
}
