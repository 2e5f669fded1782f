//! DS sets and trust anchors.
#![forbid(unsafe_code)]

use std::fmt;
use std::str::FromStr;

use crate::name::NameError;
use crate::{take, Name};

/// A zone's DS set, as the zone above it or a trust anchor has it: the data of each record. It is not empty.
///
/// As text the records are separated by commas.
///
/// ```
/// use zermuita::DsSet;
/// let set: DsSet = "20326 8 2 E06D44B80B8F1D39A95C0B0D7C65D08458E880409BBC683457104237C7F8EC8D".parse()?;
/// assert_eq!(set.iter().map(|it| it.len()).collect::<Vec<_>>(), [36]);
/// # Ok::<(), zermuita::DsError>(())
/// ```
#[derive(Clone, Debug, PartialEq, Eq)]
pub struct DsSet(Vec<u8>);

/// Why a text or octets are no DS set, or no trust anchor.
#[derive(Clone, Debug, PartialEq, Eq, thiserror::Error)]
#[non_exhaustive]
pub enum DsError {
    /// There is no record.
    #[error("there is no DS record")]
    Empty,
    /// A record is not a key tag, an algorithm, a digest type and a digest.
    #[error("{0:?} is no DS record: a key tag, an algorithm, a type of digest, and the digest in hexadecimal digits")]
    BadRecord(String),
    /// Octets are not records behind their lengths.
    #[error("the octets are not DS records behind their lengths")]
    BadOctets,
    /// A line of a trust anchor begins with no name.
    #[error("line {line}: {error}")]
    BadName {
        /// The line, counted from 1.
        line: usize,
        /// What is wrong with the name.
        error: NameError,
    },
    /// A line of a trust anchor is not a DS record of class IN.
    #[error("line {0}: not a DS record as \". IN DS 20326 8 2 E06D..\"")]
    BadLine(usize),
    /// A line of a trust anchor has another zone than the lines before it.
    #[error("line {0}: a DS record of another zone")]
    OtherZone(usize),
}

impl DsSet {
    /// Makes a set of the data of records.
    ///
    /// # Errors
    ///
    /// [`DsError::Empty`], or [`DsError::BadOctets`] if a record has more than 65,535 octets.
    pub fn from_records<T: AsRef<[u8]>>(records: impl IntoIterator<Item = T>) -> Result<Self, DsError> {
        let mut octets = Vec::new();
        for record in records {
            if record.as_ref().len() > usize::from(u16::MAX) {
                return Err(DsError::BadOctets);
            }
            take::put_part(&mut octets, record.as_ref());
        }
        DsSet::from_octets(&octets)
    }

    /// Reads a set as the library writes and takes it: the data of each record behind its length in two octets.
    ///
    /// # Errors
    ///
    /// [`DsError::Empty`] or [`DsError::BadOctets`].
    pub fn from_octets(octets: &[u8]) -> Result<Self, DsError> {
        let mut rest = octets;
        while !rest.is_empty() {
            take::part(&mut rest, 2).ok_or(DsError::BadOctets)?;
        }
        if octets.is_empty() {
            return Err(DsError::Empty);
        }
        Ok(DsSet(octets.to_vec()))
    }

    /// The octets: the data of each record behind its length in two octets.
    #[must_use]
    pub fn as_octets(&self) -> &[u8] {
        &self.0
    }

    /// The set without the records for which something does not hold; none if it has no others.
    #[must_use]
    pub fn retained(&self, mut keeps: impl FnMut(&[u8]) -> bool) -> Option<Self> {
        DsSet::from_records(self.iter().filter(|it| keeps(it))).ok()
    }

    /// The data of the records.
    pub fn iter(&self) -> impl Iterator<Item = &[u8]> {
        let mut rest = self.as_octets();
        std::iter::from_fn(move || take::part(&mut rest, 2))
    }
}

/// The octets of hexadecimal digits.
fn octets_of(digits: &str) -> Option<Vec<u8>> {
    if digits.is_empty() || digits.len() % 2 != 0 || !digits.bytes().all(|it| it.is_ascii_hexdigit()) {
        return None;
    }
    (0..digits.len()).step_by(2).map(|at| u8::from_str_radix(digits.get(at..at + 2)?, 16).ok()).collect()
}

/// The data of a record: its fields as a zone file has them.
fn data_of(text: &str) -> Option<Vec<u8>> {
    let mut words = text.split_ascii_whitespace();
    let mut data = words.next()?.parse::<u16>().ok()?.to_be_bytes().to_vec();
    data.push(words.next()?.parse().ok()?);
    data.push(words.next()?.parse().ok()?);
    data.extend(octets_of(&words.collect::<String>())?);
    Some(data)
}

impl FromStr for DsSet {
    type Err = DsError;

    fn from_str(text: &str) -> Result<Self, DsError> {
        let records: Result<Vec<_>, _> =
            text.split(',').map(|it| data_of(it).ok_or_else(|| DsError::BadRecord(it.trim().to_owned()))).collect();
        DsSet::from_records(records?)
    }
}

impl fmt::Display for DsSet {
    fn fmt(&self, f: &mut fmt::Formatter<'_>) -> fmt::Result {
        for (at, data) in self.iter().enumerate() {
            f.write_str(if at > 0 { ", " } else { "" })?;
            match data {
                [high, low, algorithm, digest_type, digest @ ..] => {
                    write!(f, "{} {algorithm} {digest_type} ", u16::from_be_bytes([*high, *low]))?;
                    digest.iter().try_for_each(|it| write!(f, "{it:02X}"))?;
                }
                short => write!(f, "\\# {}", short.len())?,
            }
        }
        Ok(())
    }
}

/// A trust anchor: a zone, and its DS set.
///
/// As text it is the lines of a file like Debian's `/usr/share/dns/root.ds`: a DS record in each, as `. IN DS 20326 8 2 E06D..`, with
/// a TTL or without; what stands behind a semicolon is a comment.
#[derive(Clone, Debug, PartialEq, Eq)]
pub struct TrustAnchor {
    /// The zone.
    pub zone: Name,
    /// Its DS set.
    pub ds: DsSet,
}

/// Reads a line behind the zone's name: a TTL and a class, which may be left out, the type, and the data.
fn data_of_line(words: &mut std::iter::Peekable<std::str::SplitAsciiWhitespace<'_>>) -> Option<Vec<u8>> {
    let is_number = |it: &&str| it.bytes().all(|it| it.is_ascii_digit());
    words.next_if(is_number);
    words.next_if(|it| it.eq_ignore_ascii_case("IN"));
    words.next_if(is_number);
    words.next().filter(|it| it.eq_ignore_ascii_case("DS"))?;
    data_of(&words.collect::<Vec<_>>().join(" "))
}

/// The zone and the data of each line's record, with the line.
fn records_of(text: &str) -> Result<Vec<(usize, Name, Vec<u8>)>, DsError> {
    let mut records = Vec::new();
    for (line, text) in (1..).zip(text.lines()) {
        let mut words = text.split(';').next().unwrap_or("").split_ascii_whitespace().peekable();
        if let Some(word) = words.next() {
            let zone = word.parse::<Name>().map_err(|error| DsError::BadName { line, error })?;
            records.push((line, zone, data_of_line(&mut words).ok_or(DsError::BadLine(line))?));
        }
    }
    Ok(records)
}

impl TrustAnchor {
    /// Reads the lines of a file that may have DS records of several zones.
    ///
    /// # Errors
    ///
    /// [`DsError::Empty`], [`DsError::BadName`] or [`DsError::BadLine`].
    pub fn all(text: &str) -> Result<Vec<Self>, DsError> {
        let mut zones: Vec<(Name, Vec<Vec<u8>>)> = Vec::new();
        for (_, zone, data) in records_of(text)? {
            match zones.iter_mut().find(|it| it.0 == zone) {
                Some(found) => found.1.push(data),
                None => zones.push((zone, vec![data])),
            }
        }
        if zones.is_empty() {
            return Err(DsError::Empty);
        }
        zones.into_iter().map(|(zone, data)| Ok(TrustAnchor { zone, ds: DsSet::from_records(data)? })).collect()
    }
}

impl FromStr for TrustAnchor {
    type Err = DsError;

    fn from_str(text: &str) -> Result<Self, DsError> {
        let records = records_of(text)?;
        let zone = records.first().map(|it| it.1.clone()).ok_or(DsError::Empty)?;
        match records.iter().find(|it| it.1 != zone) {
            Some((line, ..)) => Err(DsError::OtherZone(*line)),
            None => Ok(TrustAnchor { ds: DsSet::from_records(records.into_iter().map(|it| it.2))?, zone }),
        }
    }
}

#[cfg(test)]
mod tests {
    use super::*;

    #[test]
    fn anchors_are_read() {
        let anchor: TrustAnchor = "; the root\n. IN DS 20326 8 2 E06D 44B8\n\n. 86400 IN DS 1 13 4 00\n.\tds 2 13 4 01 ; more\n".parse().unwrap();
        assert_eq!((anchor.zone, anchor.ds.to_string().as_str()), (Name::root(), "20326 8 2 E06D44B8, 1 13 4 00, 2 13 4 01"));
        for (text, error) in [
            ("", DsError::Empty),
            (". IN DS 1 8 2 E0\ntest. IN DS 1 8 2 E0", DsError::OtherZone(2)),
            (". IN DNSKEY 257 3 8 AA==", DsError::BadLine(1)),
            ("; x\n. IN DS 1 8 2 E", DsError::BadLine(2)),
            ("a..b IN DS 1 8 2 E0", DsError::BadName { line: 1, error: NameError::EmptyLabel }),
        ] {
            assert_eq!(text.parse::<TrustAnchor>(), Err(error), "{text}");
        }
    }

    #[test]
    fn anchors_of_several_zones_are_read() {
        let text = "test. IN DS 1 8 2 E0\n. IN DS 2 8 2 E1\nTEST. IN DS 3 8 2 E2\n";
        let all: Vec<_> = TrustAnchor::all(text).unwrap().iter().map(|it| (it.zone.to_string(), it.ds.to_string())).collect();
        let of = |zone: &str, ds: &str| (zone.to_owned(), ds.to_owned());
        assert_eq!(all, [of("test.", "1 8 2 E0, 3 8 2 E2"), of(".", "2 8 2 E1")]);
        assert_eq!(TrustAnchor::all("; none"), Err(DsError::Empty));
        let set: DsSet = "1 8 2 E0, 2 8 1 E1".parse().unwrap();
        assert_eq!(set.retained(|it| it[3] == 2).map(|it| it.to_string()), Some("1 8 2 E0".to_owned()));
        assert_eq!(set.retained(|_| false), None);
    }

    #[test]
    fn octets_are_records_behind_lengths() {
        assert_eq!(DsSet::from_octets(b"\0\x01"), Err(DsError::BadOctets));
        assert_eq!(DsSet::from_octets(b""), Err(DsError::Empty));
        assert_eq!(DsSet::from_octets(b"\0\x02xy\0\0").unwrap().iter().collect::<Vec<_>>(), [&b"xy"[..], b""]);
    }
}
