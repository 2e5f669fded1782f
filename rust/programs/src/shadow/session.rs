//! A disagreement as a session of the bench, which `./explain` explains (docs/use/SESSIONS.md): it judges the same messages anew.
//!
//! The bench has no signatures but stand-ins, which are made of a key and of what is signed. In a session each signature that passed is
//! replaced by the stand-in of the same key over the same octets, and each other one by octets that are no stand-in of anything. The
//! bench wants one time of all signatures that it uses in an answer, so those that passed hold from the latest of their inceptions up
//! to the earliest of their expirations. Names in data are written in full and in lower case, as the library has them signed. The DS set
//! is one of SHA-256 that names the same keys; where a record of the zone's own names none, it is one of another key with the same tag.

use std::fmt::{self, Write};

use openssl::sha::{sha256, sha384, Sha256};
use zermuita::message::{Record, HEADER};
use zermuita::{Ask, Checked, Name, Rtype};

use super::config::is_known;
use super::judge::Trial;
use super::report::{hex, name_text};
use super::rewrite::{data_in_full, put_record};
use super::seen::Seen;
use crate::text::base64;

const MOST_KEYS: usize = 32;
const FLAGS_OF_KSK: u16 = 257;
const PROTOCOL: u8 = 3;
/// Of RRSIG data the fields in front of the signer's name, and the times among these (RFC 4034, 3.1).
const FIELDS: usize = 18;
const TIMES: std::ops::Range<usize> = 8..16;
const MOST_OCTETS: usize = 65_535;

/// Why there is no session.
#[derive(Clone, Copy, Debug, PartialEq, Eq)]
pub enum NoSession {
    Messages,
    Flags,
    EqualTags,
    Keys,
}

impl fmt::Display for NoSession {
    fn fmt(&self, f: &mut fmt::Formatter<'_>) -> fmt::Result {
        f.write_str(match self {
            NoSession::Messages => "messages",
            NoSession::Flags => "flags",
            NoSession::EqualTags => "equal tags",
            NoSession::Keys => "keys",
        })
    }
}

/// The signature of an RRSIG record among those that were checked and passed.
fn passed<'a>(checked: &'a Checked, record: &Record<'_>) -> Option<Ask<'a>> {
    let rrsig = record.rrsig()?;
    let fields = record.data.get(..FIELDS)?;
    let is_same = |it: &Ask<'_>| it.signature == rrsig.signature && it.octets.get(..FIELDS) == Some(fields);
    checked.iter().find(|(ask, passes)| *passes && is_same(ask)).map(|it| it.0)
}

/// When signatures hold: expiration and inception.
#[derive(Clone, Copy)]
struct Times {
    expiration: u32,
    inception: u32,
}

/// Whether a moment is later than another less than 2^31 seconds apart (RFC 1982).
fn is_later(one: u32, other: u32) -> bool {
    matches!(one.wrapping_sub(other), 1..=0x7fff_ffff)
}

/// When all signatures of a message hold that passed: from the latest inception up to the earliest expiration.
fn times_of(seen: &Seen<'_>, checked: &Checked) -> Option<Times> {
    let passing = seen.records.iter().filter(|it| passed(checked, it).is_some()).filter_map(|it| it.rrsig());
    passing.map(|it| Times { expiration: it.expiration, inception: it.inception }).reduce(|all, it| Times {
        expiration: if is_later(all.expiration, it.expiration) { it.expiration } else { all.expiration },
        inception: if is_later(it.inception, all.inception) { it.inception } else { all.inception },
    })
}

/// The data of an RRSIG record, with what stands in for its signature.
fn stood_in(record: &Record<'_>, checked: &Checked, times: Option<Times>) -> Option<Vec<u8>> {
    let rrsig = record.rrsig()?;
    let (mut data, rest) = (record.data.get(..FIELDS)?.to_vec(), record.data.get(FIELDS..)?);
    let signer = rest.get(..rest.len() - rrsig.signature.len())?;
    let made = match passed(checked, record) {
        Some(ask) => {
            if let Some(times) = times {
                data[TIMES].copy_from_slice(&[times.expiration.to_be_bytes(), times.inception.to_be_bytes()].concat());
            }
            let mut hash = Sha256::new();
            [ask.dnskey, &data, ask.octets.get(FIELDS..)?].iter().for_each(|it| hash.update(it));
            hash.finish()
        }
        None => sha256(record.data),
    };
    data.extend_from_slice(signer);
    data.extend_from_slice(&made);
    Some(data)
}

/// A message in digits; a dash if there is none.
fn message(octets: &[u8], checked: &Checked, has_one_time: bool) -> Result<String, NoSession> {
    if octets.is_empty() {
        return Ok("-".to_owned());
    }
    let seen = Seen::read(octets).ok_or(NoSession::Messages)?;
    let times = if has_one_time { times_of(&seen, checked) } else { None };
    let (_, end) = Name::read(octets, HEADER).map_err(|_| NoSession::Messages)?;
    let mut out = octets.get(..end + 4).ok_or(NoSession::Messages)?.to_vec();
    for record in &seen.records {
        let data = stood_in(record, checked, times).unwrap_or_else(|| data_in_full(octets, record));
        put_record(&mut out, record, &data);
    }
    if out.len() > MOST_OCTETS {
        return Err(NoSession::Messages);
    }
    Ok(hex(&out))
}

/// The tag of a key (RFC 4034, appendix B).
fn tag_of(dnskey: &[u8]) -> u16 {
    let sum = dnskey.iter().enumerate().fold(0u32, |sum, (at, octet)| sum + (u32::from(*octet) << if at % 2 == 0 { 8 } else { 0 }));
    (sum + (sum >> 16)) as u16
}

fn tag_in(ds: &[u8]) -> u16 {
    u16::from_be_bytes([ds[0], ds[1]])
}

/// Whether a DS record, of SHA-256 or SHA-384, names a key (RFC 4034, 5.2).
fn names_key(ds: &[u8], apex: &Name, dnskey: &[u8]) -> bool {
    let named = [&apex.to_canonical(), dnskey].concat();
    let digest = if ds[3] == 2 { sha256(&named).to_vec() } else { sha384(&named).to_vec() };
    tag_of(dnskey) == tag_in(ds) && dnskey[3] == ds[2] && digest == ds[4..]
}

/// A key of a session. Its octets are those of a key that is named, or two that make up the tag.
struct Key {
    tag: u16,
    algorithm: u8,
    is_named: bool,
    octets: Vec<u8>,
}

/// Octets of a key so that it has a tag: with its other fields, in units of 16 bits, they sum up to it.
fn made_key(tag: u16, algorithm: u8) -> Vec<u8> {
    let others = FLAGS_OF_KSK + (u16::from(PROTOCOL) << 8) + u16::from(algorithm);
    let unit = if tag >= others { tag - others } else { tag + (0xffff - others) };
    unit.to_be_bytes().to_vec()
}

/// The key of a DS record.
fn key_of(ds: &[u8], trial: &Trial, seen: &Seen<'_>) -> Result<Key, NoSession> {
    let (tag, algorithm) = (tag_in(ds), ds[2]);
    let is_key = |it: &&Record<'_>| it.rtype == Rtype::DNSKEY && it.data.len() > 4 && it.owner == trial.apex;
    let named = seen.told().filter(is_key).find(|it| names_key(ds, &trial.apex, it.data)).map(|it| it.data);
    match named {
        Some(dnskey) if tag_in(dnskey) != FLAGS_OF_KSK || dnskey[2] != PROTOCOL => Err(NoSession::Flags),
        Some(dnskey) => Ok(Key { tag, algorithm, is_named: true, octets: dnskey[4..].to_vec() }),
        None if tag == 0 => Err(NoSession::Keys),
        None => Ok(Key { tag, algorithm, is_named: false, octets: made_key(tag, algorithm) }),
    }
}

/// The keys of the DS records that count. Of records of one key one counts.
fn keys_of(trial: &Trial) -> Result<Vec<Key>, NoSession> {
    let mut keys: Vec<Key> = Vec::new();
    let ds = match &trial.ds {
        Some(ds) => ds,
        None => return Ok(keys),
    };
    let seen = Seen::read(&trial.dnskey).ok_or(NoSession::Messages)?;
    for record in ds.iter().filter(|it| is_known(it)) {
        let key = key_of(record, trial, &seen)?;
        let is_full = keys.len() == MOST_KEYS;
        match keys.iter_mut().find(|it| it.tag == key.tag) {
            Some(known) if known.algorithm != key.algorithm => return Err(NoSession::EqualTags),
            Some(known) if key.is_named && !known.is_named => *known = key,
            Some(_) => {}
            None if is_full => return Err(NoSession::Keys),
            None => keys.push(key),
        }
    }
    Ok(keys)
}

/// The lines that bring the DS records of some keys to the parent.
fn roll(keys: &[Key]) -> String {
    if keys.is_empty() {
        return String::new();
    }
    let mut text = String::new();
    for (number, key) in keys.iter().enumerate() {
        let _ = writeln!(text, "key csk k{number} {} {} 0", key.algorithm, base64(&key.octets));
    }
    let all: Vec<_> = (0..keys.len()).map(|it| format!("k{it}")).collect();
    let _ = writeln!(text, "start algorithm-roll - {} 0", all.join(","));
    text + "report1 algorithm-roll 0 0\nwait1 algorithm-roll 0\nreport2 algorithm-roll 0 0\nwait2 algorithm-roll 0\ndone algorithm-roll 0\n"
}

/// The session of a trial, whose signatures were checked.
pub fn of(trial: &Trial, checked: &Checked, iterations: u16) -> Result<String, NoSession> {
    let keys = keys_of(trial)?;
    let (apex, name) = (name_text(&trial.apex), name_text(&trial.question.name));
    let mut text = format!("zone {apex} nsec {iterations} 0\nrr {apex} 0 1 6 {:044}\n", 0);
    text += &roll(&keys);
    let (dnskey, answer) = (message(&trial.dnskey, checked, false)?, message(&trial.answer, checked, true)?);
    let _ = writeln!(text, "ds 0\nbytes 0 {dnskey} {answer} {name} {} {}", trial.question.rtype.0, trial.now);
    Ok(text)
}

#[cfg(test)]
mod tests {
    use super::*;

    #[test]
    fn made_keys_have_their_tags() {
        for tag in [1, 500, 1_025, 1_043, 20_326, 65_535] {
            for algorithm in [8, 13, 16] {
                let dnskey = [&[1, 1, PROTOCOL, algorithm][..], &made_key(tag, algorithm)].concat();
                assert_eq!(tag_of(&dnskey), tag, "{algorithm}");
            }
        }
    }

    #[test]
    fn moments_go_round() {
        assert!(is_later(1, 0) && is_later(0, u32::MAX) && !is_later(5, 5) && !is_later(0, 1));
    }
}
