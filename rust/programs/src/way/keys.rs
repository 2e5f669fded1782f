//! Keys of a zone, and the DS records that name them.

use openssl::hash::{hash, MessageDigest};
use zermuita::message::Message;
use zermuita::{Algorithm, DsSet, Name, Rtype};

/// A DS record.
pub struct Ds {
    pub tag: u16,
    pub algorithm: u8,
    pub digest_type: u8,
    pub digest: Vec<u8>,
}

/// A DNSKEY record.
pub struct Key {
    pub tag: u16,
    pub flags: u16,
    pub protocol: u8,
    pub algorithm: u8,
    pub is_named: bool,
    data: Vec<u8>,
}

/// What a DS record is to the keys, and whether it counts at all.
#[derive(Clone, Copy, Debug, PartialEq, Eq)]
pub enum DsState {
    Names,
    NoSuchKey,
    UnusableKey,
    OtherDigest,
    UnknownDigest,
    UnknownAlgorithm,
    NoAnswer,
}

impl DsState {
    /// For people.
    pub fn sentence(self) -> &'static str {
        match self {
            DsState::Names => "names the key of this tag",
            DsState::NoSuchKey => "missing: the DNSKEY answer has no key of this tag and algorithm",
            DsState::UnusableKey => "the key of this tag is none for zones: flag 256 or protocol 3 is missing",
            DsState::OtherDigest => "the key of this tag has another digest",
            DsState::UnknownDigest => "its type of digest is not known",
            DsState::UnknownAlgorithm => "signatures of its algorithm are not checked",
            DsState::NoAnswer => "no DNSKEY answer is there",
        }
    }

    /// As JSON has it.
    pub fn word(self) -> &'static str {
        match self {
            DsState::Names => "names",
            DsState::NoSuchKey => "no-such-key",
            DsState::UnusableKey => "unusable-key",
            DsState::OtherDigest => "other-digest",
            DsState::UnknownDigest => "unknown-digest",
            DsState::UnknownAlgorithm => "unknown-algorithm",
            DsState::NoAnswer => "no-answer",
        }
    }
}

impl Ds {
    fn of(data: &[u8]) -> Option<Self> {
        match data {
            [high, low, algorithm, digest_type, digest @ ..] => Some(Ds {
                tag: u16::from_be_bytes([*high, *low]),
                algorithm: *algorithm,
                digest_type: *digest_type,
                digest: digest.to_vec(),
            }),
            _ => None,
        }
    }

    /// The data as a zone file has them.
    pub fn text(&self) -> String {
        format!("{} {} {} {}", self.tag, self.algorithm, self.digest_type, crate::text::hex(&self.digest))
    }

    /// The digest that is made here, if its type is known.
    fn digest(&self) -> Option<MessageDigest> {
        match self.digest_type {
            2 => Some(MessageDigest::sha256()),
            4 => Some(MessageDigest::sha384()),
            _ => None,
        }
    }

    fn has_tag_of(&self, key: &Key) -> bool {
        self.tag == key.tag && self.algorithm == key.algorithm
    }

    /// Whether it names a key of a zone.
    pub fn names(&self, zone: &Name, key: &Key) -> bool {
        let is_digest = || {
            let octets = [&zone.to_canonical()[..], &key.data].concat();
            self.digest().and_then(|it| hash(it, &octets).ok()).map_or(false, |it| *it == *self.digest)
        };
        self.has_tag_of(key) && key.is_usable() && is_digest()
    }

    /// What it is to one key.
    fn beside(&self, zone: &Name, key: &Key) -> DsState {
        match key {
            key if !self.has_tag_of(key) => DsState::NoSuchKey,
            key if !key.is_usable() => DsState::UnusableKey,
            key if self.names(zone, key) => DsState::Names,
            _ => DsState::OtherDigest,
        }
    }
}

/// The tag of a key (RFC 4034, appendix B).
fn tag_of(data: &[u8]) -> u16 {
    let sum: u32 = data.iter().zip([8, 0].iter().cycle()).map(|(octet, shift)| u32::from(*octet) << shift).sum();
    (sum + (sum >> 16)) as u16
}

impl Key {
    fn of(data: &[u8]) -> Option<Self> {
        match data {
            [high, low, protocol, algorithm, ..] => Some(Key {
                tag: tag_of(data),
                flags: u16::from_be_bytes([*high, *low]),
                protocol: *protocol,
                algorithm: *algorithm,
                is_named: false,
                data: data.to_vec(),
            }),
            _ => None,
        }
    }

    /// Whether it is a zone's key for DNSSEC (RFC 4034, 2.1.1 and 2.1.2).
    fn is_usable(&self) -> bool {
        self.flags & 0x100 != 0 && self.protocol == 3
    }
}

/// A zone's keys and DS set, and the algorithms whose signatures are checked.
pub struct Keys {
    pub zone: Name,
    pub set: Vec<Ds>,
    pub keys: Vec<Key>,
    has_answer: bool,
    algorithms: Vec<Algorithm>,
}

impl Keys {
    /// Reads a DS set, and the DNSKEY records of the zone's answer for them.
    pub fn read(zone: &Name, ds: Option<&DsSet>, message: Option<&[u8]>, algorithms: &[Algorithm]) -> Self {
        let set: Vec<_> = ds.into_iter().flat_map(DsSet::iter).filter_map(Ds::of).collect();
        let records = message.and_then(|it| Message::read(it).ok()).into_iter().flat_map(|it| it.records());
        let is_key = |it: &zermuita::message::Record<'_>| it.rtype == Rtype::DNSKEY && it.class == 1 && it.owner == *zone;
        let mut keys: Vec<_> = records.filter(is_key).filter_map(|it| Key::of(it.data)).collect();
        for key in &mut keys {
            key.is_named = set.iter().any(|it| it.names(zone, key));
        }
        Keys { zone: zone.clone(), set, keys, has_answer: message.is_some(), algorithms: algorithms.to_vec() }
    }

    /// What a DS record of the set is to the keys.
    pub fn state_of(&self, ds: &Ds) -> DsState {
        if !self.algorithms.contains(&Algorithm(ds.algorithm)) {
            return DsState::UnknownAlgorithm;
        }
        if ds.digest().is_none() {
            return DsState::UnknownDigest;
        }
        let mut state = if self.has_answer { DsState::NoSuchKey } else { DsState::NoAnswer };
        for key in &self.keys {
            match ds.beside(&self.zone, key) {
                DsState::NoSuchKey => {}
                DsState::Names => return DsState::Names,
                other => state = other,
            }
        }
        state
    }

    /// Whether a key has the tag and the algorithm of a signature; one that a DS record names, where that is asked for.
    pub fn has(&self, tag: u16, algorithm: u8, is_to_be_named: bool) -> bool {
        self.keys.iter().any(|it| it.tag == tag && it.algorithm == algorithm && (it.is_named || !is_to_be_named))
    }
}
