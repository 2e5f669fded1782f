//! Signatures that are to be checked, and those that were.
#![forbid(unsafe_code)]

use crate::take;
use crate::{Algorithm, SignatureError, Signatures};

/// A signature that is to be checked.
#[derive(Clone, Copy, Debug, PartialEq, Eq)]
pub struct Ask<'a> {
    /// The data of the DNSKEY record: flags, protocol, algorithm and key (RFC 4034, 2.1). They have four octets at least.
    pub dnskey: &'a [u8],
    /// What the signature is made over.
    pub octets: &'a [u8],
    /// The signature, as the RRSIG record has it.
    pub signature: &'a [u8],
}

impl<'a> Ask<'a> {
    /// The algorithm of the key and the signature.
    #[must_use]
    pub fn algorithm(&self) -> Algorithm {
        Algorithm(self.dnskey.get(3).copied().unwrap_or(0))
    }

    /// The key alone, as its algorithm writes it.
    #[must_use]
    pub fn key(&self) -> &'a [u8] {
        self.dnskey.get(4..).unwrap_or(&[])
    }
}

/// Signatures that were checked, each with what came of it. Whoever can write here can forge any answer: an entry that says that a
/// signature passes is trusted.
#[derive(Clone, Debug, Default, PartialEq, Eq)]
pub struct Checked(Vec<u8>);

/// An entry that is taken off the front, and whether its signature passes.
fn entry<'a>(rest: &mut &'a [u8]) -> Option<(Ask<'a>, bool)> {
    let dnskey = take::part(rest, 2).filter(|it| it.len() >= 4)?;
    let (octets, signature) = (take::part(rest, 4)?, take::part(rest, 2)?);
    let passes = take::number_of(rest, 1)? == 1;
    Some((Ask { dnskey, octets, signature }, passes))
}

impl Checked {
    /// No signatures.
    #[must_use]
    pub fn new() -> Self {
        Checked::default()
    }

    /// The signatures, one by one, and whether each passes.
    pub fn iter(&self) -> impl Iterator<Item = (Ask<'_>, bool)> {
        let mut rest = &*self.0;
        std::iter::from_fn(move || entry(&mut rest))
    }

    /// How many there are.
    #[must_use]
    pub fn count(&self) -> usize {
        self.iter().count()
    }

    /// Takes all out.
    pub fn clear(&mut self) {
        self.0.clear();
    }

    /// Drops all but those for which something holds, as the answers for keys, whose signed octets begin with 0 and 48.
    pub fn retain(&mut self, mut keeps: impl FnMut(&Ask<'_>, bool) -> bool) {
        let (mut kept, mut rest) = (Vec::new(), &*self.0);
        loop {
            let before = rest;
            match entry(&mut rest) {
                Some((ask, passes)) if keeps(&ask, passes) => kept.extend_from_slice(&before[..before.len() - rest.len()]),
                Some(_) => {}
                None => break,
            }
        }
        self.0 = kept;
    }

    /// Whether a signature passes, if it is here.
    #[must_use]
    pub fn outcome(&self, ask: &Ask<'_>) -> Option<bool> {
        self.iter().find(|it| it.0 == *ask).map(|it| it.1)
    }

    pub(crate) fn as_octets(&self) -> &[u8] {
        &self.0
    }

    /// Checks the signatures that the library asks for, and adds them with what came of it.
    pub(crate) fn check<S: Signatures + ?Sized>(&mut self, asks: &[u8], signatures: &S) -> Result<usize, SignatureError> {
        let (mut rest, mut octets, mut count) = (asks, asks.to_vec(), 0);
        while let Some((ask, _)) = entry(&mut rest) {
            let passes = signatures.verify(&ask)?;
            let last = asks.len() - rest.len() - 1;
            octets[last] = passes.into();
            count += 1;
        }
        octets.truncate(asks.len() - rest.len());
        self.0.append(&mut octets);
        Ok(count)
    }
}

#[cfg(test)]
mod tests {
    use super::*;

    struct Even;

    impl Signatures for Even {
        fn algorithms(&self) -> &[Algorithm] {
            &[]
        }

        fn verify(&self, ask: &Ask<'_>) -> Result<bool, SignatureError> {
            match ask.signature {
                [255] => Err(SignatureError::new("no device")),
                [it] => Ok(it % 2 == 0),
                _ => Ok(false),
            }
        }
    }

    fn asks(signatures: &[u8]) -> Vec<u8> {
        let of = |it: &u8| [&b"\0\x05\x01\x00\x03\x0dk\0\0\0\x01o\0\x01"[..], &[*it], b"\0"].concat();
        signatures.iter().flat_map(of).collect()
    }

    #[test]
    fn each_is_answered() {
        let mut checked = Checked::new();
        assert_eq!(checked.check(&asks(&[1, 2, 4]), &Even), Ok(3));
        assert_eq!(checked.check(&asks(&[255]), &Even), Err(SignatureError::new("no device")));
        let told: Vec<_> = checked.iter().map(|(ask, passes)| (ask.algorithm(), ask.key(), ask.signature[0], passes)).collect();
        assert_eq!(told, [(Algorithm(13), &b"k"[..], 1, false), (Algorithm(13), b"k", 2, true), (Algorithm(13), b"k", 4, true)]);
        checked.retain(|ask, passes| passes && ask.signature[0] > 2);
        assert_eq!((checked.count(), checked.iter().next().map(|it| it.0.signature[0])), (1, Some(4)));
    }
}
