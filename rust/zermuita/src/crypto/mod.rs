//! Checking signatures.
#![forbid(unsafe_code)]

#[cfg(feature = "openssl")]
mod openssl;
#[cfg(feature = "ring")]
mod ring;

use std::fmt;
use std::str::FromStr;
use std::sync::Arc;

#[cfg(feature = "openssl")]
pub use self::openssl::OpenSsl;
#[cfg(feature = "ring")]
pub use self::ring::Ring;
use crate::Ask;

/// Checks signatures. The library says which are to be checked.
pub trait Signatures {
    /// The algorithms whose signatures are checked. A zone that has DS records of other algorithms alone is insecure. With none here
    /// every algorithm counts, and such a zone is refused.
    fn algorithms(&self) -> &[Algorithm];

    /// Whether a signature passes.
    ///
    /// # Errors
    ///
    /// If it could not be checked, as for want of memory or of a device: nothing is said of the answer then. A signature of another
    /// algorithm, or a key that cannot be read, is no error: it does not pass.
    fn verify(&self, ask: &Ask<'_>) -> Result<bool, SignatureError>;
}

impl<S: Signatures + ?Sized> Signatures for &S {
    fn algorithms(&self) -> &[Algorithm] {
        (**self).algorithms()
    }

    fn verify(&self, ask: &Ask<'_>) -> Result<bool, SignatureError> {
        (**self).verify(ask)
    }
}

impl<S: Signatures + ?Sized> Signatures for Arc<S> {
    fn algorithms(&self) -> &[Algorithm] {
        (**self).algorithms()
    }

    fn verify(&self, ask: &Ask<'_>) -> Result<bool, SignatureError> {
        (**self).verify(ask)
    }
}

/// A signature could not be checked.
#[derive(Clone, Debug, PartialEq, Eq, thiserror::Error)]
#[error("a signature could not be checked: {reason}")]
pub struct SignatureError {
    reason: String,
}

impl SignatureError {
    /// An error with its reason.
    pub fn new(reason: impl Into<String>) -> Self {
        SignatureError { reason: reason.into() }
    }
}

/// An algorithm of keys and signatures by its number (RFC 4034, appendix A.1); as text its mnemonic, or its number.
#[derive(Clone, Copy, Debug, PartialEq, Eq, PartialOrd, Ord, Hash)]
#[repr(transparent)]
pub struct Algorithm(pub u8);

/// A text is no algorithm.
#[derive(Clone, Debug, PartialEq, Eq, thiserror::Error)]
#[error("{0} is no algorithm: a mnemonic as ECDSAP256SHA256, or a number up to 255")]
pub struct AlgorithmError(String);

#[allow(missing_docs)]
impl Algorithm {
    pub const RSASHA1: Algorithm = Algorithm(5);
    pub const RSASHA1_NSEC3_SHA1: Algorithm = Algorithm(7);
    pub const RSASHA256: Algorithm = Algorithm(8);
    pub const RSASHA512: Algorithm = Algorithm(10);
    pub const ECDSAP256SHA256: Algorithm = Algorithm(13);
    pub const ECDSAP384SHA384: Algorithm = Algorithm(14);
    pub const ED25519: Algorithm = Algorithm(15);
    pub const ED448: Algorithm = Algorithm(16);
}

const NAMES: &[(Algorithm, &str)] = &[
    (Algorithm::RSASHA1, "RSASHA1"),
    (Algorithm::RSASHA1_NSEC3_SHA1, "RSASHA1-NSEC3-SHA1"),
    (Algorithm::RSASHA256, "RSASHA256"),
    (Algorithm::RSASHA512, "RSASHA512"),
    (Algorithm::ECDSAP256SHA256, "ECDSAP256SHA256"),
    (Algorithm::ECDSAP384SHA384, "ECDSAP384SHA384"),
    (Algorithm::ED25519, "ED25519"),
    (Algorithm::ED448, "ED448"),
];

impl fmt::Display for Algorithm {
    fn fmt(&self, f: &mut fmt::Formatter<'_>) -> fmt::Result {
        match NAMES.iter().find(|it| it.0 == *self) {
            Some((_, name)) => f.pad(name),
            None => write!(f, "{}", self.0),
        }
    }
}

impl FromStr for Algorithm {
    type Err = AlgorithmError;

    fn from_str(text: &str) -> Result<Self, AlgorithmError> {
        let named = NAMES.iter().find(|it| it.1.eq_ignore_ascii_case(text)).map(|it| it.0);
        named.or_else(|| text.parse().ok().map(Algorithm)).ok_or_else(|| AlgorithmError(text.to_owned()))
    }
}

/// The exponent and the modulus of an RSA key (RFC 3110, 2), the exponent behind its length in one octet, or in three.
#[cfg(any(feature = "openssl", feature = "ring"))]
fn rsa_numbers(key: &[u8]) -> Option<(&[u8], &[u8])> {
    let (head, len) = match key {
        [0, high, low, ..] => (3, usize::from(*high) << 8 | usize::from(*low)),
        [len, ..] => (1, usize::from(*len)),
        [] => return None,
    };
    let numbers = key.get(head..)?;
    (len > 0 && len < numbers.len()).then(|| numbers.split_at(len))
}

/// The numbers of algorithms, an octet each.
pub(crate) fn octets_of(algorithms: &[Algorithm]) -> Vec<u8> {
    algorithms.iter().map(|it| it.0).collect()
}

#[cfg(test)]
mod tests {
    use super::*;

    #[test]
    fn algorithms_are_read_and_written() {
        for (algorithm, name) in NAMES {
            assert_eq!((name.parse(), algorithm.to_string().as_str()), (Ok(*algorithm), *name));
        }
        assert_eq!("200".parse(), Ok(Algorithm(200)));
        assert!("256".parse::<Algorithm>().is_err() && "RSA".parse::<Algorithm>().is_err());
    }

    #[cfg(feature = "openssl")]
    #[test]
    fn keys_of_rsa_are_cut() {
        assert_eq!(rsa_numbers(b"\x01\x03mod"), Some((&b"\x03"[..], &b"mod"[..])));
        assert_eq!(rsa_numbers(b"\0\0\x02\x01\x01m"), Some((&b"\x01\x01"[..], &b"m"[..])));
        for short in [&b""[..], b"\0", b"\0\0", b"\0\0\0m", b"\x01\x03", b"\x05abc"] {
            assert_eq!(rsa_numbers(short), None);
        }
    }
}
