//! Extended DNS errors.
#![forbid(unsafe_code)]

use std::fmt;
use std::str::FromStr;

/// The code of an extended error (RFC 8914, 5.2); as text its name.
///
/// ```
/// use zermuita::ExtendedError;
/// assert_eq!(ExtendedError::SIGNATURE_EXPIRED.to_string(), "Signature Expired");
/// assert_eq!("DNSKEY Missing".parse(), Ok(ExtendedError(9)));
/// assert_eq!(ExtendedError(4711).to_string(), "error 4711");
/// ```
#[derive(Clone, Copy, Debug, PartialEq, Eq, PartialOrd, Ord, Hash)]
pub struct ExtendedError(pub u16);

/// A text is the name of no extended error.
#[derive(Clone, Debug, PartialEq, Eq, thiserror::Error)]
#[error("{0} is the name of no extended error")]
pub struct ExtendedErrorName(String);

macro_rules! errors {
    ($($name:ident = $code:literal $text:literal),* $(,)?) => {
        #[allow(missing_docs)]
        impl ExtendedError {
            $(pub const $name: ExtendedError = ExtendedError($code);)*
        }

        const NAMES: &[(u16, &str)] = &[$(($code, $text)),*];
    };
}

errors! {
    OTHER = 0 "Other",
    UNSUPPORTED_DNSKEY_ALGORITHM = 1 "Unsupported DNSKEY Algorithm",
    UNSUPPORTED_DS_DIGEST_TYPE = 2 "Unsupported DS Digest Type",
    STALE_ANSWER = 3 "Stale Answer",
    FORGED_ANSWER = 4 "Forged Answer",
    DNSSEC_INDETERMINATE = 5 "DNSSEC Indeterminate",
    DNSSEC_BOGUS = 6 "DNSSEC Bogus",
    SIGNATURE_EXPIRED = 7 "Signature Expired",
    SIGNATURE_NOT_YET_VALID = 8 "Signature Not Yet Valid",
    DNSKEY_MISSING = 9 "DNSKEY Missing",
    RRSIGS_MISSING = 10 "RRSIGs Missing",
    NO_ZONE_KEY_BIT_SET = 11 "No Zone Key Bit Set",
    NSEC_MISSING = 12 "NSEC Missing",
    CACHED_ERROR = 13 "Cached Error",
    NOT_READY = 14 "Not Ready",
    BLOCKED = 15 "Blocked",
    CENSORED = 16 "Censored",
    FILTERED = 17 "Filtered",
    PROHIBITED = 18 "Prohibited",
    STALE_NXDOMAIN_ANSWER = 19 "Stale NXDomain Answer",
    NOT_AUTHORITATIVE = 20 "Not Authoritative",
    NOT_SUPPORTED = 21 "Not Supported",
    NO_REACHABLE_AUTHORITY = 22 "No Reachable Authority",
    NETWORK_ERROR = 23 "Network Error",
    INVALID_DATA = 24 "Invalid Data",
    UNSUPPORTED_NSEC3_ITERATIONS_VALUE = 27 "Unsupported NSEC3 Iterations Value",
    INVALID_QUERY_TYPE = 30 "Invalid Query Type",
}

impl ExtendedError {
    /// The code that the library reports: 0 stands for none, and never for the RFC's Other Error.
    pub(crate) fn of_report(code: u16) -> Option<Self> {
        (code != 0).then(|| ExtendedError(code))
    }

    /// The name that RFC 8914 or IANA's registry has for it.
    #[must_use]
    pub fn name(self) -> Option<&'static str> {
        NAMES.iter().find(|it| it.0 == self.0).map(|it| it.1)
    }
}

impl fmt::Display for ExtendedError {
    fn fmt(&self, f: &mut fmt::Formatter<'_>) -> fmt::Result {
        match self.name() {
            Some(name) => f.pad(name),
            None => write!(f, "error {}", self.0),
        }
    }
}

impl FromStr for ExtendedError {
    type Err = ExtendedErrorName;

    fn from_str(text: &str) -> Result<Self, ExtendedErrorName> {
        let found = NAMES.iter().find(|it| it.1.eq_ignore_ascii_case(text));
        found.map(|it| ExtendedError(it.0)).ok_or_else(|| ExtendedErrorName(text.to_owned()))
    }
}

#[cfg(test)]
mod tests {
    use super::*;

    #[test]
    fn names_are_read_and_written() {
        for (code, name) in NAMES {
            assert_eq!(name.parse(), Ok(ExtendedError(*code)));
            assert_eq!(ExtendedError(*code).to_string(), *name);
        }
        assert!("Bogus".parse::<ExtendedError>().is_err());
    }
}
