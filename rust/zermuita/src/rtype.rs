//! Types of records, and questions.
#![forbid(unsafe_code)]

use std::fmt;
use std::str::FromStr;

use crate::Name;

/// A type of records by its number; as text its mnemonic, or `TYPE` and the number (RFC 3597, 5).
///
/// ```
/// use zermuita::Rtype;
/// assert_eq!("aaaa".parse(), Ok(Rtype::AAAA));
/// assert_eq!("TYPE65534".parse(), Ok(Rtype(65534)));
/// assert_eq!(Rtype::NSEC3.to_string(), "NSEC3");
/// ```
#[derive(Clone, Copy, PartialEq, Eq, PartialOrd, Ord, Hash)]
pub struct Rtype(pub u16);

/// A text is the name of no type that is known here.
#[derive(Clone, Debug, PartialEq, Eq, thiserror::Error)]
#[error("{0} is no type of records: a mnemonic, or TYPE and a number up to 65535")]
pub struct RtypeError(String);

macro_rules! types {
    ($($name:ident = $number:literal),* $(,)?) => {
        #[allow(missing_docs)]
        impl Rtype {
            $(pub const $name: Rtype = Rtype($number);)*
        }

        const NAMES: &[(u16, &str)] = &[$(($number, stringify!($name))),*];
    };
}

types! {
    A = 1, NS = 2, CNAME = 5, SOA = 6, PTR = 12, HINFO = 13, MX = 15, TXT = 16, RP = 17, AFSDB = 18, SIG = 24, KEY = 25,
    AAAA = 28, LOC = 29, SRV = 33, NAPTR = 35, KX = 36, CERT = 37, DNAME = 39, OPT = 41, APL = 42, DS = 43, SSHFP = 44,
    IPSECKEY = 45, RRSIG = 46, NSEC = 47, DNSKEY = 48, DHCID = 49, NSEC3 = 50, NSEC3PARAM = 51, TLSA = 52, SMIMEA = 53, HIP = 55,
    CDS = 59, CDNSKEY = 60, OPENPGPKEY = 61, CSYNC = 62, ZONEMD = 63, SVCB = 64, HTTPS = 65, SPF = 99, EUI48 = 108, EUI64 = 109,
    NXNAME = 128, TKEY = 249, TSIG = 250, IXFR = 251, AXFR = 252, ANY = 255, URI = 256, CAA = 257,
}

impl fmt::Display for Rtype {
    fn fmt(&self, f: &mut fmt::Formatter<'_>) -> fmt::Result {
        match NAMES.iter().find(|it| it.0 == self.0) {
            Some((_, name)) => f.pad(name),
            None => f.pad(&format!("TYPE{}", self.0)),
        }
    }
}

impl fmt::Debug for Rtype {
    fn fmt(&self, f: &mut fmt::Formatter<'_>) -> fmt::Result {
        fmt::Display::fmt(self, f)
    }
}

impl FromStr for Rtype {
    type Err = RtypeError;

    fn from_str(text: &str) -> Result<Self, RtypeError> {
        let number = || {
            let digits = text.get(..4).filter(|it| it.eq_ignore_ascii_case("TYPE")).and_then(|_| text.get(4..))?;
            digits.bytes().all(|it| it.is_ascii_digit()).then(|| digits.parse().ok())?
        };
        let named = NAMES.iter().find(|it| it.1.eq_ignore_ascii_case(text)).map(|it| it.0);
        named.or_else(number).map(Rtype).ok_or_else(|| RtypeError(text.to_owned()))
    }
}

impl From<u16> for Rtype {
    fn from(number: u16) -> Self {
        Rtype(number)
    }
}

/// A question: a name and a type, of class IN.
#[derive(Clone, Debug, PartialEq, Eq, Hash)]
pub struct Question {
    /// The name that is asked for.
    pub name: Name,
    /// The type that is asked for.
    pub rtype: Rtype,
}

impl Question {
    /// The question for a name and a type.
    #[must_use]
    pub fn new(name: Name, rtype: Rtype) -> Self {
        Question { name, rtype }
    }
}

impl fmt::Display for Question {
    fn fmt(&self, f: &mut fmt::Formatter<'_>) -> fmt::Result {
        write!(f, "{} {}", self.name, self.rtype)
    }
}

#[cfg(test)]
mod tests {
    use super::*;

    #[test]
    fn types_are_read_and_written() {
        for (number, name) in NAMES {
            assert_eq!(name.parse::<Rtype>(), Ok(Rtype(*number)));
            assert_eq!(format!("TYPE{number}").parse::<Rtype>(), Ok(Rtype(*number)));
            assert_eq!(Rtype(*number).to_string(), *name);
        }
        for text in ["", "TYPE", "TYPE65536", "TYPE+1", "NO", "TYP"] {
            assert!(text.parse::<Rtype>().is_err(), "{text}");
        }
    }
}
