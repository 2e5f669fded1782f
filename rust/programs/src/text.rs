//! Record data, moments and hashes as text, as zone files and dig have them (RFC 1035, 5.1; RFC 3597, 5; RFC 4034).

use std::fmt::Write;
use std::net::{Ipv4Addr, Ipv6Addr};

use zermuita::{Name, Rtype};

/// The parts of a type's data: `n` a name; `a` and `A` addresses; `1`, `2` and `4` numbers of so many octets; `t` a type; `m` a moment;
/// `s` a character string, and further ones behind it where it comes first; `T` the types of a bitmap; `x` what is left in hexadecimal
/// digits and `b` in base64; and behind its length in an octet `X` a salt and `H` a hash.
pub fn form_of(rtype: Rtype) -> Option<&'static str> {
    Some(match rtype {
        Rtype::A => "a",
        Rtype::NS | Rtype::CNAME | Rtype::PTR | Rtype::DNAME => "n",
        Rtype::SOA => "nn44444",
        Rtype::HINFO | Rtype::TXT | Rtype::SPF => "s",
        Rtype::MX | Rtype::AFSDB | Rtype::KX => "2n",
        Rtype::RP => "nn",
        Rtype::AAAA => "A",
        Rtype::SRV => "222n",
        Rtype::NAPTR => "22sssn",
        Rtype::OPT => "x",
        Rtype::DS | Rtype::CDS => "211x",
        Rtype::SSHFP => "11x",
        Rtype::RRSIG => "t114mm2nb",
        Rtype::NSEC => "nT",
        Rtype::DNSKEY | Rtype::CDNSKEY => "211b",
        Rtype::NSEC3 => "112XHT",
        Rtype::NSEC3PARAM => "112X",
        Rtype::TLSA | Rtype::SMIMEA => "111x",
        Rtype::OPENPGPKEY => "b",
        _ => return None,
    })
}

/// Octets in hexadecimal digits.
pub fn hex(octets: &[u8]) -> String {
    octets.iter().fold(String::with_capacity(2 * octets.len()), |mut text, it| {
        let _ = write!(text, "{it:02X}");
        text
    })
}

/// Octets in digits of so many bits, the highest first.
fn digits(octets: &[u8], width: usize, alphabet: &[u8]) -> String {
    let bit = |at: usize| octets.get(at / 8).map_or(0, |it| it >> (7 - at % 8) & 1);
    let value = |at: usize| (at..at + width).fold(0, |value, at| value << 1 | usize::from(bit(at)));
    (0..8 * octets.len()).step_by(width).filter_map(|at| alphabet.get(value(at))).map(|it| char::from(*it)).collect()
}

/// The hash of a name in digits of base32hex (RFC 5155, 3.3).
pub fn base32hex(hash: &[u8]) -> String {
    digits(hash, 5, b"0123456789ABCDEFGHIJKLMNOPQRSTUV")
}

/// Octets in base64, padded.
pub fn base64(octets: &[u8]) -> String {
    let mut text = digits(octets, 6, b"ABCDEFGHIJKLMNOPQRSTUVWXYZabcdefghijklmnopqrstuvwxyz0123456789+/");
    while text.len() % 4 != 0 {
        text.push('=');
    }
    text
}

/// A day of the calendar: how many days behind 1970 begins a year of a month (days of the civil calendar, from March on).
fn date_of(days: i64) -> (i64, i64, i64) {
    let shifted = days + 719_468;
    let (era, of_era) = (shifted.div_euclid(146_097), shifted.rem_euclid(146_097));
    let year = (of_era - of_era / 1_460 + of_era / 36_524 - of_era / 146_096) / 365;
    let of_year = of_era - (365 * year + year / 4 - year / 100);
    let month = (5 * of_year + 2) / 153;
    let day = of_year - (153 * month + 2) / 5 + 1;
    let (month, past) = if month < 10 { (month + 3, 0) } else { (month - 9, 1) };
    (year + era * 400 + past, month, day)
}

/// A moment, in seconds since 1970, as zone files have it (RFC 4034, 3.2).
pub fn moment(seconds: u64) -> String {
    let (days, second) = (seconds / 86_400, seconds % 86_400);
    let (year, month, day) = date_of(i64::try_from(days).unwrap_or(i64::MAX / 2));
    format!("{year:04}{month:02}{day:02}{:02}{:02}{:02}", second / 3_600, second / 60 % 60, second % 60)
}

/// The types of a bitmap (RFC 4034, 4.1.2), up to where it ends too early.
pub fn types(mut bitmap: &[u8]) -> Vec<Rtype> {
    let mut types = Vec::new();
    while let [window, len, behind @ ..] = bitmap {
        let bits = match behind.get(..usize::from(*len)) {
            Some(bits) => bits,
            None => break,
        };
        let has = |at: &u16| bits[usize::from(at / 8)] >> (7 - at % 8) & 1 != 0;
        types.extend((0..8 * bits.len() as u16).filter(has).map(|at| Rtype(u16::from(*window) << 8 | at)));
        bitmap = &behind[bits.len()..];
    }
    types
}

/// The bitmap of types of an NSEC or NSEC3 record (RFC 4034, 4.1; RFC 5155, 3.2).
fn bitmap(rtype: Rtype, data: &[u8]) -> Option<&[u8]> {
    let behind = |at: usize| Some(at + 1 + usize::from(*data.get(at)?));
    match rtype {
        Rtype::NSEC => data.get(Name::take(data).ok()?.1..),
        Rtype::NSEC3 => data.get(behind(behind(4)?)?..),
        _ => None,
    }
}

/// The types in data of an NSEC or NSEC3 record.
pub fn types_in(rtype: Rtype, data: &[u8]) -> Vec<Rtype> {
    bitmap(rtype, data).map_or_else(Vec::new, types)
}

/// Types with something between them.
pub fn joined(types: &[Rtype], between: &str) -> String {
    types.iter().map(Rtype::to_string).collect::<Vec<_>>().join(between)
}

/// Data that are being written: where their octets stand, and up to which they are read.
struct Reading<'a> {
    octets: &'a [u8],
    at: usize,
    end: usize,
}

impl<'a> Reading<'a> {
    fn take(&mut self, len: usize) -> Option<&'a [u8]> {
        let taken = self.octets.get(self.at..self.at.checked_add(len).filter(|it| *it <= self.end)?)?;
        self.at += len;
        Some(taken)
    }

    fn rest(&mut self) -> Option<&'a [u8]> {
        self.take(self.end.checked_sub(self.at)?)
    }

    fn number(&mut self, width: usize) -> Option<u32> {
        Some(self.take(width)?.iter().fold(0, |number, it| number << 8 | u32::from(*it)))
    }

    fn counted(&mut self) -> Option<&'a [u8]> {
        let len = self.number(1)?;
        self.take(len as usize)
    }

    fn name(&mut self) -> Option<String> {
        let (name, end) = Name::read(self.octets, self.at).ok()?;
        self.at = end;
        (end <= self.end).then(|| name.to_string())
    }

    fn string(&mut self) -> Option<String> {
        let mut text = String::from("\"");
        for octet in self.counted()? {
            let _ = match octet {
                b'"' | b'\\' => write!(text, "\\{}", char::from(*octet)),
                0x20..=0x7e => write!(text, "{}", char::from(*octet)),
                _ => write!(text, "\\{octet:03}"),
            };
        }
        Some(text + "\"")
    }

    fn part(&mut self, form: char) -> Option<String> {
        Some(match form {
            'n' => self.name()?,
            'a' => Ipv4Addr::from(<[u8; 4]>::try_from(self.take(4)?).ok()?).to_string(),
            'A' => Ipv6Addr::from(<[u8; 16]>::try_from(self.take(16)?).ok()?).to_string(),
            '1' => self.number(1)?.to_string(),
            '2' => self.number(2)?.to_string(),
            '4' => self.number(4)?.to_string(),
            't' => Rtype(self.number(2)? as u16).to_string(),
            'm' => moment(self.number(4)?.into()),
            's' => self.string()?,
            'x' => hex(self.rest()?),
            'X' => Some(self.counted()?).filter(|it| !it.is_empty()).map_or_else(|| "-".to_owned(), hex),
            'H' => base32hex(self.counted()?),
            'b' => base64(self.rest()?),
            'T' => joined(&types(self.rest()?), " "),
            _ => return None,
        })
    }

    fn parts(&mut self, form: &str) -> Option<String> {
        let mut parts: Vec<_> = form.chars().map(|it| self.part(it)).collect::<Option<_>>()?;
        while form.starts_with('s') && self.at < self.end {
            parts.push(self.string()?);
        }
        parts.retain(|it| !it.is_empty());
        (self.at == self.end).then(|| parts.join(" "))
    }
}

/// A record's data that stand in octets, from a place on, whose names may have pointers into these. Data that are not of their type's
/// form, or of a type that has none here, are as RFC 3597 has them.
pub fn data_in(rtype: Rtype, octets: &[u8], at: usize, len: usize) -> String {
    let mut reading = Reading { octets, at, end: at + len };
    form_of(rtype).and_then(|form| reading.parts(form)).unwrap_or_else(|| {
        let data = octets.get(at..at + len).unwrap_or(&[]);
        if data.is_empty() {
            "\\# 0".to_owned()
        } else {
            format!("\\# {} {}", data.len(), hex(data))
        }
    })
}

/// Whether data without pointers are of their type's form. Those of a type that has none here are.
pub fn has_form(rtype: Rtype, octets: &[u8]) -> bool {
    let mut reading = Reading { octets, at: 0, end: octets.len() };
    form_of(rtype).map_or(true, |form| reading.parts(form).is_some())
}

/// A record's data that have no pointers.
pub fn data(rtype: Rtype, octets: &[u8]) -> String {
    data_in(rtype, octets, 0, octets.len())
}

#[cfg(test)]
mod tests {
    use super::*;

    #[test]
    fn data_have_their_forms() {
        for (rtype, octets, text) in [
            (Rtype::A, &b"\xc0\0\x02\x01"[..], "192.0.2.1"),
            (Rtype::A, b"\xc0\0\x02", "\\# 3 C00002"),
            (Rtype::MX, b"\0\x0a\x01a\0", "10 a."),
            (Rtype::TXT, b"\x02a\"\x01;", r#""a\"" ";""#),
            (Rtype::NSEC, b"\x01a\0\0\x06\x40\0\0\0\0\x03", "a. A RRSIG NSEC"),
            (Rtype::NSEC, b"\0\0\x11\0\0\0\0\0\x03\0\0\0\0\0\0\0\0\0\0\x80", ". RRSIG NSEC NXNAME"),
            (Rtype::NSEC3PARAM, b"\x01\0\0\x05\0", "1 0 5 -"),
            (Rtype::CAA, b"\0", "\\# 1 00"),
            (Rtype::CAA, b"", "\\# 0"),
            (Rtype::DNSKEY, b"\x01\x01\x03\x0dk", "257 3 13 aw=="),
        ] {
            assert_eq!(data(rtype, octets), text);
            assert_eq!(has_form(rtype, octets), !text.starts_with("\\#") || rtype == Rtype::CAA);
        }
    }

    #[test]
    fn moments_are_of_the_calendar() {
        for (seconds, text) in
            [(0, "19700101000000"), (951_782_400, "20000229000000"), (1_801_225_619, "20270129122659"), (4_294_967_295, "21060207062815")]
        {
            assert_eq!(moment(seconds), text);
        }
    }

    #[test]
    fn digits_are_of_rfc_4648() {
        for (octets, hex32, base) in [(&b"f"[..], "CO", "Zg=="), (b"fooba", "CPNMUOJ1", "Zm9vYmE="), (b"foobar", "CPNMUOJ1E8", "Zm9vYmFy")] {
            assert_eq!((base32hex(octets), base64(octets)), (hex32.to_owned(), base.to_owned()));
        }
    }
}
