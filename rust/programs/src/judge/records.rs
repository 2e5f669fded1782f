//! Records of zone files and of dig's output, as octets.

use std::net::{Ipv4Addr, Ipv6Addr};

use zermuita::{Name, Rtype};

use super::forms::{unbase64, unhex};
use crate::text::form_of;

/// Seconds since 1970 of a moment as zone files have it, `20261130120000`, or of their number.
fn moment(word: &str) -> Option<u32> {
    if word.len() != 14 {
        return word.parse().ok();
    }
    let part = |from: usize, to: usize| word.get(from..to)?.parse::<i64>().ok();
    let (year, month, day) = (part(0, 4)?, part(4, 6)?, part(6, 8)?);
    // Days of the civil calendar, from March on.
    let (year, month) = if month > 2 { (year, month - 3) } else { (year - 1, month + 9) };
    let of_year = (153 * month + 2) / 5 + day - 1;
    let days = 365 * year + year.div_euclid(4) - year.div_euclid(100) + year.div_euclid(400) + of_year - 719_468;
    let seconds = ((days * 24 + part(8, 10)?) * 60 + part(10, 12)?) * 60 + part(12, 14)?;
    // RRSIG records have serial numbers of 32 bits (RFC 4034, 3.1.5).
    Some(seconds as u32)
}

/// The octets of base32hex.
fn unbase32hex(word: &str) -> Option<Vec<u8>> {
    let (mut octets, mut bits, mut count) = (Vec::new(), 0u32, 0);
    for sign in word.chars() {
        bits = bits << 5 | sign.to_digit(32)?;
        count += 5;
        if count >= 8 {
            count -= 8;
            octets.push((bits >> count) as u8);
            bits &= (1 << count) - 1;
        }
    }
    Some(octets)
}

/// The bitmap of types (RFC 4034, 4.1.2).
fn bitmap(words: &[String]) -> Option<Vec<u8>> {
    let mut types: Vec<u16> = words.iter().map(|it| it.parse::<Rtype>().ok().map(|it| it.0)).collect::<Option<_>>()?;
    types.sort_unstable();
    let mut octets = Vec::new();
    for window in 0..=255u16 {
        let of: Vec<u16> = types.iter().filter(|it| *it >> 8 == window).map(|it| it & 255).collect();
        if let Some(last) = of.last() {
            let mut bits = vec![0; usize::from(last / 8) + 1];
            of.iter().for_each(|it| bits[usize::from(it / 8)] |= 0x80 >> (it % 8));
            octets.extend_from_slice(&[window as u8, bits.len() as u8]);
            octets.append(&mut bits);
        }
    }
    Some(octets)
}

fn counted(octets: &[u8]) -> Option<Vec<u8>> {
    Some([&[u8::try_from(octets.len()).ok()?], octets].concat())
}

/// A character string, without its quotes; its escapes are those of names.
fn string(word: &str) -> Option<Vec<u8>> {
    let word = word.strip_prefix('"').and_then(|it| it.strip_suffix('"')).unwrap_or(word);
    let (mut octets, mut rest) = (Vec::new(), word.as_bytes());
    while let [octet, behind @ ..] = rest {
        match (octet, behind) {
            (b'\\', [a @ b'0'..=b'9', b @ b'0'..=b'9', c @ b'0'..=b'9', more @ ..]) => {
                let number = [a, b, c].iter().fold(0u32, |sum, it| 10 * sum + u32::from(*it - b'0'));
                octets.push(u8::try_from(number).ok()?);
                rest = more;
            }
            (b'\\', [escaped, more @ ..]) => {
                octets.push(*escaped);
                rest = more;
            }
            _ => {
                octets.push(*octet);
                rest = behind;
            }
        }
    }
    counted(&octets)
}

/// One part of a form, which takes a word; `x`, `b` and `T` take all.
fn part(form: char, words: &mut &[String]) -> Option<Vec<u8>> {
    let all = |words: &mut &[String]| std::mem::take(words).concat();
    match form {
        'x' => return unhex(&all(words)),
        'b' => return unbase64(&all(words)),
        'T' => return bitmap(std::mem::take(words)),
        _ => {}
    }
    let (word, rest) = words.split_first()?;
    *words = rest;
    match form {
        'n' => word.parse::<Name>().ok().map(|it| it.as_wire().to_vec()),
        'a' => word.parse::<Ipv4Addr>().ok().map(|it| it.octets().to_vec()),
        'A' => word.parse::<Ipv6Addr>().ok().map(|it| it.octets().to_vec()),
        '1' => word.parse::<u8>().or_else(|_| word.parse::<zermuita::Algorithm>().map(|it| it.0)).ok().map(|it| vec![it]),
        '2' => word.parse::<u16>().ok().map(|it| it.to_be_bytes().to_vec()),
        '4' => word.parse::<u32>().ok().map(|it| it.to_be_bytes().to_vec()),
        't' => word.parse::<Rtype>().ok().map(|it| it.0.to_be_bytes().to_vec()),
        'm' => moment(word).map(|it| it.to_be_bytes().to_vec()),
        's' => string(word),
        'X' if word == "-" => Some(vec![0]),
        'X' => counted(&unhex(word)?),
        'H' => counted(&unbase32hex(word)?),
        _ => None,
    }
}

/// The data of a record, as their words have them.
pub fn data(rtype: Rtype, words: &[String]) -> Option<Vec<u8>> {
    let mut rest = words;
    if let [generic, len, digits @ ..] = words {
        if generic == "\\#" {
            return unhex(&digits.concat()).filter(|it| Some(it.len()) == len.parse().ok());
        }
    }
    let form = form_of(rtype)?;
    let mut octets = Vec::new();
    for it in form.chars() {
        octets.extend(part(it, &mut rest)?);
    }
    while form.starts_with('s') && !rest.is_empty() {
        octets.extend(part('s', &mut rest)?);
    }
    rest.is_empty().then(|| octets)
}

#[cfg(test)]
mod tests {
    use super::*;
    use crate::text;

    #[test]
    fn data_are_those_that_are_written() {
        let cases: [(Rtype, &[u8]); 10] = [
            (Rtype::A, b"\xc0\0\x02\x01"),
            (Rtype::MX, b"\0\x0a\x01a\0"),
            (Rtype::TXT, b"\x02a\"\x01;"),
            (Rtype::NSEC, b"\x01a\0\0\x06\x40\0\0\0\0\x03\x01\x01\x40"),
            (Rtype::NSEC3PARAM, b"\x01\0\0\x05\0"),
            (Rtype::NSEC3, b"\x01\x01\0\x05\x02\x5a\x17\x0512345\0\x01\x40"),
            (Rtype::DNSKEY, b"\x01\x01\x03\x0dkey!"),
            (Rtype::DS, b"\x01\x01\x0d\x02digest"),
            (Rtype::CAA, b"\x01\x01\x03\x0dkey!"),
            (Rtype::RRSIG, b"\0\x01\x0d\x02\0\0\x0e\x10\x6b\x5c\x8f\x73\x69\x7b\x5b\xf3\x01\x02\x04test\0signature"),
        ];
        for (rtype, octets) in cases {
            let words: Vec<_> = text::data(rtype, octets).split(' ').map(str::to_owned).collect();
            assert_eq!(data(rtype, &words).as_deref(), Some(octets), "{rtype}: {words:?}");
        }
        assert_eq!(data(Rtype::A, &["x".to_owned()]), None);
        assert_eq!(data(Rtype::A, &[]), None);
    }
}
