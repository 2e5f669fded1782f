//! How messages stand in a file.

use super::{dig, pcap};
use crate::cli::Form;

/// Why a file's messages cannot be read.
#[derive(Clone, Debug, PartialEq, Eq, thiserror::Error)]
pub enum FormError {
    #[error("line {0}: not a message in hexadecimal digits")]
    Hex(usize),
    #[error("line {0}: not a message in base64")]
    Base64(usize),
    #[error("line {line}: {reason}")]
    Dig { line: usize, reason: String },
    #[error("packet {packet}: {reason}")]
    Pcap { packet: usize, reason: &'static str },
    #[error("neither text nor a packet capture (pcap)")]
    Unknown,
    #[error("a capture of the form pcapng: tcpdump -w writes pcap, and editcap -F pcap makes it of pcapng")]
    Pcapng,
}

/// The octets of hexadecimal digits.
pub fn unhex(text: &str) -> Option<Vec<u8>> {
    let digits: Vec<u32> = text.chars().filter(|it| !it.is_ascii_whitespace()).map(|it| it.to_digit(16)).collect::<Option<_>>()?;
    (digits.len() % 2 == 0).then(|| digits.chunks_exact(2).map(|it| (it[0] << 4 | it[1]) as u8).collect())
}

/// The octets of base64.
pub fn unbase64(text: &str) -> Option<Vec<u8>> {
    let (mut octets, mut bits, mut count) = (Vec::new(), 0u32, 0);
    let text: Vec<u8> = text.bytes().filter(|it| !it.is_ascii_whitespace()).collect();
    let signs = text.strip_suffix(b"==").or_else(|| text.strip_suffix(b"=")).unwrap_or(&text);
    for sign in signs {
        let value = match sign {
            b'A'..=b'Z' => sign - b'A',
            b'a'..=b'z' => sign - b'a' + 26,
            b'0'..=b'9' => sign - b'0' + 52,
            b'+' => 62,
            b'/' => 63,
            _ => return None,
        };
        bits = bits << 6 | u32::from(value);
        count += 6;
        if count >= 8 {
            count -= 8;
            octets.push((bits >> count) as u8);
            bits &= (1 << count) - 1;
        }
    }
    (signs.len() % 4 != 1).then(|| octets)
}

/// Lines that have something, with their numbers.
fn lines(text: &str) -> impl Iterator<Item = (usize, &str)> {
    (1..).zip(text.lines().map(str::trim)).filter(|it| !it.1.is_empty() && !it.1.starts_with(['#', ';']))
}

fn by_lines(text: &str, read: fn(&str) -> Option<Vec<u8>>, error: fn(usize) -> FormError) -> Result<Vec<Vec<u8>>, FormError> {
    lines(text).map(|(line, it)| read(it).filter(|it| it.len() >= zermuita::message::HEADER).ok_or_else(|| error(line))).collect()
}

/// The form that a file seems to have.
fn guessed(octets: &[u8]) -> Form {
    let text = match std::str::from_utf8(octets) {
        Ok(text) if !pcap::is_pcap(octets) => text,
        _ => return Form::Pcap,
    };
    if text.contains("->>HEADER<<-") {
        return Form::Dig;
    }
    let first = lines(text).next().map_or("", |it| it.1);
    if unhex(first).is_some() {
        Form::Hex
    } else {
        Form::Base64
    }
}

/// The messages of a file.
pub fn messages(octets: &[u8], form: Form) -> Result<Vec<Vec<u8>>, FormError> {
    if octets.starts_with(&[0x0a, 0x0d, 0x0d, 0x0a]) {
        return Err(FormError::Pcapng);
    }
    let form = if form == Form::Auto { guessed(octets) } else { form };
    let text = || std::str::from_utf8(octets).map_err(|_| FormError::Unknown);
    match form {
        Form::Pcap | Form::Auto => pcap::messages(octets),
        Form::Dig => dig::messages(text()?),
        Form::Hex => by_lines(text()?, unhex, FormError::Hex),
        Form::Base64 => by_lines(text()?, unbase64, FormError::Base64),
    }
}

#[cfg(test)]
mod tests {
    use super::*;

    #[test]
    fn digits_are_read() {
        assert_eq!(unhex("00 fF"), Some(vec![0, 255]));
        assert_eq!(unhex("0g"), None);
        assert_eq!(unhex("000"), None);
        for octets in [&b""[..], b"a", b"ab", b"abc", b"\xff\xfe\xfd\xfc"] {
            assert_eq!(unbase64(&crate::text::base64(octets)).as_deref(), Some(octets));
        }
        assert_eq!(unbase64("YQ*="), None);
        assert_eq!(messages(b"zz zz\n", Form::Hex), Err(FormError::Hex(1)));
        assert_eq!(messages(b"\n00\n", Form::Hex), Err(FormError::Hex(2)));
    }

    #[test]
    fn no_octets_panic() {
        let pcap = [&[0xd4, 0xc3, 0xb2, 0xa1][..], &[0; 60]].concat();
        for len in 0..pcap.len() {
            let _ = messages(&pcap[..len], Form::Auto);
        }
        assert_eq!(messages(&[0x0a, 0x0d, 0x0d, 0x0a, 0], Form::Auto), Err(FormError::Pcapng));
    }
}
