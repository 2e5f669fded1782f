//! Names of the DNS.
#![forbid(unsafe_code)]

use std::cmp::Ordering;
use std::fmt;
use std::hash::{Hash, Hasher};
use std::str::FromStr;

/// A name in wire form, without pointers (RFC 1035, 3.1): labels behind their lengths, the root label last, 255 octets at most.
///
/// Names are compared without regard to case, and ordered canonically (RFC 4034, 6.1). They keep the case that they came with.
///
/// ```
/// use zermuita::Name;
/// let name: Name = r"WWW.exam\112le.".parse()?;
/// assert_eq!(name, "www.example".parse()?);
/// assert_eq!(name.to_string(), "WWW.example.");
/// assert_eq!(name.parent(), Some("example.".parse()?));
/// # Ok::<(), zermuita::NameError>(())
/// ```
#[derive(Clone)]
pub struct Name(Box<[u8]>);

/// Why octets or a text are no name.
#[derive(Clone, Copy, Debug, PartialEq, Eq, thiserror::Error)]
#[non_exhaustive]
pub enum NameError {
    /// A label is empty, as between two dots.
    #[error("a label is empty")]
    EmptyLabel,
    /// A label has more than 63 octets.
    #[error("a label has more than 63 octets")]
    LongLabel,
    /// The name has more than 255 octets in wire form.
    #[error("the name has more than 255 octets")]
    LongName,
    /// A backslash stands before neither three digits up to 255 nor a sign.
    #[error("a backslash has neither three digits up to 255 nor a sign behind it")]
    BadEscape,
    /// The octets end within the name, have a pointer where none may be, or one that leads nowhere.
    #[error("the octets are no name")]
    BadOctets,
}

const MOST_OCTETS: usize = 255;
const MOST_LABEL: usize = 63;

impl Name {
    /// The root.
    #[must_use]
    pub fn root() -> Self {
        Name(Box::new([0]))
    }

    /// The name that stands at the front of octets, and how many octets it takes. It has no pointers.
    ///
    /// # Errors
    ///
    /// [`NameError::BadOctets`] or [`NameError::LongName`].
    pub fn take(octets: &[u8]) -> Result<(Self, usize), NameError> {
        let mut at = 0;
        loop {
            match octets.get(at) {
                Some(0) if at < MOST_OCTETS => return Ok((Name(octets[..=at].into()), at + 1)),
                Some(&len) if usize::from(len) <= MOST_LABEL && at < MOST_OCTETS => at += 1 + usize::from(len),
                Some(&len) if usize::from(len) <= MOST_LABEL => return Err(NameError::LongName),
                _ => return Err(NameError::BadOctets),
            }
        }
    }

    /// The name that octets are.
    ///
    /// # Errors
    ///
    /// As [`Name::take`], and [`NameError::BadOctets`] if octets are left.
    pub fn from_wire(octets: &[u8]) -> Result<Self, NameError> {
        let (name, len) = Name::take(octets)?;
        if len == octets.len() {
            Ok(name)
        } else {
            Err(NameError::BadOctets)
        }
    }

    /// Reads the name at a place of a message, through its pointers, and says where it ends there (RFC 1035, 4.1.4). Each pointer
    /// leads to a place before it, so that no message makes this go round.
    ///
    /// # Errors
    ///
    /// [`NameError::BadOctets`] or [`NameError::LongName`].
    pub fn read(message: &[u8], at: usize) -> Result<(Self, usize), NameError> {
        let (mut wire, mut here, mut least, mut end) = (Vec::with_capacity(32), at, at, None);
        loop {
            let len = *message.get(here).ok_or(NameError::BadOctets)?;
            match len {
                0 => {
                    wire.push(0);
                    break;
                }
                1..=63 => {
                    let label = message.get(here..here + 1 + usize::from(len)).ok_or(NameError::BadOctets)?;
                    if wire.len() + label.len() >= MOST_OCTETS {
                        return Err(NameError::LongName);
                    }
                    wire.extend_from_slice(label);
                    here += label.len();
                }
                192..=255 => {
                    let low = *message.get(here + 1).ok_or(NameError::BadOctets)?;
                    end.get_or_insert(here + 2);
                    here = usize::from(len & 63) << 8 | usize::from(low);
                    if here >= least {
                        return Err(NameError::BadOctets);
                    }
                    least = here;
                }
                _ => return Err(NameError::BadOctets),
            }
        }
        Ok((Name(wire.into()), end.unwrap_or(here + 1)))
    }

    /// The octets in wire form.
    #[must_use]
    pub fn as_wire(&self) -> &[u8] {
        &self.0
    }

    /// The octets in wire form, letters in lower case (RFC 4034, 6.2).
    #[must_use]
    pub fn to_canonical(&self) -> Vec<u8> {
        self.0.to_ascii_lowercase()
    }

    /// Whether this is the root.
    #[must_use]
    pub fn is_root(&self) -> bool {
        self.0.len() == 1
    }

    /// The labels, the first one first, without the root's.
    pub fn labels(&self) -> impl Iterator<Item = &[u8]> {
        let mut rest: &[u8] = &self.0;
        std::iter::from_fn(move || {
            let (&len, behind) = rest.split_first()?;
            if len == 0 {
                return None;
            }
            let (label, behind) = behind.split_at(usize::from(len).min(behind.len()));
            rest = behind;
            Some(label)
        })
    }

    /// How many labels the name has, without the root's.
    #[must_use]
    pub fn depth(&self) -> usize {
        self.labels().count()
    }

    /// The name without its first label; of the root none.
    #[must_use]
    pub fn parent(&self) -> Option<Self> {
        let len = usize::from(*self.0.first()?);
        (len > 0).then(|| Name(self.0[1 + len..].into()))
    }

    /// The last `depth` labels of the name; the name itself if it has no more.
    #[must_use]
    pub fn ancestor(&self, depth: usize) -> Self {
        let over = self.depth().saturating_sub(depth);
        let skipped: usize = self.labels().take(over).map(|it| it.len() + 1).sum();
        Name(self.0[skipped..].into())
    }

    /// Whether the name is `upper` or below it.
    #[must_use]
    pub fn is_at_or_below(&self, upper: &Name) -> bool {
        let depth = upper.depth();
        self.depth() >= depth && self.ancestor(depth) == *upper
    }

    /// Whether the name is below `upper`.
    #[must_use]
    pub fn is_below(&self, upper: &Name) -> bool {
        self.is_at_or_below(upper) && self != upper
    }

    /// Whether the first label is `*`.
    #[must_use]
    pub fn is_wildcard(&self) -> bool {
        self.0.starts_with(b"\x01*")
    }

    /// The wildcard below the name, unless that would be too long.
    #[must_use]
    pub fn wildcard(&self) -> Option<Self> {
        (self.0.len() + 2 <= MOST_OCTETS).then(|| Name([b"\x01*", &*self.0].concat().into()))
    }

    fn reversed(&self) -> Vec<&[u8]> {
        let mut labels: Vec<_> = self.labels().collect();
        labels.reverse();
        labels
    }
}

impl PartialEq for Name {
    fn eq(&self, other: &Self) -> bool {
        // Lengths of labels are below the letters.
        self.0.eq_ignore_ascii_case(&other.0)
    }
}

impl Eq for Name {}

impl Hash for Name {
    fn hash<H: Hasher>(&self, state: &mut H) {
        for octet in self.0.iter() {
            octet.to_ascii_lowercase().hash(state);
        }
    }
}

impl Ord for Name {
    fn cmp(&self, other: &Self) -> Ordering {
        let lower = |label: &&[u8]| label.to_ascii_lowercase();
        self.reversed().iter().map(lower).cmp(other.reversed().iter().map(lower))
    }
}

impl PartialOrd for Name {
    fn partial_cmp(&self, other: &Self) -> Option<Ordering> {
        Some(self.cmp(other))
    }
}

impl fmt::Display for Name {
    fn fmt(&self, f: &mut fmt::Formatter<'_>) -> fmt::Result {
        if self.is_root() {
            return f.write_str(".");
        }
        for label in self.labels() {
            for &octet in label {
                match octet {
                    b'.' | b'\\' | b'"' | b'(' | b')' | b';' | b'@' | b'$' => write!(f, "\\{}", char::from(octet))?,
                    0x21..=0x7e => write!(f, "{}", char::from(octet))?,
                    _ => write!(f, "\\{octet:03}")?,
                }
            }
            f.write_str(".")?;
        }
        Ok(())
    }
}

impl fmt::Debug for Name {
    fn fmt(&self, f: &mut fmt::Formatter<'_>) -> fmt::Result {
        write!(f, "Name({self})")
    }
}

/// Takes the octet that a backslash and what stands behind it mean (RFC 1035, 5.1).
fn unescaped(rest: &[u8]) -> Result<(u8, usize), NameError> {
    match rest {
        [a @ b'0'..=b'9', b @ b'0'..=b'9', c @ b'0'..=b'9', ..] => {
            let number = [a, b, c].iter().fold(0u32, |sum, &&digit| 10 * sum + u32::from(digit - b'0'));
            u8::try_from(number).map(|octet| (octet, 3)).map_err(|_| NameError::BadEscape)
        }
        [b'0'..=b'9', ..] | [] => Err(NameError::BadEscape),
        [octet, ..] => Ok((*octet, 1)),
    }
}

impl FromStr for Name {
    type Err = NameError;

    fn from_str(text: &str) -> Result<Self, NameError> {
        if text == "." {
            return Ok(Name::root());
        }
        let (text, mut wire, mut label, mut at) = (text.as_bytes(), Vec::with_capacity(text.len() + 2), Vec::new(), 0);
        loop {
            let is_end = at == text.len();
            if is_end || text[at] == b'.' {
                match label.len() {
                    0 => return Err(NameError::EmptyLabel),
                    1..=MOST_LABEL => wire.push(label.len() as u8),
                    _ => return Err(NameError::LongLabel),
                }
                wire.append(&mut label);
                at += 1;
                if at >= text.len() {
                    break;
                }
                continue;
            }
            let (octet, len) = if text[at] == b'\\' {
                let (octet, len) = unescaped(&text[at + 1..])?;
                (octet, len + 1)
            } else {
                (text[at], 1)
            };
            label.push(octet);
            at += len;
        }
        wire.push(0);
        if wire.len() > MOST_OCTETS {
            return Err(NameError::LongName);
        }
        Ok(Name(wire.into()))
    }
}

#[cfg(test)]
mod tests {
    use super::*;

    fn name(text: &str) -> Name {
        text.parse().unwrap()
    }

    #[test]
    fn texts_are_read_and_written() {
        for (text, written) in [("", None), (".", Some(".")), ("a..b", None), ("a.b", Some("a.b.")), (r"\046.b.", Some(r"\..b."))] {
            assert_eq!(text.parse::<Name>().ok().map(|it| it.to_string()).as_deref(), written, "{text}");
        }
        assert_eq!(r"\256".parse::<Name>(), Err(NameError::BadEscape));
        assert_eq!(r"a\".parse::<Name>(), Err(NameError::BadEscape));
        assert_eq!("a".repeat(64).parse::<Name>(), Err(NameError::LongLabel));
        assert_eq!(["a".repeat(63).as_str(); 4].join(".").parse::<Name>(), Err(NameError::LongName));
        assert_eq!(name(r"\000\255x").to_string(), r"\000\255x.");
    }

    #[test]
    fn order_is_canonical() {
        // RFC 4034, 6.1.
        let sorted = ["example", "a.example", "yljkjljk.a.example", "Z.a.example", "zABC.a.EXAMPLE", "z.example", r"\001.z.example",
            "*.z.example", r"\200.z.example"];
        let mut names: Vec<Name> = sorted.iter().rev().map(|it| name(it)).collect();
        names.sort();
        assert_eq!(names, sorted.map(name));
    }

    #[test]
    fn pointers_lead_back() {
        let message = b"\x03com\x00\x01a\xc0\x00\x01b\xc0\x05\xc0\x0d";
        assert_eq!(Name::read(message, 5), Ok((name("a.com"), 9)));
        assert_eq!(Name::read(message, 9), Ok((name("b.a.com"), 13)));
        assert_eq!(Name::read(message, 13), Err(NameError::BadOctets));
        assert_eq!(Name::read(message, 99), Err(NameError::BadOctets));
    }

    #[test]
    fn relations_of_names() {
        let (upper, lower) = (name("example."), name("a.b.EXAMPLE"));
        assert!(lower.is_below(&upper) && !upper.is_below(&lower) && !name("xexample").is_at_or_below(&upper));
        assert_eq!(lower.ancestor(2), name("b.example"));
        assert_eq!(lower.ancestor(9), lower);
        assert_eq!(upper.wildcard(), Some(name("*.example")));
        assert_eq!(Name::root().parent(), None);
        assert_eq!(Name::from_wire(b"\x01a"), Err(NameError::BadOctets));
        assert_eq!(Name::from_wire(b"\x01a\x00x"), Err(NameError::BadOctets));
    }
}
