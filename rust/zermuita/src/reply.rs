//! What the library replies.
#![forbid(unsafe_code)]

use std::fmt;
use std::str::FromStr;

use zermuita_sys as sys;

use crate::ffi;

/// The number that a call of the library returned; as text its name and a sentence.
#[derive(Clone, Copy, PartialEq, Eq, Hash)]
pub struct Reply(pub u32);

impl Reply {
    /// The name alone, without `ZERMUITA_`.
    #[must_use]
    pub fn name(self) -> &'static str {
        let text = ffi::reply_text(self.0);
        let name = text.split_once(':').map_or(text, |it| it.0);
        name.strip_prefix("ZERMUITA_").unwrap_or(name)
    }
}

impl fmt::Display for Reply {
    fn fmt(&self, f: &mut fmt::Formatter<'_>) -> fmt::Result {
        f.write_str(ffi::reply_text(self.0))
    }
}

impl fmt::Debug for Reply {
    fn fmt(&self, f: &mut fmt::Formatter<'_>) -> fmt::Result {
        write!(f, "{}", self.name())
    }
}

macro_rules! replies {
    ($(#[$docs:meta])* $type:ident: $($(#[$doc:meta])* $name:ident = $number:ident $text:literal),* $(,)?) => {
        $(#[$docs])*
        #[derive(Clone, Copy, Debug, PartialEq, Eq, PartialOrd, Ord, Hash)]
        #[non_exhaustive]
        pub enum $type {
            $($(#[$doc])* $name,)*
        }

        impl $type {
            /// All of them.
            pub const ALL: &'static [$type] = &[$($type::$name),*];

            pub(crate) fn of(number: u32) -> Option<Self> {
                match number {
                    $(sys::$number => Some($type::$name),)*
                    _ => None,
                }
            }

            /// The reply, which has its sentence.
            #[must_use]
            pub fn reply(self) -> Reply {
                Reply(match self {
                    $($type::$name => sys::$number,)*
                })
            }

            /// The name, as the text of this has it.
            #[must_use]
            pub fn name(self) -> &'static str {
                match self {
                    $($type::$name => $text,)*
                }
            }
        }

        impl fmt::Display for $type {
            fn fmt(&self, f: &mut fmt::Formatter<'_>) -> fmt::Result {
                f.pad(self.name())
            }
        }

        impl FromStr for $type {
            type Err = UnknownReply;

            fn from_str(text: &str) -> Result<Self, UnknownReply> {
                let found = $type::ALL.iter().find(|it| it.name().eq_ignore_ascii_case(text));
                found.copied().ok_or_else(|| UnknownReply(text.to_owned()))
            }
        }
    };
}

/// A text is the name of no such reply.
#[derive(Clone, Debug, PartialEq, Eq, thiserror::Error)]
#[error("{0} is the name of no such reply")]
pub struct UnknownReply(String);

replies! {
    /// Why there is no verdict. docs/use/CALLING.md of the library says what a resolver does then.
    Refusal:
    /// The name is not in the zone, or the type is not judged.
    QuestionNotAllowed = ZERMUITA_QUESTION_NOT_ALLOWED "QUESTION_NOT_ALLOWED",
    /// The DNSKEY answer is not a message.
    BadDnskeyMessage = ZERMUITA_BAD_DNSKEY_MESSAGE "BAD_DNSKEY_MESSAGE",
    /// The answer is not a message.
    BadAnswerMessage = ZERMUITA_BAD_ANSWER_MESSAGE "BAD_ANSWER_MESSAGE",
    /// A message answers another question.
    QuestionMismatch = ZERMUITA_QUESTION_MISMATCH "QUESTION_MISMATCH",
    /// Two different keys have one tag.
    EqualTags = ZERMUITA_EQUAL_TAGS "EQUAL_TAGS",
    /// No key that a DS record names signs the DNSKEY set.
    NoTrustedKey = ZERMUITA_NO_TRUSTED_KEY "NO_TRUSTED_KEY",
    /// NSEC3 records have different parameters.
    MixedNsec3Parameters = ZERMUITA_MIXED_NSEC3_PARAMETERS "MIXED_NSEC3_PARAMETERS",
    /// The NSEC3 iterations are over the limit.
    IterationsOverLimit = ZERMUITA_ITERATIONS_OVER_LIMIT "ITERATIONS_OVER_LIMIT",
    /// A name was not hashed.
    HashFailed = ZERMUITA_HASH_FAILED "HASH_FAILED",
    /// The signed records prove no verdict.
    NotProven = ZERMUITA_NOT_PROVEN "NOT_PROVEN",
    /// Memory ran out.
    OutOfMemory = ZERMUITA_OUT_OF_MEMORY "OUT_OF_MEMORY",
    /// Signatures have different times, and one moment is demanded.
    MixedVersions = ZERMUITA_MIXED_VERSIONS "MIXED_VERSIONS",
    /// A message is too long in canonical form, or costs too much work.
    MessageTooLong = ZERMUITA_MESSAGE_TOO_LONG "MESSAGE_TOO_LONG",
    /// More signatures are to be checked than the case allows.
    TooManySignatures = ZERMUITA_TOO_MANY_SIGNATURES "TOO_MANY_SIGNATURES",
    /// Records verify, but a denial record that the proof needs is missing.
    IncompleteDenial = ZERMUITA_INCOMPLETE_DENIAL "INCOMPLETE_DENIAL",
}

impl Refusal {
    /// Whether an answer that is refused so is bogus (RFC 4035, 4.3), once nothing better comes of other servers. Other refusals are
    /// of a question that is not judged, of a server that failed or left out a record of a denial, of policy, or of what the library
    /// lacked.
    #[must_use]
    pub fn is_bogus(self) -> bool {
        matches!(self, Refusal::NoTrustedKey | Refusal::MixedNsec3Parameters | Refusal::NotProven)
    }

    /// Whether the zone's DNSKEY answer is refused, and not its answer to the question.
    #[must_use]
    pub fn is_of_keys(self) -> bool {
        use Refusal::{BadDnskeyMessage, EqualTags, NoTrustedKey, QuestionMismatch};
        matches!(self, BadDnskeyMessage | QuestionMismatch | EqualTags | NoTrustedKey)
    }
}

replies! {
    /// What was handed in cannot be read: a fault of the call.
    Unreadable:
    /// The name of the zone is not a name in wire form.
    BadApex = ZERMUITA_BAD_APEX "BAD_APEX",
    /// The DS set is not DS records behind their lengths; of a walk: none of them counts.
    BadDsSet = ZERMUITA_BAD_DS_SET "BAD_DS_SET",
    /// The name that was asked for is not a name in wire form.
    BadName = ZERMUITA_BAD_NAME "BAD_NAME",
    /// The checked signatures are not entries.
    BadSignatures = ZERMUITA_BAD_SIGNATURES "BAD_SIGNATURES",
    /// A size or a flag is unknown.
    BadCase = ZERMUITA_BAD_CASE "BAD_CASE",
    /// The messages are not messages behind the names that they are of.
    BadMessages = ZERMUITA_BAD_MESSAGES "BAD_MESSAGES",
}

impl std::error::Error for Unreadable {}

#[cfg(test)]
mod tests {
    use super::*;

    #[test]
    fn names_are_those_of_the_library() {
        for it in Refusal::ALL {
            assert_eq!(it.reply().name(), it.name());
            assert_eq!((it.name().parse(), Refusal::of(it.reply().0)), (Ok(*it), Some(*it)));
        }
        for it in Unreadable::ALL {
            assert_eq!((it.reply().name(), it.name().parse()), (it.name(), Ok(*it)));
        }
        assert_eq!(Refusal::NotProven.reply().to_string(), "ZERMUITA_NOT_PROVEN: the signed records prove no verdict");
        assert_eq!((Refusal::of(0), Unreadable::of(16)), (None, None));
    }

    #[test]
    fn refusals_are_those_of_the_library() {
        for number in 0..256 {
            // Of a walk only: nothing told, outside, and four limits.
            let is_of_walk = matches!(number, 30 | 31 | 48..=50 | 52);
            assert_eq!(ffi::is_refusal(number), is_of_walk || Refusal::of(number).is_some(), "{number}");
            assert_eq!(ffi::is_verdict(number), number < 12, "{number}");
        }
    }
}
