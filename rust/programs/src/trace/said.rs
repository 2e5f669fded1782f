//! How a walk ends, in a word.

use zermuita::{End, Outcome};

use crate::out::{coloured, Colour};

/// How a walk ends.
#[derive(Clone, Copy, Debug, PartialEq, Eq)]
pub enum Said {
    Secure,
    Insecure,
    Bogus,
    NotShown,
}

impl Said {
    pub fn of(end: &End) -> Self {
        match &end.outcome {
            _ if end.is_secure() => Said::Secure,
            _ if end.is_insecure() => Said::Insecure,
            Outcome::Refused { refusal, .. } if refusal.is_bogus() => Said::Bogus,
            _ => Said::NotShown,
        }
    }

    pub fn word(self) -> &'static str {
        match self {
            Said::Secure => "secure",
            Said::Insecure => "insecure",
            Said::Bogus => "bogus",
            Said::NotShown => "not shown",
        }
    }

    /// The word in its colour, where there are colours.
    pub fn coloured(self) -> String {
        let colour = match self {
            Said::Secure => Colour::Green,
            Said::Insecure => Colour::Yellow,
            Said::Bogus | Said::NotShown => Colour::Red,
        };
        coloured(self.word(), colour)
    }

    /// The exit status.
    pub fn status(self) -> u8 {
        match self {
            Said::Secure => 0,
            Said::Insecure => 3,
            Said::Bogus | Said::NotShown => 1,
        }
    }
}
