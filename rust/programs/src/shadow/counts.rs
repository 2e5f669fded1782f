//! What is counted from the start on.

use super::told::Claim;
use crate::page::{Kind, Sample};

macro_rules! reasons {
    ($($(#[$doc:meta])* $name:ident $text:literal),* $(,)?) => {
        /// Why an answer was not judged.
        #[derive(Clone, Copy, Debug, PartialEq, Eq)]
        pub enum Reason {
            $($(#[$doc])* $name,)*
        }

        const REASONS: &[&str] = &[$($text),*];
    };
}

reasons! {
    /// An alias of an unsigned zone, or more aliases than are followed.
    Alias "alias",
    /// The library does not judge the type.
    Type "type",
    /// Two keys have one tag, which the library does not judge.
    EqualTags "equal tags",
    /// The iterations are over the limit, which is a matter of policy.
    Iterations "iterations",
    /// A message cannot be read, answers another question, or takes more work than is done.
    Refused "refused",
    /// The zone's DS set has no record of an algorithm and a digest that are checked here.
    Algorithms "algorithms",
    /// The client asked with the bit CD.
    CheckingDisabled "checking disabled",
    /// The answer to the client has the bit TC.
    CutOff "cut off",
    /// Another response code, class or operation.
    Code "response code",
    /// SERVFAIL whose extended errors are of the network or of policy.
    OtherFault "other fault",
    /// No trust anchor is above the name.
    NoAnchor "no anchor",
    /// Of a name on the way no answer for DS was seen, and it is needed.
    NoDs "message not seen: DS",
    /// The zone's answer for its keys was not seen.
    NoDnskey "message not seen: DNSKEY",
    /// The answer itself was not seen.
    NoAnswer "message not seen: answer",
    /// An unsigned answer in a signed zone: it was not seen whether another zone begins below it.
    NoCut "message not seen: cut",
    /// Memory ran out.
    Memory "memory",
}

const CLAIMS: [(&str, &str); 4] = [
    ("agree: secure", "result=\"secure\""),
    ("agree: insecure", "result=\"insecure\""),
    ("agree: bogus", "result=\"bogus\""),
    ("agree: no proof asked for", "result=\"untold\""),
];

/// What the judging thread counts.
#[derive(Clone, Debug, Default)]
pub struct Counts {
    pub server_messages: u64,
    pub client_answers: u64,
    pub own_answers: u64,
    pub unreadable: u64,
    pub judged: u64,
    pub disagree: u64,
    agree: [u64; CLAIMS.len()],
    not_judged: [u64; REASONS.len()],
    pub signatures: u64,
    pub evicted: u64,
    pub asked: u64,
    pub waiting: u64,
}

impl Counts {
    pub fn agree(&mut self, claim: Claim) {
        self.judged += 1;
        self.agree[claim as usize] += 1;
    }

    pub fn not_judged(&mut self, reason: Reason) {
        self.not_judged[reason as usize] += 1;
    }
}

/// All counts: of streams, of judging, and of explanations where some are wanted.
#[derive(Clone, Debug, Default)]
pub struct Totals {
    pub frames: u64,
    pub unreadable_frames: u64,
    pub connections: u64,
    pub dropped: u64,
    pub counts: Counts,
    pub explained: Option<(u64, u64)>,
}

impl Totals {
    /// The counts, by their names in the log.
    pub fn named(&self) -> Vec<(String, u64)> {
        let it = &self.counts;
        let mut named: Vec<(String, u64)> = [
            ("frames", self.frames),
            ("unreadable frames", self.unreadable_frames),
            ("connections", self.connections),
            ("dropped", self.dropped),
            ("waiting", it.waiting),
            ("messages of servers", it.server_messages),
            ("answers to clients", it.client_answers),
            ("answers to own questions", it.own_answers),
            ("unreadable messages", it.unreadable),
            ("judged", it.judged),
        ]
        .map(|(name, count)| (name.to_owned(), count))
        .to_vec();
        named.extend(CLAIMS.iter().zip(it.agree).map(|(claim, count)| (claim.0.to_owned(), count)));
        named.push(("disagree".to_owned(), it.disagree));
        named.extend(REASONS.iter().zip(it.not_judged).map(|(reason, count)| (format!("not judged: {reason}"), count)));
        named.extend([("signatures checked", it.signatures), ("evicted", it.evicted), ("asked", it.asked)].map(own));
        if let Some((explained, unexplained)) = self.explained {
            named.extend([("explained", explained), ("not explained", unexplained)].map(own));
        }
        named
    }

    /// The page for Prometheus.
    pub fn page(&self) -> String {
        let it = &self.counts;
        let plain = [
            ("frames_total", self.frames),
            ("unreadable_frames_total", self.unreadable_frames),
            ("connections_total", self.connections),
            ("dropped_total", self.dropped),
            ("server_messages_total", it.server_messages),
            ("client_answers_total", it.client_answers),
            ("own_answers_total", it.own_answers),
            ("unreadable_messages_total", it.unreadable),
            ("judged_total", it.judged),
            ("disagree_total", it.disagree),
            ("signatures_checked_total", it.signatures),
            ("evicted_total", it.evicted),
            ("asked_total", it.asked),
            ("explained_total", self.explained.map_or(0, |it| it.0)),
            ("not_explained_total", self.explained.map_or(0, |it| it.1)),
        ];
        let reasons: Vec<_> = REASONS.iter().map(|it| format!("reason=\"{it}\"")).collect();
        let samples = plain
            .iter()
            .map(|(name, value)| Sample::counter(name, "", *value))
            .chain(CLAIMS.iter().zip(it.agree).map(|(claim, value)| Sample::counter("agree_total", claim.1, value)))
            .chain(reasons.iter().zip(it.not_judged).map(|(reason, value)| Sample::counter("not_judged_total", reason, value)))
            .chain([Sample { name: "waiting", label: "", kind: Kind::Gauge, value: it.waiting }]);
        crate::page::text("zermuita_shadow", samples)
    }
}

fn own((name, count): (&str, u64)) -> (String, u64) {
    (name.to_owned(), count)
}

#[cfg(test)]
mod tests {
    use super::*;

    #[test]
    fn counts_have_their_names() {
        let mut totals = Totals { frames: 7, ..Totals::default() };
        totals.counts.agree(Claim::Untold);
        totals.counts.not_judged(Reason::NoCut);
        let named = totals.named();
        for (name, count) in [("frames", 7), ("judged", 1), ("agree: no proof asked for", 1), ("not judged: message not seen: cut", 1)] {
            assert!(named.contains(&(name.to_owned(), count)), "{name}");
        }
        let page = totals.page();
        assert!(page.contains("\nzermuita_shadow_not_judged_total{reason=\"message not seen: cut\"} 1\n"));
        assert_eq!(page.matches("# TYPE zermuita_shadow_agree_total counter").count(), 1);
    }
}
