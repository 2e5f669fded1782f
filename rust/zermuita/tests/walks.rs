//! Walks over messages of named, NSD and Knot, which tests/lines/walk has with what the tree of zones says of each question.
#![cfg(feature = "openssl")]

use std::collections::HashMap;

use zermuita::crypto::OpenSsl;
use zermuita::{
    Algorithm, Ask, End, Limits, Name, Outcome, Progress, Question, Refusal, Rtype, Secure, SignatureError, Signatures, TrustAnchor, Walk,
    Wanted,
};

/// The zones are signed by this algorithm; one of another is insecure.
const ALGORITHMS: [Algorithm; 1] = [Algorithm::ECDSAP256SHA256];

struct Ecdsa;

impl Signatures for Ecdsa {
    fn algorithms(&self) -> &[Algorithm] {
        &ALGORITHMS
    }

    fn verify(&self, ask: &Ask<'_>) -> Result<bool, SignatureError> {
        OpenSsl.verify(ask)
    }
}

struct Tree {
    anchor: TrustAnchor,
    now: u64,
    messages: HashMap<Wanted, Vec<u8>>,
}

fn read(file: &str) -> String {
    std::fs::read_to_string(format!("{}/../../tests/lines/walk/{file}", env!("CARGO_MANIFEST_DIR"))).unwrap()
}

fn octets(hex: &str) -> Vec<u8> {
    (0..hex.len()).step_by(2).map(|at| u8::from_str_radix(&hex[at..at + 2], 16).unwrap()).collect()
}

fn question(words: &[&str]) -> Question {
    Question::new(words[0].parse().unwrap(), Rtype(words[1].parse().unwrap()))
}

impl Tree {
    fn read() -> Self {
        let (mut anchor, mut messages) = (None, HashMap::new());
        for line in read("stdin").lines() {
            let words: Vec<_> = line.split(' ').collect();
            match words[0] {
                "anchor" => {
                    let ds: Vec<_> = words[2].split(':').collect();
                    let text = format!("{} IN DS {}", words[1], ds.join(" "));
                    anchor = Some((text.parse().unwrap(), words[3].parse().unwrap()));
                }
                "message" => {
                    let wanted = Wanted::new(words[1].parse().unwrap(), question(&words[2..4]));
                    messages.entry(wanted).or_insert_with(|| octets(words[4]));
                }
                _ => {}
            }
        }
        let (anchor, now) = anchor.unwrap();
        Tree { anchor, now, messages }
    }

    fn walk(&self, question: Question) -> (End, usize) {
        let mut walk = Walk::new(self.anchor.clone(), question, self.now).with_limits(Limits::default());
        loop {
            match walk.advance(&Ecdsa).unwrap() {
                Progress::Ended(end) => return (end, walk.messages().count()),
                Progress::Wants(wanted) => {
                    for it in wanted {
                        walk.put(&it, &self.messages[&it]);
                    }
                }
            }
        }
    }
}

fn short(name: &Name) -> String {
    let text = name.to_string();
    if name.is_root() {
        text
    } else {
        text.trim_end_matches('.').to_owned()
    }
}

/// The words of Rattle's programs.
fn words_of(end: &End) -> String {
    let hex = |data: &zermuita::RecordData| {
        let of = |it: &[u8]| it.iter().map(|octet| format!("{octet:02x}")).collect::<String>();
        data.iter().map(of).collect::<Vec<_>>().join(",")
    };
    match &end.outcome {
        Outcome::Secure { zone, says } => format!("secure {} {}", short(zone), match says {
            Secure::Records(data) => format!("Records {}", hex(data)),
            Secure::Wildcard(data) => format!("StarRecords {}", hex(data)),
            Secure::Nodata => "NoType".to_owned(),
            Secure::Nxdomain => "NoName".to_owned(),
            Secure::WildcardNodata => "StarNoType".to_owned(),
        }),
        Outcome::NameTooLong => "an alias of no name".to_owned(),
        Outcome::Insecure { delegation } => format!("insecure below {}", short(delegation)),
        Outcome::OptOut { zone } => format!("insecure, left open by {}", short(zone)),
        Outcome::Refused { refusal: Refusal::NoTrustedKey, answer: Some(it) } => {
            format!("bogus {} {} {} NoTrustedKey", short(&it.zone), short(&it.question.name), it.question.rtype.0)
        }
        Outcome::Outside => "outside".to_owned(),
        Outcome::TooMany(reply) if reply.name() == "TOO_MANY_ALIASES" => "too many aliases".to_owned(),
        other => format!("{other:?}"),
    }
}

fn told(end: &End, messages: usize) -> String {
    let mut text = words_of(end);
    if !end.aliases.is_empty() {
        text += &format!("; through {}", end.aliases.iter().map(short).collect::<Vec<_>>().join(" "));
    }
    text += &format!("; {messages} messages");
    if end.until > 0 {
        text += &format!("; TTL {} until {}", end.ttl, end.until);
    }
    text
}

#[test]
fn walks_end_as_the_tree_says() {
    let tree = Tree::read();
    let mut count = 0;
    for line in read("stdout").lines() {
        let (asked, expected) = match line.strip_prefix("resolve ").and_then(|it| it.split_once(": ")) {
            Some(both) => both,
            None if line.starts_with(['#', 'a']) => continue,
            None => break,
        };
        let asked: Vec<_> = asked.split(' ').collect();
        let (end, messages) = tree.walk(question(&asked));
        let said = told(&end, messages);
        // The names of a chain of aliases without end go on.
        let is_round = expected.starts_with("too many aliases");
        assert!(said == expected || is_round && words_of(&end) == "too many aliases", "{line}\n{said}");
        // The DS record of one zone is of an algorithm that is not checked; the signatures of another have expired.
        let extended = if said.contains("old.test") { Some(1) } else { said.starts_with("bogus late").then(|| 7) };
        assert!(extended.is_none() || end.extended.map(|it| it.0) == extended, "{line}: {:?}", end.extended);
        count += 1;
    }
    assert!(count > 50, "{count} questions");
}

#[test]
fn a_message_is_replaced() {
    let tree = Tree::read();
    let mut walk = Walk::new(tree.anchor.clone(), question(&["www.test", "1"]), tree.now);
    let keys = Wanted::keys_of(Name::root());
    walk.put(&keys, b"no message");
    let end = loop {
        match walk.advance(&Ecdsa).unwrap() {
            Progress::Wants(wanted) => wanted.iter().for_each(|it| walk.put(it, &tree.messages[it])),
            Progress::Ended(end) => match end.to_replace() {
                Some(refused) => {
                    assert_eq!((refused, end.reply), (keys.clone(), Refusal::BadDnskeyMessage.reply()));
                    walk.replace(&keys, &tree.messages[&keys]);
                }
                None => break end,
            },
        }
    };
    assert!(end.is_secure());
    assert_eq!(words_of(&end), "secure test Records c0000201");
}
