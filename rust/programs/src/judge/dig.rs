//! What dig prints, as messages.

use zermuita::message::flags;
use zermuita::{Name, Rtype};

use super::forms::FormError;
use super::records;

/// A message that is being read.
struct Building {
    flags: u16,
    question: Option<Vec<u8>>,
    /// The records of each section.
    sections: [(u16, Vec<u8>); 3],
}

/// Which section lines are of.
#[derive(Clone, Copy, PartialEq, Eq)]
enum At {
    Head,
    Question,
    Section(usize),
    /// What is not of the message.
    Other,
}

const RCODES: [&str; 11] =
    ["NOERROR", "FORMERR", "SERVFAIL", "NXDOMAIN", "NOTIMP", "REFUSED", "YXDOMAIN", "YXRRSET", "NXRRSET", "NOTAUTH", "NOTZONE"];

impl Building {
    fn new(header: &str) -> Self {
        let status = header.split("status: ").nth(1).and_then(|it| it.split(',').next()).unwrap_or("");
        let rcode = RCODES.iter().position(|it| *it == status).unwrap_or(0) as u16;
        Building { flags: flags::QR | rcode, question: None, sections: Default::default() }
    }

    fn octets(self) -> Option<Vec<u8>> {
        let question = self.question?;
        let mut octets = vec![0, 0];
        let counts = [1, self.sections[0].0, self.sections[1].0, self.sections[2].0];
        for number in std::iter::once(self.flags).chain(counts) {
            octets.extend_from_slice(&number.to_be_bytes());
        }
        octets.extend(question);
        self.sections.into_iter().for_each(|it| octets.extend(it.1));
        Some(octets)
    }
}

/// The words of a line, with strings as one, up to a comment.
fn words(line: &str) -> Vec<String> {
    let (mut words, mut word, mut is_quoted, mut is_escaped) = (Vec::new(), String::new(), false, false);
    for it in line.chars() {
        match it {
            ';' if !is_quoted && !is_escaped => break,
            it if it.is_ascii_whitespace() && !is_quoted && !is_escaped => {
                if !word.is_empty() {
                    words.push(std::mem::take(&mut word));
                }
                continue;
            }
            '"' if !is_escaped => is_quoted = !is_quoted,
            _ => {}
        }
        is_escaped = it == '\\' && !is_escaped;
        word.push(it);
    }
    if !word.is_empty() {
        words.push(word);
    }
    words
}

/// The octets of a question or of a record: owner, type and class; and of a record TTL and data.
fn record(words: &[String]) -> Option<Vec<u8>> {
    let (owner, ttl, rtype, data) = match words {
        [owner, ttl, class, rtype, data @ ..] if class == "IN" => (owner, ttl, rtype, data),
        _ => return None,
    };
    let (owner, rtype): (Name, Rtype) = (owner.parse().ok()?, rtype.parse().ok()?);
    let data = records::data(rtype, data)?;
    let mut octets = owner.as_wire().to_vec();
    octets.extend_from_slice(&rtype.0.to_be_bytes());
    octets.extend_from_slice(&1u16.to_be_bytes());
    octets.extend_from_slice(&ttl.parse::<u32>().ok()?.to_be_bytes());
    octets.extend_from_slice(&u16::try_from(data.len()).ok()?.to_be_bytes());
    octets.extend(data);
    Some(octets)
}

fn question(line: &str) -> Option<Vec<u8>> {
    let words: Vec<_> = line.trim_start_matches(';').split_ascii_whitespace().collect();
    let (name, rtype): (Name, Rtype) = match words[..] {
        [name, "IN", rtype] => (name.parse().ok()?, rtype.parse().ok()?),
        _ => return None,
    };
    Some([name.as_wire(), &rtype.0.to_be_bytes(), &1u16.to_be_bytes()].concat())
}

fn section(line: &str) -> At {
    match line {
        it if it.starts_with(";; QUESTION") => At::Question,
        it if it.starts_with(";; ANSWER") => At::Section(0),
        it if it.starts_with(";; AUTHORITY") => At::Section(1),
        it if it.starts_with(";; ADDITIONAL") => At::Section(2),
        it if it.starts_with(";; flags") => At::Head,
        _ => At::Other,
    }
}

/// The messages of a text.
pub fn messages(text: &str) -> Result<Vec<Vec<u8>>, FormError> {
    let (mut done, mut building, mut at): (Vec<Building>, Option<Building>, At) = (Vec::new(), None, At::Other);
    // Words of a record of several lines, and the line where it begins.
    let mut open: Option<(usize, Vec<String>)> = None;
    for (line, text) in (1..).zip(text.lines()) {
        if text.contains("->>HEADER<<-") {
            done.extend(building.take());
            building = Some(Building::new(text));
            at = At::Head;
            continue;
        }
        let building = match &mut building {
            Some(it) => it,
            None => continue,
        };
        if text.starts_with(";; ") {
            at = section(text);
            continue;
        }
        let wrong = |line, reason: &str| FormError::Dig { line, reason: reason.to_owned() };
        match at {
            At::Question if text.starts_with(';') => {
                building.question = Some(question(text).ok_or_else(|| wrong(line, "not a question of class IN"))?);
            }
            At::Section(number) if !text.trim().is_empty() && !text.starts_with(';') => {
                let (begin, mut all) = open.take().unwrap_or((line, Vec::new()));
                all.extend(words(text));
                let count = |sign: &str| all.iter().filter(|it| *it == sign).count();
                if count("(") > count(")") {
                    open = Some((begin, all));
                    continue;
                }
                all.retain(|it| it != "(" && it != ")");
                let octets = record(&all).ok_or_else(|| wrong(begin, "not a record of class IN, or one of a type that is unknown here"))?;
                building.sections[number].0 += 1;
                building.sections[number].1.extend(octets);
            }
            _ => {}
        }
    }
    done.extend(building);
    Ok(done.into_iter().filter_map(Building::octets).collect())
}

#[cfg(test)]
mod tests {
    use zermuita::message::Message;

    use super::*;

    #[test]
    fn output_of_dig_is_read() {
        let text = "\
; <<>> DiG 9.18 <<>> example SOA +multi
;; Got answer:
;; ->>HEADER<<- opcode: QUERY, status: NXDOMAIN, id: 1
;; flags: qr aa; QUERY: 1, ANSWER: 1, AUTHORITY: 0, ADDITIONAL: 1

;; OPT PSEUDOSECTION:
; EDNS: version: 0, flags: do; udp: 1232
;; QUESTION SECTION:
;example.\t\tIN SOA

;; ANSWER SECTION:
example.\t\t300 IN SOA ns.example. host.example. (
\t\t\t\t1          ; serial
\t\t\t\t3600 600 86400 300 ; more
\t\t\t\t)
example.\t300\tIN\tTXT\t\"a; b\" \"c\"

;; Query time: 0 msec
";
        let octets = messages(text).unwrap();
        let message = Message::read(&octets[0]).unwrap();
        assert_eq!((octets.len(), message.rcode().0, message.counts()), (1, 3, [2, 0, 0]));
        let records: Vec<_> = message.records().map(|it| (it.rtype, it.ttl, it.data.len())).collect();
        assert_eq!(records, [(Rtype::SOA, 300, 12 + 14 + 20), (Rtype::TXT, 300, 7)]);
        let wrong = text.replace("SOA ns", "A ns");
        assert_eq!(messages(&wrong).unwrap_err().to_string(), "line 12: not a record of class IN, or one of a type that is unknown here");
    }
}
