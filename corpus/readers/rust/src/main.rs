//! Reads a release of the corpus by trust-dns-proto. usage: reader denial-corpus-VERSION.json

use serde_json::Value;
use trust_dns_proto::op::Message;
use trust_dns_proto::serialize::binary::BinEncodable;

fn octets(hex: &Value) -> Vec<u8> {
    let hex = hex.as_str().expect("a text");
    (0..hex.len()).step_by(2).map(|at| u8::from_str_radix(&hex[at..at + 2], 16).expect("octets")).collect()
}

/// Whether a message can be read, asks the question, and has as many records as its header counts.
fn is_read(name: &Value, rtype: &Value, message: &Value) -> bool {
    let octets_of = octets(message);
    let Ok(read) = Message::from_vec(&octets_of) else { return false };
    let question = &read.queries()[0];
    let counted = read.answers().len() + read.name_servers().len() + read.additionals().len();
    let counted = counted + usize::from(read.extensions().is_some());
    let headed: usize = [6, 8, 10].iter().map(|&at| usize::from(u16::from_be_bytes([octets_of[at], octets_of[at + 1]]))).sum();
    let is_asked = question.name().to_bytes().expect("a name").eq_ignore_ascii_case(&octets(name));
    is_asked && u64::from(u16::from(question.query_type())) == rtype.as_u64().expect("a number") && counted == headed
}

fn main() {
    let text = std::fs::read_to_string(std::env::args().nth(1).expect("a file")).expect("a text");
    let release: Value = serde_json::from_str(&text).expect("JSON");
    let (mut cases, mut read, mut unread) = (0, 0, Vec::new());
    for case in release["groups"].as_array().expect("groups").iter().flat_map(|it| it["cases"].as_array().expect("cases")) {
        let question = &case["question"];
        let dnskey = Value::from(48);
        let mut messages = vec![(&case["apex"], &dnskey, &case["dnskey"]), (&question["name"], &question["type"], &case["answer"])];
        for more in ["before", "more"].iter().filter_map(|it| case[it].as_array()).flatten() {
            messages.push((&more["name"], &more["type"], &more["message"]));
        }
        cases += 1;
        for (name, rtype, message) in messages {
            if is_read(name, rtype, message) { read += 1 } else { unread.push(case["id"].as_str().expect("an id")) }
        }
    }
    println!("trust-dns-proto: {cases} cases, {read} messages read, {} not: {}", unread.len(), unread.join(" "));
}
