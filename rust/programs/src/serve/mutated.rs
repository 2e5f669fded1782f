//! Mutated queries in the place of those that sockets bring: as many as `ZERMUITA_MUTATED` in the environment says.
//!
//! A query is one that clients send, for names and types of all kinds, or an earlier one that was answered with records, with one to four
//! changes: bits, octets, letters, insertions, cuts, octets repeated, counts and lengths at their limits. Half come by a datagram, half by a
//! stream, some with a cookie. Each must get nothing or a message: with the query's number and operation, the bit of a reply, a known code,
//! and as many records as its header counts, and nothing behind them; within what the client takes. Each thousandth is answered once more,
//! by the same octets.

use std::net::IpAddr;

use super::answer::{Answerer, Now};
use super::config::Config;
use super::cookies::Cookies;
use super::copy::Copy;
use super::query::UDP_SIZE;
use super::responses::Version;
use super::shared::{Begin, Shared};
use super::start;

const NAMES: [&str; 14] = [
    "example", "www.example", "wWw.ExAmple", "none.example", "a.www.example", "wild.example", "*.wild.example", "a.b.wild.example",
    "below.example", "host.below.example", "other", "", "mail.example", "a.b.c.d.e.f.g.h.i.j.k.l.m.n.o.p.q.r.s.t.u.v.w.x.y.z.example",
];
const TYPES: [u16; 17] = [1, 2, 6, 15, 16, 28, 43, 46, 47, 48, 50, 51, 59, 252, 255, 257, 65280];
const LIMITS: [u8; 9] = [0, 1, 63, 64, 127, 128, 191, 192, 255];
const POOL: usize = 4096;

/// Numbers drawn by xorshift.
struct Drawn(u64);

impl Drawn {
    fn below(&mut self, bound: usize) -> usize {
        self.0 ^= self.0 << 13;
        self.0 ^= self.0 >> 7;
        self.0 ^= self.0 << 17;
        (self.0 >> 11) as usize % bound.max(1)
    }
}

fn query(name: &str, rtype: u16, edns: Option<(u16, u8)>, options: &[u8]) -> Vec<u8> {
    let mut query = vec![0x12, 0x34, 1, 0, 0, 1, 0, 0, 0, 0, 0, edns.is_some().into()];
    for label in name.split('.').filter(|it| !it.is_empty()) {
        query.push(label.len() as u8);
        query.extend_from_slice(label.as_bytes());
    }
    query.push(0);
    query.extend_from_slice(&rtype.to_be_bytes());
    query.extend_from_slice(&[0, 1]);
    if let Some((size, flags)) = edns {
        query.extend_from_slice(&[0, 0, 41]);
        query.extend_from_slice(&size.to_be_bytes());
        query.extend_from_slice(&[0, 0, flags, 0]);
        query.extend_from_slice(&(options.len() as u16).to_be_bytes());
        query.extend_from_slice(options);
    }
    query
}

fn queries() -> Vec<Vec<u8>> {
    let cookie = [&[0, 10, 0, 8][..], b"12345678"].concat();
    let mut all = Vec::new();
    for name in NAMES {
        all.extend(TYPES.map(|it| query(name, it, Some((1232, 0x80)), &[])));
        all.push(query(name, 1, None, &[]));
        all.push(query(name, 48, Some((512, 0x80)), &cookie));
        all.push(query(name, 16, Some((4096, 0)), &cookie));
    }
    all
}

fn mutate(drawn: &mut Drawn, query: &mut Vec<u8>) {
    let at = drawn.below(query.len());
    let len = query.len();
    match drawn.below(12) {
        _ if query.is_empty() => query.push(drawn.below(256) as u8),
        0 => query[at] ^= 1 << drawn.below(8),
        1 => query[at] = drawn.below(256) as u8,
        2 => drop(query.splice(at..at, (0..1 + drawn.below(12)).map(|_| drawn.below(256) as u8).collect::<Vec<_>>())),
        3 => drop(query.drain(at..len.min(at + 1 + drawn.below(12)))),
        4 => query.truncate(at),
        5 => query[at] = LIMITS[drawn.below(LIMITS.len())],
        6 => query.extend_from_within(..drawn.below(len + 1)),
        7 if len > 12 => query[2 + drawn.below(10)] = LIMITS[drawn.below(LIMITS.len())],
        _ => {
            let at = if len > 13 { 13 + drawn.below(len - 13) } else { at };
            query[at] = b"abwxz*AW"[drawn.below(8)];
        }
    }
    query.truncate(4096);
}

/// Where a name ends that begins at a place. Pointers lead to what stands in front of them.
fn passed_name(octets: &[u8], mut at: usize) -> Option<usize> {
    let (mut end, mut room) = (None, 255);
    loop {
        let head = usize::from(*octets.get(at)?);
        if head >= 192 {
            let target = (head & 63) << 8 | usize::from(*octets.get(at + 1)?);
            end = end.or(Some(at + 2));
            if target >= at {
                return None;
            }
            at = target;
            continue;
        }
        if head > 63 || head + 1 > room {
            return None;
        }
        room -= head + 1;
        at += head + 1;
        if head == 0 {
            return end.or(Some(at));
        }
    }
}

/// Whether octets are a message with all records that its header counts, and nothing behind them.
fn is_message(octets: &[u8]) -> Option<bool> {
    let number = |at: usize| Some(usize::from(u16::from_be_bytes([*octets.get(at)?, *octets.get(at + 1)?])));
    let mut at = 12;
    for _ in 0..number(4)? {
        at = passed_name(octets, at)? + 4;
    }
    for _ in 0..number(6)? + number(8)? + number(10)? {
        at = passed_name(octets, at)?;
        at += 10 + number(at + 8)?;
    }
    Some(at == octets.len())
}

fn is_reply(query: &[u8], out: &[u8], most: usize) -> bool {
    out.len() >= 12
        && out.len() <= most
        && query.len() >= 12
        && query[2] & 0x80 == 0
        && out[..2] == query[..2]
        && out[2] & 0x80 != 0
        && out[2] & 0x78 == query[2] & 0x78
        && matches!(out[3] & 15, 0 | 1 | 3 | 4 | 5)
        && is_message(out) == Some(true)
}

struct Tried {
    shared: Shared,
    copy: Copy,
    answerer: Answerer,
    now: Now,
}

impl Tried {
    fn new(folder: &std::path::Path) -> Self {
        let zone = concat!(env!("CARGO_MANIFEST_DIR"), "/../../examples/server/example.zone").into();
        let config = Config {
            folder: folder.to_owned(),
            zone_file: Some(zone),
            make_key: true,
            step: 86_400,
            rate: 0,
            rate_all: 0,
            ..Config::default()
        };
        let (opened, _) = start::open_folder(&config).unwrap_or_else(|_| panic!("the folder is not opened"));
        let mut copy = opened.copy;
        for line in start::FIRST_ROLL {
            let key = opened.keys.named("first").unwrap();
            let line = line.replace("csk first", &format!("csk first 13 {}", crate::text::base64(&key.octets)));
            copy.zone.apply(format!("{line} {}", opened.moments.line()).as_bytes()).unwrap();
        }
        let shared = Shared::new(Begin {
            cookies: Cookies::new([1; 16]),
            salt: [2; 16],
            config,
            apex: opened.apex,
            journal: opened.journal.file.clone(),
            len: copy.at,
            moments: opened.moments,
            keys: opened.keys,
            sockets: vec![Vec::new()],
            wakes: Vec::new(),
        });
        let moment = shared.moments.begin_answers(&opened.file).unwrap();
        let now = Now { version: Version { moment, zone: copy.at }, may_answer: true, second: 0 };
        Tried { answerer: Answerer::new(&shared), shared, copy, now }
    }

    fn answer(&mut self, query: &[u8], is_stream: bool) -> Vec<u8> {
        let from: IpAddr = "192.0.2.1".parse().unwrap();
        if is_stream {
            self.answerer.stream(&self.shared, &mut self.copy.zone, &self.now, query);
        } else {
            self.answerer.datagram(&self.shared, &mut self.copy.zone, &self.now, query, from);
        }
        self.answerer.out.clone()
    }
}

#[test]
fn mutated_queries_get_nothing_or_a_message() {
    let count: usize = std::env::var("ZERMUITA_MUTATED").ok().and_then(|it| it.parse().ok()).unwrap_or(20_000);
    let folder = std::env::temp_dir().join(format!("zermuita-mutated-{}", std::process::id()));
    std::fs::create_dir_all(folder.join("keys")).unwrap();
    let (mut tried, mut pool, mut drawn) = (Tried::new(&folder), queries(), Drawn(0x9e37_79b9_7f4a_7c15));
    let (mut codes, mut seen) = ([0_usize; 17], 0);
    for number in 0..count {
        let (mut query, is_stream) = (pool[drawn.below(pool.len())].clone(), number % 2 == 1);
        let changes = if drawn.below(2) == 0 { 1 } else { 1 + drawn.below(4) };
        (0..changes).for_each(|_| mutate(&mut drawn, &mut query));
        let out = tried.answer(&query, is_stream);
        codes[if out.is_empty() { 16 } else { usize::from(out[3] & 15) }] += 1;
        let most = if is_stream { 65_535 } else { usize::from(UDP_SIZE) };
        let has_none = out.is_empty() && (query.len() < 12 || query[2] & 0x80 != 0);
        assert!(has_none || is_reply(&query, &out, most), "{query:02x?} {out:02x?}");
        if number % 1000 == 0 && !out.is_empty() {
            query[0] ^= 1;
            assert_eq!(tried.answer(&query, is_stream)[2..], out[2..], "{query:02x?}");
        }
        if out.len() > 12 && out[6..10] != [0; 4] && drawn.below(100) == 0 {
            if pool.len() < POOL {
                pool.push(query);
            } else {
                pool[POOL / 2 + seen % (POOL / 2)] = query;
                seen += 1;
            }
        }
    }
    std::fs::remove_dir_all(&folder).unwrap();
    let told: Vec<_> = codes.iter().enumerate().filter(|it| *it.1 > 0).map(|(code, count)| format!("code {code} {count}")).collect();
    println!("{count} mutated queries: {} (16: nothing)", told.join(", "));
}
