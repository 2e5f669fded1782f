//! Addresses of the root's servers.

use std::net::IpAddr;
use std::path::Path;

use crate::out::{self, Failure};

/// The addresses of the root's servers, as IANA has them.
const ROOT: [IpAddr; 13] = {
    const fn v4(a: u8, b: u8, c: u8, d: u8) -> IpAddr {
        IpAddr::V4(std::net::Ipv4Addr::new(a, b, c, d))
    }
    [
        v4(198, 41, 0, 4),
        v4(170, 247, 170, 2),
        v4(192, 33, 4, 12),
        v4(199, 7, 91, 13),
        v4(192, 203, 230, 10),
        v4(192, 5, 5, 241),
        v4(192, 112, 36, 4),
        v4(198, 97, 190, 53),
        v4(192, 36, 148, 17),
        v4(192, 58, 128, 30),
        v4(193, 0, 14, 129),
        v4(199, 7, 83, 42),
        v4(202, 12, 27, 33),
    ]
};

/// The addresses of a file of hints, or those that are known here.
pub fn addresses(hints: Option<&Path>) -> Result<Vec<IpAddr>, Failure> {
    let path = match hints {
        Some(path) => path,
        None => return Ok(ROOT.to_vec()),
    };
    let text = out::read_text(path)?;
    let mut found = Vec::new();
    for line in text.lines() {
        let words: Vec<_> = line.split(';').next().unwrap_or("").split_ascii_whitespace().collect();
        let at = words.iter().position(|it| it.eq_ignore_ascii_case("A") || it.eq_ignore_ascii_case("AAAA"));
        found.extend(at.and_then(|at| words.get(at + 1)).and_then(|it| it.parse::<IpAddr>().ok()));
    }
    // Hosts without IPv6 lose no time by those that they can ask.
    found.sort_by_key(IpAddr::is_ipv6);
    if found.is_empty() {
        let reason = "no line has the address of a server, as \"a.root-servers.net. 3600000 A 198.41.0.4\"".to_owned();
        return Err(Failure::Content { path: path.to_owned(), reason });
    }
    Ok(found)
}
