//! What the server itself reads of a request, and writes of a response: the header, the OPT record, and cookies in it.

/// The option of a cookie (RFC 7873, 4).
const COOKIE: u16 = 10;
/// The octets of an OPT record without options, up to the length of its data.
const OPT: usize = 11;
/// How many octets this server takes by a datagram.
pub const UDP_SIZE: u16 = 1232;

/// A cookie that a request has: the client's, and what the client says this server gave it.
#[derive(Clone, Debug, PartialEq, Eq)]
pub struct Cookie {
    pub client: [u8; 8],
    pub server: Vec<u8>,
}

/// A request as it is answered, and its cookie.
#[derive(Debug, PartialEq, Eq)]
pub enum Heard {
    /// It has none that can be read: the library gets it as it is.
    Plain,
    /// It is answered without its cookie, which the response has again.
    WithCookie(Vec<u8>, Cookie),
    /// The cookie has a length that none has (RFC 7873, 5.2.2).
    BadCookie,
}

fn number(octets: &[u8], at: usize) -> Option<u16> {
    Some(u16::from_be_bytes(octets.get(at..at + 2)?.try_into().ok()?))
}

/// Where the question ends, if there is one and its name is not compressed.
fn question_end(query: &[u8]) -> Option<usize> {
    let mut at = 12;
    if number(query, 4)? != 1 {
        return None;
    }
    while *query.get(at)? != 0 {
        let len = usize::from(query[at]);
        at += if len < 64 { 1 + len } else { return None };
    }
    Some(at + 5).filter(|end| *end <= query.len() && at <= 12 + 254)
}

/// The name and type that are asked for.
pub fn question(query: &[u8]) -> Option<&[u8]> {
    Some(&query[12..question_end(query)? - 2])
}

/// Where the OPT record stands that is behind the question, with nothing else behind it.
fn opt_at(query: &[u8]) -> Option<usize> {
    let at = question_end(query)?;
    let has_others = query[6..10] != [0; 4] || query[10..12] != [0, 1];
    let is_opt = query.get(at..at + 3)? == [0, 0, 41];
    let len = usize::from(number(query, at + 9)?);
    (is_opt && !has_others && query.len() == at + OPT + len).then_some(at)
}

/// How many octets the client takes by a datagram.
pub fn client_room(query: &[u8]) -> usize {
    let said = opt_at(query).and_then(|at| number(query, at + 3)).unwrap_or(512);
    usize::from(said.clamp(512, UDP_SIZE))
}

/// The data of an option, where it begins, and how many octets it has.
fn find_cookie(query: &[u8], mut at: usize) -> Option<(usize, usize)> {
    while at < query.len() {
        let (code, len) = (number(query, at)?, usize::from(number(query, at + 2)?));
        query.get(at + 4..at + 4 + len)?;
        if code == COOKIE {
            return Some((at + 4, len));
        }
        at += 4 + len;
    }
    None
}

/// Reads a request's cookie.
pub fn hear(query: &[u8]) -> Heard {
    let opt = match opt_at(query) {
        Some(at) if query.len() > at + OPT => at,
        _ => return Heard::Plain,
    };
    let (at, len) = match find_cookie(query, opt + OPT) {
        Some(found) => found,
        None => return Heard::Plain,
    };
    let client = match query[at..at + 8.min(len)].try_into() {
        Ok(client) if len == 8 || (16..=40).contains(&len) => client,
        _ => return Heard::BadCookie,
    };
    let mut without = [&query[..at - 4], &query[at + len..]].concat();
    let left = (query.len() - opt - OPT - 4 - len) as u16;
    without[opt + 9..opt + OPT].copy_from_slice(&left.to_be_bytes());
    Heard::WithCookie(without, Cookie { client, server: query[at + 8..at + len].to_vec() })
}

/// Adds a cookie to a response whose OPT record is at the end and has no options; else it stays as it is.
pub fn add_cookie(response: &mut Vec<u8>, cookie: &[u8]) {
    let at = match response.len().checked_sub(OPT) {
        Some(at) if at >= 12 && response[10..12] != [0, 0] && response[at..at + 3] == [0, 0, 41] && response[at + 9..] == [0, 0] => at,
        _ => return,
    };
    let len = cookie.len() as u16;
    response[at + 9..].copy_from_slice(&(len + 4).to_be_bytes());
    response.extend_from_slice(&COOKIE.to_be_bytes());
    response.extend_from_slice(&len.to_be_bytes());
    response.extend_from_slice(cookie);
}

/// The bit that says that a response was cut (RFC 1035, 4.1.1).
pub const TC: u8 = 0x02;
pub const FORMERR: u8 = 1;
pub const SERVFAIL: u8 = 2;

/// Writes a reply that has a header and the question alone, with flags (RFC 1035, 4.1.1), and the record of EDNS where the query has it
/// behind its question: without it some resolvers take the server for one without EDNS (RFC 6891, 6.1.1 and 7). No octets where the query
/// gets no reply.
pub fn write_header(out: &mut Vec<u8>, query: &[u8], flags: u8, rcode: u8) {
    out.clear();
    if query.len() < 12 || query[2] & 0x80 != 0 {
        return;
    }
    let question = question_end(query);
    out.extend_from_slice(&query[..question.unwrap_or(12)]);
    out[2] = 0x80 | query[2] & 0x79 | flags;
    out[3] = rcode;
    out[4..12].fill(0);
    out[5] = question.is_some().into();
    let opt = question.filter(|at| query[6..10] != [0; 4] || query[10..12] == [0, 0] || query.len() - at < OPT);
    if let (Some(at), None) = (question, opt) {
        if query[at..at + 3] == [0, 0, 41] {
            let size = UDP_SIZE.to_be_bytes();
            let has_do = query[at + 7] & 0x80; // RFC 3225, 3
            out.extend_from_slice(&[0, 0, 41, size[0], size[1], 0, 0, has_do, 0, 0, 0]);
            out[11] = 1;
        }
    }
}

#[cfg(test)]
mod tests {
    use super::*;

    fn query(options: &[u8]) -> Vec<u8> {
        let mut query = vec![1, 2, 1, 0, 0, 1, 0, 0, 0, 0, 0, 1, 3, b'w', b'w', b'w', 0, 0, 1, 0, 1];
        query.extend_from_slice(&[0, 0, 41, 4, 208, 0, 0, 0x80, 0]);
        query.extend_from_slice(&(options.len() as u16).to_be_bytes());
        query.extend_from_slice(options);
        query
    }

    #[test]
    fn cookies_are_taken_out_and_put_in() {
        let cookie = [&[0, 3, 0, 1, 7, 0, 10, 0, 8][..], b"12345678", &[0, 8, 0, 0]].concat();
        let client = *b"12345678";
        match hear(&query(&cookie)) {
            Heard::WithCookie(without, found) => {
                assert_eq!(without, query(&[0, 3, 0, 1, 7, 0, 8, 0, 0]));
                assert_eq!(found, Cookie { client, server: vec![] });
            }
            other => panic!("{other:?}"),
        }
        let mut response = query(b"");
        add_cookie(&mut response, b"12345678");
        assert_eq!(response, query(&[&[0, 10, 0, 8][..], b"12345678"].concat()));
        assert_eq!(hear(&query(b"")), Heard::Plain);
    }

    #[test]
    fn cookies_of_other_lengths_are_wrong() {
        for len in [0_u8, 7, 9, 15, 41] {
            let cookie = [&[0, 10, 0, len][..], &vec![1; usize::from(len)]].concat();
            assert_eq!(hear(&query(&cookie)), Heard::BadCookie, "{len}");
        }
        let cut = [&[0, 10, 0, 9][..], &[1; 8]].concat();
        assert_eq!(hear(&query(&cut)), Heard::Plain);
    }

    #[test]
    fn headers_have_question_and_edns() {
        let mut out = Vec::new();
        write_header(&mut out, &query(&[0, 3, 0, 0]), TC, 0);
        let mut wanted = query(b"");
        wanted[2] = 0x83;
        assert_eq!(out, wanted);
        write_header(&mut out, &query(b"")[..21], 0, SERVFAIL);
        assert_eq!((out.len(), out[3], out[11]), (21, 2, 0));
        write_header(&mut out, &[0, 0, 0x80, 0, 0, 0, 0, 0, 0, 0, 0, 0], 0, 0);
        assert_eq!(out, b"");
        assert_eq!(client_room(&query(b"")), 1232);
        assert_eq!(question(&query(b"")), Some(&query(b"")[12..19]));
    }
}
