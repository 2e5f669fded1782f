//! Requests and responses, counted: by each thread for itself.

use std::sync::atomic::{AtomicU64, Ordering};

/// Codes of responses (RFC 1035, 4.1.1; RFC 6891, 9), and what gets none.
pub const CODES: [&str; 18] = [
    "NOERROR", "FORMERR", "SERVFAIL", "NXDOMAIN", "NOTIMP", "REFUSED", "6", "7", "8", "9", "10", "11", "12", "13", "14", "15", "BADVERS",
    "none",
];
const NONE: usize = 17;

/// What a thread counts.
#[derive(Default)]
pub struct Counts {
    udp: AtomicU64,
    tcp: AtomicU64,
    codes: [AtomicU64; CODES.len()],
    truncated: AtomicU64,
    with_cookie: AtomicU64,
}

/// The counts of all threads.
#[derive(Clone, Debug, Default, PartialEq, Eq)]
pub struct Sum {
    pub udp: u64,
    pub tcp: u64,
    pub codes: [u64; CODES.len()],
    pub truncated: u64,
    pub with_cookie: u64,
}

/// The code of a response. One of 16 and above has its upper bits in the OPT record, which is at the end and has no options.
fn code_of(response: &[u8]) -> usize {
    if response.len() < 12 {
        return NONE;
    }
    let low = usize::from(response[3] & 15);
    let opt = response.len().checked_sub(11).filter(|at| *at >= 12).map(|at| &response[at..]);
    let is_high = |it: &[u8]| response[11] != 0 && it[..3] == [0, 0, 41] && it[5] == 1 && it[9..] == [0, 0] && low == 0;
    if opt.map_or(false, is_high) { 16 } else { low }
}

fn add(count: &AtomicU64) {
    count.fetch_add(1, Ordering::Relaxed);
}

impl Counts {
    /// Counts a request and its response, which has no octets where there is none.
    pub fn add(&self, is_stream: bool, response: &[u8]) {
        add(if is_stream { &self.tcp } else { &self.udp });
        add(&self.codes[code_of(response)]);
        if response.len() >= 12 && response[2] & 2 != 0 {
            add(&self.truncated);
        }
    }

    /// Counts a request with a cookie of this server.
    pub fn add_cookie(&self) {
        add(&self.with_cookie);
    }

    pub fn add_to(&self, sum: &mut Sum) {
        let read = |it: &AtomicU64| it.load(Ordering::Relaxed);
        sum.udp += read(&self.udp);
        sum.tcp += read(&self.tcp);
        sum.truncated += read(&self.truncated);
        sum.with_cookie += read(&self.with_cookie);
        sum.codes.iter_mut().zip(&self.codes).for_each(|(sum, it)| *sum += read(it));
    }
}

impl Sum {
    /// The codes that some response had, and how many.
    pub fn given(&self) -> impl Iterator<Item = (&'static str, u64)> + '_ {
        CODES.iter().copied().zip(self.codes).filter(|it| it.1 > 0)
    }
}

#[cfg(test)]
mod tests {
    use super::*;

    #[test]
    fn codes_are_told_apart() {
        let mut badvers = vec![0; 12];
        badvers[11] = 1;
        badvers.extend_from_slice(&[0, 0, 41, 4, 208, 1, 0, 0, 0, 0, 0]);
        let nxdomain = [0, 0, 0x82, 3, 0, 0, 0, 0, 0, 0, 0, 0];
        let counts = Counts::default();
        for (is_stream, response) in [(false, &badvers[..]), (true, &nxdomain[..]), (false, &[][..])] {
            counts.add(is_stream, response);
        }
        let mut sum = Sum::default();
        counts.add_to(&mut sum);
        assert_eq!((sum.udp, sum.tcp, sum.truncated), (2, 1, 1));
        assert_eq!(sum.given().collect::<Vec<_>>(), [("NXDOMAIN", 1), ("BADVERS", 1), ("none", 1)]);
    }
}
