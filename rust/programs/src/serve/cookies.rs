//! Cookies of the server (RFC 7873): those of version 1, which servers of one secret can tell from others' (RFC 9018, 4).

use std::hash::Hasher;
use std::net::IpAddr;

use siphasher::sip::SipHasher24;

use super::query::Cookie;

/// For how many seconds a cookie is good, how far ahead it may be, and from when on a new one is given (RFC 9018, 4.3).
const GOOD: u32 = 3600;
const AHEAD: u32 = 300;
const FRESH: u32 = 1800;

/// The secret of the server's cookies.
pub struct Cookies([u8; 16]);

impl Cookies {
    pub fn new(secret: [u8; 16]) -> Self {
        Cookies(secret)
    }

    /// The cookie of a client at a second, behind the client's own.
    fn made(&self, client: [u8; 8], address: IpAddr, second: u32) -> [u8; 24] {
        let mut cookie = [0; 24];
        cookie[..8].copy_from_slice(&client);
        cookie[8] = 1;
        cookie[12..16].copy_from_slice(&second.to_be_bytes());
        let mut hasher = SipHasher24::new_with_key(&self.0);
        hasher.write(&cookie[..16]);
        match address {
            IpAddr::V4(it) => hasher.write(&it.octets()),
            IpAddr::V6(it) => hasher.write(&it.octets()),
        }
        cookie[16..].copy_from_slice(&hasher.finish().to_le_bytes());
        cookie
    }

    /// Whether a request's cookie was given by this server, and what its response has.
    pub fn judged(&self, sent: &Cookie, address: IpAddr, now: u64) -> (bool, [u8; 24]) {
        let now = now as u32;
        let renewed = || self.made(sent.client, address, now);
        let second = match sent.server.get(4..8).and_then(|it| it.try_into().ok()) {
            Some(second) if sent.server.len() == 16 => u32::from_be_bytes(second),
            _ => return (false, renewed()),
        };
        let cookie = self.made(sent.client, address, second);
        // Serial numbers (RFC 1982).
        let age = now.wrapping_sub(second);
        let is_in_time = age <= GOOD || age.wrapping_neg() <= AHEAD;
        let is_good = is_in_time && openssl::memcmp::eq(&cookie[8..], &sent.server);
        (is_good, if is_good && age <= FRESH { cookie } else { renewed() })
    }
}

#[cfg(test)]
mod tests {
    use super::*;

    fn octets(hex: &str) -> Vec<u8> {
        (0..hex.len()).step_by(2).map(|at| u8::from_str_radix(&hex[at..at + 2], 16).unwrap()).collect()
    }

    fn cookie(hex: &str) -> Cookie {
        let octets = octets(hex);
        Cookie { client: octets[..8].try_into().unwrap(), server: octets[8..].to_vec() }
    }

    fn cookies(hex: &str) -> Cookies {
        Cookies::new(octets(hex).try_into().unwrap())
    }

    const SECRET: &str = "e5e973e5a6b2a43f48e7dc849e37bfcf";

    // RFC 9018, appendix A.
    #[test]
    fn cookies_are_those_of_the_standard() {
        let here = "198.51.100.100".parse().unwrap();
        let (is_good, made) = cookies(SECRET).judged(&cookie("2464c4abcf10c957"), here, 1_559_731_985);
        assert_eq!((is_good, made.to_vec()), (false, octets("2464c4abcf10c957010000005cf79f111f8130c3eee29480")));
        // Renewed where it is older than half an hour: A.2.
        let old = cookie("2464c4abcf10c957010000005cf79f111f8130c3eee29480");
        let (is_good, made) = cookies(SECRET).judged(&old, here, 1_559_734_385);
        assert_eq!((is_good, made.to_vec()), (true, octets("2464c4abcf10c957010000005cf7a871d4a564a1442aca77")));
        // Of IPv6, with a secret that was changed: A.4.
        let here = "2001:db8:220:1:59de:d0f4:8769:82b8".parse().unwrap();
        let (is_good, made) = cookies("445536bcd2513298075a5d379663c962").judged(&cookie("22681ab97d52c298"), here, 1_559_741_961);
        assert_eq!((is_good, made.to_vec()), (false, octets("22681ab97d52c298010000005cf7c609a6bb79d16625507a")));
    }

    #[test]
    fn others_are_not_good() {
        let here = "198.51.100.100".parse().unwrap();
        let good = cookie("2464c4abcf10c957010000005cf79f111f8130c3eee29480");
        let judged = |it: &Cookie, here, now| cookies(SECRET).judged(it, here, now).0;
        assert!(judged(&good, here, 1_559_731_985 - 300) && judged(&good, here, 1_559_731_985 + 3600));
        assert!(!judged(&good, here, 1_559_731_985 - 301) && !judged(&good, here, 1_559_731_985 + 3601));
        assert!(!judged(&good, "198.51.100.101".parse().unwrap(), 1_559_731_985));
        let mut other = good;
        other.server[15] ^= 1;
        assert!(!judged(&other, here, 1_559_731_985));
    }
}
