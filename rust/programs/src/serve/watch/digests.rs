//! Whether a parent's DS set names the keys that it is to name. Parents choose the digests that they publish: some have SHA-384, or both,
//! while the server tells SHA-256 (RFC 4509; RFC 6605, 2).

use openssl::hash::{hash, MessageDigest};
use zermuita::Name;

use super::ask::Set;

const SHA256: u8 = 2;
const SHA384: u8 = 4;

/// RFC 4034, appendix B.
fn key_tag(key: &[u8]) -> u16 {
    let octet = |(at, it): (usize, &u8)| if at % 2 == 0 { u32::from(*it) << 8 } else { u32::from(*it) };
    let sum: u32 = key.iter().enumerate().map(octet).sum();
    (sum + (sum >> 16)) as u16
}

/// The DS data of a DNSKEY record by a digest (RFC 4034, 5.1.4).
fn digest(owner: &Name, key: &[u8], kind: u8) -> Option<Vec<u8>> {
    let with = if kind == SHA256 { MessageDigest::sha256() } else { MessageDigest::sha384() };
    let digest = hash(with, &[&owner.to_canonical()[..], key].concat()).ok()?;
    Some([&key_tag(key).to_be_bytes()[..], &[*key.get(3)?, kind], &digest].concat())
}

/// The DS data of all keys of a DNSKEY set, with each digest that is made here.
pub fn digests_of(keys: &Set, owner: &Name) -> Set {
    let data = keys.data.iter().flat_map(|key| [SHA256, SHA384].map(|kind| digest(owner, key, kind)));
    Set { data: data.flatten().collect(), ttl: 0 }
}

/// Whether a set has a record that begins with the same octets: key tag and algorithm are three, and with the digest's type four.
fn has_start(set: &Set, data: &[u8], len: usize) -> bool {
    set.data.iter().any(|it| it.get(..len).is_some() && it.get(..len) == data.get(..len))
}

/// Whether a parent's set names exactly the wanted keys: it has no other key's record, each of its digests that can be made here is right,
/// and of each key it has one of these. `made` has the DS data of the keys that the zone publishes.
pub fn names_wanted(found: &Set, wanted: &Set, made: &Set) -> bool {
    let is_right = |it: &Vec<u8>| {
        let can_be_made = has_start(wanted, it, 4) || has_start(made, it, 4);
        has_start(wanted, it, 3) && (!can_be_made || wanted.data.contains(it) || made.data.contains(it))
    };
    let is_named = |it: &Vec<u8>| {
        let of_key = |other: &&Vec<u8>| other.get(..3) == it.get(..3);
        found.data.contains(it) || made.data.iter().filter(of_key).any(|it| found.data.contains(it))
    };
    found.data.iter().all(is_right) && wanted.data.iter().all(is_named)
}

#[cfg(test)]
mod tests {
    use super::*;

    fn set(data: &[&[u8]]) -> Set {
        Set { data: data.iter().map(|it| it.to_vec()).collect(), ttl: 0 }
    }

    // RFC 4509, 2.3.
    #[test]
    fn digests_are_those_of_the_standard() {
        let key = openssl::base64::decode_block(concat!(
            "AQOeiiR0GOMYkDshWoSKz9XzfwJr1AYtsmx3TGkJaNXVbfi/2pHm822aJ5iI9BMzNXxeYCmZDRD99WYwYqUSdjMmmAphXdvx",
            "egXd/M5+X7OrzKBaMbCVdFLUUh6DhweJBjEVv5f2wwjM9XzcnOf+EPbtG9DMBmADjFDc2w/rljwvFw=="
        ));
        let key = [&[1, 0, 3, 5][..], &key.unwrap()].concat();
        let made = digests_of(&set(&[&key]), &"dskey.example.com.".parse().unwrap());
        assert_eq!(made.data[0][..8], [60485_u16.to_be_bytes()[0], 60485_u16.to_be_bytes()[1], 5, 2, 0xd4, 0xb7, 0xd5, 0x20]);
    }

    #[test]
    fn sets_name_the_wanted_keys() {
        let (wanted, made) = (set(&[&[0, 1, 13, 2, 7]]), set(&[&[0, 1, 13, 2, 7], &[0, 1, 13, 4, 8], &[0, 2, 13, 2, 9]]));
        assert!(names_wanted(&set(&[&[0, 1, 13, 2, 7]]), &wanted, &made));
        assert!(names_wanted(&set(&[&[0, 1, 13, 4, 8]]), &wanted, &made));
        // A digest that is not made here says nothing beside one that is.
        assert!(names_wanted(&set(&[&[0, 1, 13, 2, 7], &[0, 1, 13, 1, 5]]), &wanted, &made));
        let others: [&[&[u8]]; 4] = [&[&[0, 1, 13, 4, 0]], &[&[0, 1, 13, 1, 5]], &[&[0, 1, 13, 2, 7], &[0, 2, 13, 2, 9]], &[]];
        for wrong in others {
            assert!(!names_wanted(&set(wrong), &wanted, &made));
        }
    }
}
