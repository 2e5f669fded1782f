//! Responses that were given. A response follows from the zone, the moment and the octets of the request, of which it has the id: so the
//! same request is answered by the same octets as long as the moment and the zone are the same. A request that is not here costs a look
//! at one place, so that requests for names at random fill the table and slow nothing.

use std::sync::atomic::{AtomicU64, Ordering};
use std::sync::{Mutex, PoisonError};

const REQUEST_ROOM: usize = 288;
const RESPONSE_ROOM: usize = 1232;

/// When a response holds: the moment, and the zone by how many octets of the journal it follows.
#[derive(Clone, Copy, PartialEq, Eq)]
pub struct Version {
    pub moment: u64,
    pub zone: u64,
}

struct Given {
    version: Version,
    is_stream: bool,
    request: Vec<u8>,
    response: Vec<u8>,
}

/// The responses that all threads share.
pub struct Responses {
    places: Vec<Mutex<Option<Given>>>,
    pub found: AtomicU64,
}

impl Responses {
    pub fn new(count: usize) -> Self {
        Responses { places: (0..count).map(|_| Mutex::new(None)).collect(), found: AtomicU64::new(0) }
    }

    /// The place of a request: by FNV-1a of the octets behind its id.
    fn place(&self, request: &[u8], is_stream: bool) -> Option<&Mutex<Option<Given>>> {
        if self.places.is_empty() || request.len() < 12 || request.len() > REQUEST_ROOM {
            return None;
        }
        let begin = 14_695_981_039_346_656_037 ^ u64::from(is_stream);
        let hash = request[2..].iter().fold(begin, |hash, it| (hash ^ u64::from(*it)).wrapping_mul(1_099_511_628_211));
        self.places.get((hash ^ hash >> 32) as usize % self.places.len())
    }

    /// Writes the response that the same request had at this version; false where there is none.
    pub fn give_again(&self, version: Version, request: &[u8], is_stream: bool, out: &mut Vec<u8>) -> bool {
        let place = match self.place(request, is_stream) {
            Some(place) => place.lock().unwrap_or_else(PoisonError::into_inner),
            None => return false,
        };
        let is_same = |it: &&Given| it.version == version && it.is_stream == is_stream && it.request[2..] == request[2..];
        let given = match place.as_ref().filter(is_same) {
            Some(given) => given,
            None => return false,
        };
        out.clear();
        out.extend_from_slice(&given.response);
        out[..2].copy_from_slice(&request[..2]);
        self.found.fetch_add(1, Ordering::Relaxed);
        true
    }

    /// Keeps the response of a request, in the place of another one.
    pub fn keep(&self, version: Version, request: &[u8], is_stream: bool, response: &[u8]) {
        if response.len() < 12 || response.len() > RESPONSE_ROOM {
            return;
        }
        if let Some(place) = self.place(request, is_stream) {
            let mut place = place.lock().unwrap_or_else(PoisonError::into_inner);
            let given = place.get_or_insert_with(|| Given { version, is_stream, request: Vec::new(), response: Vec::new() });
            given.version = version;
            given.is_stream = is_stream;
            given.request.clear();
            given.request.extend_from_slice(request);
            given.response.clear();
            given.response.extend_from_slice(response);
        }
    }
}

#[cfg(test)]
mod tests {
    use super::*;

    #[test]
    fn the_same_request_gets_the_same_octets() {
        let (responses, version) = (Responses::new(64), Version { moment: 7, zone: 9 });
        let (request, response) = ([1; 20], [2; 30]);
        responses.keep(version, &request, false, &response);
        let mut out = Vec::new();
        let mut other = request;
        other[0] = 9;
        assert!(responses.give_again(version, &other, false, &mut out));
        assert_eq!((out[..3].to_vec(), out.len()), (vec![9, 1, 2], 30));
        assert!(!responses.give_again(version, &request, true, &mut out));
        assert!(!responses.give_again(Version { zone: 10, ..version }, &request, false, &mut out));
        other[19] = 9;
        assert!(!responses.give_again(version, &other, false, &mut out));
        assert!(!Responses::new(0).give_again(version, &request, false, &mut out));
    }
}
