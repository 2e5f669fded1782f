//! Signatures that were made, by key and octets. Those of a moment are of no use behind it, so all are dropped then.

use std::collections::HashMap;
use std::sync::atomic::{AtomicU64, Ordering};
use std::sync::{Arc, Mutex, PoisonError};

use openssl::sha::Sha256;
use zermuita::{Algorithm, SignError, Signer};

use super::keys::Keys;
use super::log;

const SHARDS: usize = 16;
/// How many signatures of a moment a shard has at most.
const KEPT: usize = 1024;

#[derive(Default)]
struct Shard {
    moment: u64,
    kept: HashMap<[u8; 32], Vec<u8>>,
}

/// The signatures that all threads share.
#[derive(Default)]
pub struct Kept {
    shards: [Mutex<Shard>; SHARDS],
    pub made: AtomicU64,
    pub found: AtomicU64,
    /// The last moment of which one could not be made.
    missed: AtomicU64,
}

/// Makes the signatures of a moment.
pub struct Making<'a> {
    pub kept: &'a Kept,
    pub keys: &'a Arc<Keys>,
    pub moment: u64,
}

/// SHA-256 of key and octets, the key's length first, so that no other two make the same row.
fn digest_of(dnskey: &[u8], octets: &[u8]) -> [u8; 32] {
    let mut digest = Sha256::new();
    digest.update(&dnskey.len().to_be_bytes());
    digest.update(dnskey);
    digest.update(octets);
    digest.finish()
}

impl Kept {
    fn find(&self, moment: u64, digest: &[u8; 32]) -> Option<Vec<u8>> {
        let shard = self.shards[usize::from(digest[0]) % SHARDS].lock().unwrap_or_else(PoisonError::into_inner);
        shard.kept.get(digest).filter(|_| shard.moment == moment).cloned()
    }

    fn keep(&self, moment: u64, digest: [u8; 32], signature: Vec<u8>) {
        let mut shard = self.shards[usize::from(digest[0]) % SHARDS].lock().unwrap_or_else(PoisonError::into_inner);
        if shard.moment != moment || shard.kept.len() == KEPT {
            shard.moment = moment;
            shard.kept.clear();
        }
        shard.kept.insert(digest, signature);
    }
}

impl Making<'_> {
    fn make(&self, dnskey: &[u8], octets: &[u8]) -> Result<Vec<u8>, SignError> {
        let algorithm = Algorithm(dnskey.get(3).copied().unwrap_or(0));
        let key = self.keys.find(algorithm, dnskey.get(4..).unwrap_or(&[]));
        let key = key.ok_or_else(|| SignError::new(algorithm, "no key of the folder makes it"))?;
        key.sign(octets).map_err(|error| SignError::new(algorithm, error.to_string()))
    }
}

impl Signer for Making<'_> {
    fn sign(&mut self, dnskey: &[u8], octets: &[u8]) -> Result<Vec<u8>, SignError> {
        let digest = digest_of(dnskey, octets);
        if let Some(signature) = self.kept.find(self.moment, &digest) {
            self.kept.found.fetch_add(1, Ordering::Relaxed);
            return Ok(signature);
        }
        let made = self.make(dnskey, octets);
        match &made {
            Ok(signature) => {
                self.kept.made.fetch_add(1, Ordering::Relaxed);
                self.kept.keep(self.moment, digest, signature.clone());
            }
            Err(error) if self.kept.missed.swap(self.moment, Ordering::Relaxed) != self.moment => {
                let folder = self.keys.folder.display().to_string();
                log::failure("signature", error).with("folder", folder).with("algorithm", dnskey.get(3).copied().unwrap_or(0)).write();
            }
            Err(_) => {}
        }
        made
    }
}
