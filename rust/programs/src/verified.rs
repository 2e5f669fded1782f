//! Signatures that were checked before.

use std::sync::atomic::{AtomicU64, Ordering};
use std::time::Duration;

use openssl::sha::Sha256;
use tokio::time::Instant;
use zermuita::crypto::OpenSsl;
use zermuita::{Algorithm, Ask, SignatureError, Signatures};

use crate::bounded::Bounded;

/// For how long it is kept what came of a signature: whether it holds at a moment is not asked here.
const KEPT: Duration = Duration::from_secs(3600);

/// Checks signatures by OpenSSL, and keeps what came of them under the hash of all that they are.
pub struct Verified {
    kept: Bounded<[u8; 32], bool>,
    checked: AtomicU64,
}

impl Verified {
    pub fn new(room: usize) -> Self {
        Verified { kept: Bounded::new(room), checked: AtomicU64::new(0) }
    }

    /// How many signatures were checked.
    pub fn checked(&self) -> u64 {
        self.checked.load(Ordering::Relaxed)
    }
}

fn mark(ask: &Ask<'_>) -> [u8; 32] {
    let mut hash = Sha256::new();
    for part in [ask.dnskey, ask.octets, ask.signature] {
        hash.update(&(part.len() as u64).to_be_bytes());
        hash.update(part);
    }
    hash.finish()
}

impl Signatures for Verified {
    fn algorithms(&self) -> &[Algorithm] {
        const ALL: OpenSsl = OpenSsl;
        ALL.algorithms()
    }

    fn verify(&self, ask: &Ask<'_>) -> Result<bool, SignatureError> {
        let mark = mark(ask);
        if let Some(passes) = self.kept.get(&mark) {
            return Ok(passes);
        }
        let passes = OpenSsl.verify(ask)?;
        self.checked.fetch_add(1, Ordering::Relaxed);
        self.kept.insert(mark, passes, Instant::now() + KEPT);
        Ok(passes)
    }
}
