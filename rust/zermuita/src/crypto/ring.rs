//! By ring.
#![forbid(unsafe_code)]

use ring::signature::{self, RsaPublicKeyComponents, UnparsedPublicKey};

use super::{rsa_numbers, Algorithm, SignatureError, Signatures};
use crate::Ask;

/// Signatures are checked by ring: RSA with SHA-256 and SHA-512, of 1,024 bits at least, ECDSA and Ed25519.
#[derive(Clone, Copy, Debug, Default)]
pub struct Ring;

const ALGORITHMS: [Algorithm; 5] = [
    Algorithm::RSASHA256,
    Algorithm::RSASHA512,
    Algorithm::ECDSAP256SHA256,
    Algorithm::ECDSAP384SHA384,
    Algorithm::ED25519,
];

fn rsa(ask: &Ask<'_>, parameters: &signature::RsaParameters) -> bool {
    rsa_numbers(ask.key()).map_or(false, |(e, n)| {
        // ring wants both numbers without zeros in front.
        let start = |number: &[u8]| number.iter().take_while(|it| **it == 0).count();
        let key = RsaPublicKeyComponents { n: &n[start(n)..], e: &e[start(e)..] };
        key.verify(parameters, ask.octets, ask.signature).is_ok()
    })
}

/// Whether a curve's signature passes: a point is its coordinates behind an octet of 4 (RFC 6605, 4).
fn ecdsa(ask: &Ask<'_>, algorithm: &'static signature::EcdsaVerificationAlgorithm) -> bool {
    let point = [&[4], ask.key()].concat();
    UnparsedPublicKey::new(algorithm, point).verify(ask.octets, ask.signature).is_ok()
}

impl Signatures for Ring {
    fn algorithms(&self) -> &[Algorithm] {
        &ALGORITHMS
    }

    fn verify(&self, ask: &Ask<'_>) -> Result<bool, SignatureError> {
        Ok(match ask.algorithm() {
            Algorithm::RSASHA256 => rsa(ask, &signature::RSA_PKCS1_1024_8192_SHA256_FOR_LEGACY_USE_ONLY),
            Algorithm::RSASHA512 => rsa(ask, &signature::RSA_PKCS1_1024_8192_SHA512_FOR_LEGACY_USE_ONLY),
            Algorithm::ECDSAP256SHA256 => ecdsa(ask, &signature::ECDSA_P256_SHA256_FIXED),
            Algorithm::ECDSAP384SHA384 => ecdsa(ask, &signature::ECDSA_P384_SHA384_FIXED),
            Algorithm::ED25519 => {
                UnparsedPublicKey::new(&signature::ED25519, ask.key()).verify(ask.octets, ask.signature).is_ok()
            }
            _ => false,
        })
    }
}
