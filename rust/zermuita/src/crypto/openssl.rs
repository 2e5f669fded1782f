//! By OpenSSL.
#![forbid(unsafe_code)]

use openssl::bn::{BigNum, BigNumContext};
use openssl::ec::{EcGroup, EcKey, EcPoint};
use openssl::ecdsa::EcdsaSig;
use openssl::error::ErrorStack;
use openssl::hash::MessageDigest;
use openssl::nid::Nid;
use openssl::pkey::{Id, PKey, Public};
use openssl::rsa::Rsa;
use openssl::sign::Verifier;

use super::{rsa_numbers, Algorithm, SignatureError, Signatures};
use crate::Ask;

/// Signatures are checked by OpenSSL: RSA with SHA-256 and SHA-512, ECDSA, Ed25519 and Ed448 (RFC 8624, 3.1).
#[derive(Clone, Copy, Debug, Default)]
pub struct OpenSsl;

const ALGORITHMS: [Algorithm; 6] = [
    Algorithm::RSASHA256,
    Algorithm::RSASHA512,
    Algorithm::ECDSAP256SHA256,
    Algorithm::ECDSAP384SHA384,
    Algorithm::ED25519,
    Algorithm::ED448,
];

/// A curve, and how many octets a coordinate has (RFC 6605, 4).
struct Curve(Nid, usize);

const P256: Curve = Curve(Nid::X9_62_PRIME256V1, 32);
const P384: Curve = Curve(Nid::SECP384R1, 48);

fn rsa(ask: &Ask<'_>, digest: MessageDigest) -> Result<bool, ErrorStack> {
    let (exponent, modulus) = match rsa_numbers(ask.key()) {
        Some(numbers) => numbers,
        None => return Ok(false),
    };
    let key = Rsa::from_public_components(BigNum::from_slice(modulus)?, BigNum::from_slice(exponent)?)?;
    let key = PKey::from_rsa(key)?;
    let mut verifier = Verifier::new(digest, &key)?;
    verifier.verify_oneshot(ask.signature, ask.octets)
}

fn ecdsa_key(curve: &Curve, key: &[u8]) -> Result<PKey<Public>, ErrorStack> {
    let group = EcGroup::from_curve_name(curve.0)?;
    let point = [&[4], key].concat();
    let point = EcPoint::from_bytes(&group, &point, &mut *BigNumContext::new()?)?;
    let key = EcKey::from_public_key(&group, &point)?;
    key.check_key()?;
    PKey::from_ec_key(key)
}

fn ecdsa(ask: &Ask<'_>, curve: &Curve, digest: MessageDigest) -> Result<bool, ErrorStack> {
    if ask.key().len() != 2 * curve.1 || ask.signature.len() != 2 * curve.1 {
        return Ok(false);
    }
    let (first, second) = ask.signature.split_at(curve.1);
    let pair = EcdsaSig::from_private_components(BigNum::from_slice(first)?, BigNum::from_slice(second)?)?;
    let key = ecdsa_key(curve, ask.key())?;
    let mut verifier = Verifier::new(digest, &key)?;
    verifier.verify_oneshot(&pair.to_der()?, ask.octets)
}

fn edwards(ask: &Ask<'_>, id: Id) -> Result<bool, ErrorStack> {
    let key = PKey::public_key_from_raw_bytes(ask.key(), id)?;
    let mut verifier = Verifier::new_without_digest(&key)?;
    verifier.verify_oneshot(ask.signature, ask.octets)
}

/// `ERR_R_MALLOC_FAILURE` of OpenSSL's err.h: the one reason that is not of the key or the signature.
const OUT_OF_MEMORY: &str = "malloc failure";

impl Signatures for OpenSsl {
    fn algorithms(&self) -> &[Algorithm] {
        &ALGORITHMS
    }

    fn verify(&self, ask: &Ask<'_>) -> Result<bool, SignatureError> {
        let verified = match ask.algorithm() {
            Algorithm::RSASHA256 => rsa(ask, MessageDigest::sha256()),
            Algorithm::RSASHA512 => rsa(ask, MessageDigest::sha512()),
            Algorithm::ECDSAP256SHA256 => ecdsa(ask, &P256, MessageDigest::sha256()),
            Algorithm::ECDSAP384SHA384 => ecdsa(ask, &P384, MessageDigest::sha384()),
            Algorithm::ED25519 => edwards(ask, Id::ED25519),
            Algorithm::ED448 => edwards(ask, Id::ED448),
            _ => Ok(false),
        };
        match verified {
            Ok(passes) => Ok(passes),
            Err(errors) if errors.errors().iter().any(|it| it.reason() == Some(OUT_OF_MEMORY)) => {
                Err(SignatureError::new("OpenSSL ran out of memory"))
            }
            // Any other error is of a key or a signature that cannot be read.
            Err(_) => Ok(false),
        }
    }
}
