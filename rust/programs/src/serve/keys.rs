//! Private keys in PEM files, by OpenSSL: P-256, P-384, Ed25519, Ed448 and RSA with SHA-256 (RFC 8624, 3.1).

use std::fs::File;
use std::io;
use std::path::PathBuf;
use std::sync::{Arc, PoisonError, RwLock};

use openssl::ecdsa::EcdsaSig;
use openssl::error::ErrorStack;
use openssl::hash::MessageDigest;
use openssl::nid::Nid;
use openssl::pkey::{Id, PKey, Private};
use openssl::sign::Signer;
use zermuita::Algorithm;

use super::journal::keep_names;
use super::log;

/// How many keys a folder has at most.
const KEYS: usize = 64;
/// How many octets a modulus, and thus a signature, has at most.
const RSA_ROOM: usize = 512;

/// A private key, and its octets as a DNSKEY record has them.
pub struct Key {
    pair: PKey<Private>,
    pub algorithm: Algorithm,
    pub octets: Vec<u8>,
}

/// How many octets a coordinate has (RFC 6605, 4).
fn width(algorithm: Algorithm) -> i32 {
    if algorithm == Algorithm::ECDSAP384SHA384 { 48 } else { 32 }
}

/// Both coordinates of a point.
fn point(pair: &PKey<Private>) -> Result<Option<(Algorithm, Vec<u8>)>, ErrorStack> {
    let key = pair.ec_key()?;
    let algorithm = match key.group().curve_name() {
        Some(Nid::X9_62_PRIME256V1) => Algorithm::ECDSAP256SHA256,
        Some(Nid::SECP384R1) => Algorithm::ECDSAP384SHA384,
        _ => return Ok(None),
    };
    let mut context = openssl::bn::BigNumContext::new()?;
    let form = openssl::ec::PointConversionForm::UNCOMPRESSED;
    let octets = key.public_key().to_bytes(key.group(), form, &mut context)?;
    Ok(Some((algorithm, octets[1..].to_vec())))
}

/// The exponent behind its length, and the modulus (RFC 3110, 2), which has as many octets as a signature.
fn rsa(pair: &PKey<Private>) -> Result<Option<(Algorithm, Vec<u8>)>, ErrorStack> {
    let key = pair.rsa()?;
    let (exponent, modulus) = (key.e().to_vec(), key.n().to_vec());
    let len = u8::try_from(exponent.len()).ok().filter(|_| modulus.len() <= RSA_ROOM);
    Ok(len.map(|len| (Algorithm::RSASHA256, [&[len], &exponent[..], &modulus].concat())))
}

fn public(pair: &PKey<Private>) -> Result<Option<(Algorithm, Vec<u8>)>, ErrorStack> {
    match pair.id() {
        Id::EC => point(pair),
        Id::RSA => rsa(pair),
        Id::ED25519 => Ok(Some((Algorithm::ED25519, pair.raw_public_key()?))),
        Id::ED448 => Ok(Some((Algorithm::ED448, pair.raw_public_key()?))),
        _ => Ok(None),
    }
}

impl Key {
    /// Reads a key of PEM. None where it is none that this server signs with. One with a password is not read: nobody is there to type it.
    pub fn read(pem: &[u8]) -> Option<Self> {
        let pair = PKey::private_key_from_pem_callback(pem, |_| Ok(0)).ok()?;
        let (algorithm, octets) = public(&pair).ok()??;
        Some(Key { pair, algorithm, octets })
    }

    /// A new key of P-256, and its PEM.
    pub fn generate() -> Result<Vec<u8>, ErrorStack> {
        let group = openssl::ec::EcGroup::from_curve_name(Nid::X9_62_PRIME256V1)?;
        PKey::from_ec_key(openssl::ec::EcKey::generate(&group)?)?.private_key_to_pem_pkcs8()
    }

    /// Signs octets, as RRSIG records have it.
    pub fn sign(&self, octets: &[u8]) -> Result<Vec<u8>, ErrorStack> {
        let digest = match self.algorithm {
            Algorithm::ED25519 | Algorithm::ED448 => return Signer::new_without_digest(&self.pair)?.sign_oneshot_to_vec(octets),
            Algorithm::ECDSAP384SHA384 => MessageDigest::sha384(),
            _ => MessageDigest::sha256(),
        };
        let signature = Signer::new(digest, &self.pair)?.sign_oneshot_to_vec(octets)?;
        if self.algorithm == Algorithm::RSASHA256 {
            return Ok(signature);
        }
        let pair = EcdsaSig::from_der(&signature)?;
        let width = width(self.algorithm);
        Ok([pair.r().to_vec_padded(width)?, pair.s().to_vec_padded(width)?].concat())
    }
}

/// The keys of a folder, as they were read.
pub struct Keys {
    pub folder: PathBuf,
    list: RwLock<Vec<Arc<Key>>>,
}

impl Keys {
    pub fn new(folder: PathBuf) -> Self {
        Keys { folder, list: RwLock::default() }
    }

    fn path(&self, name: &str) -> PathBuf {
        self.folder.join(format!("{name}.pem"))
    }

    /// The key of these octets, if it was read.
    pub fn find(&self, algorithm: Algorithm, octets: &[u8]) -> Option<Arc<Key>> {
        let list = self.list.read().unwrap_or_else(PoisonError::into_inner);
        list.iter().find(|it| it.algorithm == algorithm && it.octets == octets).cloned()
    }

    /// The key of a name, as NAME.pem has it now: since it was read last another one may have been put there.
    pub fn named(&self, name: &str) -> Option<Arc<Key>> {
        if name.contains('/') || name.len() >= 128 {
            return None;
        }
        let read = Key::read(&std::fs::read(self.path(name)).ok()?)?;
        if let Some(known) = self.find(read.algorithm, &read.octets) {
            return Some(known);
        }
        let mut list = self.list.write().unwrap_or_else(PoisonError::into_inner);
        if list.len() == KEYS {
            return None;
        }
        let key = Arc::new(read);
        list.push(key.clone());
        Some(key)
    }

    /// Logs that no key was read of a name's file.
    pub fn log_unread(&self, name: &str) {
        let why = "not readable, not a key that this server signs with, or too many";
        log::failure("key", why).with("folder", self.folder.display().to_string()).with("key", name).write();
    }

    /// Reads all keys of the folder, since the zone may sign with any.
    pub fn read_all(&self) {
        let entries = match std::fs::read_dir(&self.folder) {
            Ok(entries) => entries,
            Err(error) => return log::failure(self.folder.display(), error).write(),
        };
        for entry in entries.flatten() {
            let name = entry.file_name().to_string_lossy().into_owned();
            if let Some(name) = name.strip_suffix(".pem") {
                if self.named(name).is_none() {
                    self.log_unread(name);
                }
            }
        }
    }

    /// Sees to it that a key's file is on disk, if it is in a file system that has one.
    pub fn keep(&self, name: &str) -> io::Result<()> {
        let is_kept = |done: io::Result<()>| match done {
            Err(error) if !matches!(error.raw_os_error(), Some(nix::libc::EROFS | nix::libc::EINVAL)) => Err(error),
            _ => Ok(()),
        };
        is_kept(File::open(self.path(name))?.sync_all())?;
        is_kept(keep_names(&self.folder))
    }
}

#[cfg(test)]
mod tests {
    use super::*;
    use zermuita::crypto::{OpenSsl, Signatures};
    use zermuita::Ask;

    fn passes(pair: PKey<Private>, algorithm: Algorithm, len: usize) {
        let key = Key::read(&pair.private_key_to_pem_pkcs8().unwrap()).unwrap();
        let signature = key.sign(b"octets").unwrap();
        assert_eq!((key.algorithm, signature.len()), (algorithm, len));
        let dnskey = [&[1, 1, 3, algorithm.0], &key.octets[..]].concat();
        let ask = Ask { dnskey: &dnskey, octets: b"octets", signature: &signature };
        assert_eq!(OpenSsl.verify(&ask), Ok(true), "{algorithm}");
    }

    #[test]
    fn signatures_pass() {
        for (curve, algorithm, len) in [
            (Nid::X9_62_PRIME256V1, Algorithm::ECDSAP256SHA256, 64),
            (Nid::SECP384R1, Algorithm::ECDSAP384SHA384, 96),
        ] {
            let group = openssl::ec::EcGroup::from_curve_name(curve).unwrap();
            passes(PKey::from_ec_key(openssl::ec::EcKey::generate(&group).unwrap()).unwrap(), algorithm, len);
        }
        passes(PKey::generate_ed25519().unwrap(), Algorithm::ED25519, 64);
        passes(PKey::generate_ed448().unwrap(), Algorithm::ED448, 114);
        passes(PKey::from_rsa(openssl::rsa::Rsa::generate(2048).unwrap()).unwrap(), Algorithm::RSASHA256, 256);
    }

    #[test]
    fn what_is_no_key_is_not_read() {
        let group = openssl::ec::EcGroup::from_curve_name(Nid::SECP256K1).unwrap();
        let other = PKey::from_ec_key(openssl::ec::EcKey::generate(&group).unwrap()).unwrap().private_key_to_pem_pkcs8().unwrap();
        let pair = PKey::generate_ed25519().unwrap();
        let locked = pair.private_key_to_pem_pkcs8_passphrase(openssl::symm::Cipher::aes_128_cbc(), b"secret").unwrap();
        for pem in [&b""[..], b"-----BEGIN", &other, &locked] {
            assert!(Key::read(pem).is_none());
        }
    }
}
