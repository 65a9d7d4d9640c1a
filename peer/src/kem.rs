//! The KEM pair around sealing and opening (specification, 6.4).

use crate::keys::{PrivateKey, PublicKey};
use crate::open::open;
use crate::refusal::Refusal;
use crate::seal::{seal, Sealed};

/// Seals the secret, then zero bytes up to k1; `None` as [`seal`].
///
/// # Panics
/// If the secret is longer than k1.
pub fn wrap(key: &PublicKey, random: &[u8], secret: &[u8]) -> Option<Sealed> {
    let mut message = secret.to_vec();
    assert!(message.len() <= key.set.k1);
    message.resize(key.set.k1, 0);
    seal(key, random, &message)
}

/// Opens a ciphertext and answers the first `length` bytes; the rest is ignored.
///
/// # Panics
/// If the length is above k1, or the ciphertext does not have the set's length.
pub fn unwrap(key: PrivateKey, cipher: &[u8], length: usize) -> Result<Vec<u8>, Refusal> {
    assert!(length <= key.set.k1);
    let mut message = open(key, cipher)?;
    message.truncate(length);
    Ok(message)
}
