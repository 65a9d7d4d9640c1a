//! The public calls: the library's C interface over slices.
//!
//! Every call takes slices of any length with any contents, and answers one number: the answer's number ([`Refusal`],
//! 0 when done) plus 256 times the count. The count is p + 1 for [`setup`], the number of the random block for
//! [`seal`] and [`wrap`], and 0 for all others and for all refusals.
//!
//! | answer | output buffers | work area |
//! |---|---|---|
//! | 0 | full | zero |
//! | 1, 2, 11 | as before | as before |
//! | 3 to 10 | zero | zero |
//!
//! The order of refusals: an empty key 2, the set byte 1, every other length 2, the secret's length 11, then rising
//! numbers. The lengths are those of the set that the key's first byte names. This implementation allocates what it
//! needs; it only clears the work area as the rule wants it.

use crate::bits;
use crate::field;
use crate::kem;
use crate::keys::{PrivateKey, PublicKey};
use crate::perm::{Permutation, LONGEST as LONGEST_LIST};
use crate::refusal::Refusal;
use crate::seal::Sealed;
use crate::sets::Set;

/// Key setup: makes both keys of a set from random bytes. The count is p + 1.
///
/// Refusals: 1; 2; 3, 4, 5, 6.
pub fn setup(set: u8, random: &[u8], public_key: &mut [u8], private_key: &mut [u8], work: &mut [u16]) -> u16 {
    let pair = Set::of_byte(set)
        .ok_or(Refusal::UnknownSet)
        .and_then(|set| {
            let lengths_match = random.len() == set.setup_random_bytes()
                && public_key.len() == set.public_bytes()
                && private_key.len() == set.private_bytes()
                && work.len() == set.work_numbers();
            require(lengths_match, set, Refusal::Length)
        })
        .and_then(|set| crate::setup::generate(set, random));
    let outputs = pair.map(|pair| {
        let keys = [pair.public.to_bytes(), pair.private.to_bytes()];
        (keys, pair.window + 1)
    });
    deliver(outputs, [public_key, private_key], work)
}

/// Seals a message of k1 bytes with the first fitting one of 1 to 16 random blocks. The count is that block's number.
///
/// Refusals: 2 for an empty key; 1; 2; 9.
pub fn seal(public_key: &[u8], random: &[u8], message: &[u8], cipher: &mut [u8], work: &mut [u16]) -> u16 {
    let sealed = sealing_set(public_key, random, cipher, work)
        .and_then(|set| require(message.len() == set.k1, set, Refusal::Length))
        .and_then(|set| {
            let key = PublicKey::from_bytes(set, public_key);
            crate::seal::seal(&key, random, message).ok_or(Refusal::ZeroErrorValue)
        });
    deliver_sealed(sealed, cipher, work)
}

/// Opens a ciphertext to a message of k1 bytes.
///
/// Refusals: 2 for an empty key; 1; 2; 7, 8, 10.
pub fn open(private_key: &[u8], cipher: &[u8], message: &mut [u8], work: &mut [u16]) -> u16 {
    let opened = opening_set(private_key, cipher, work)
        .and_then(|set| require(message.len() == set.k1, set, Refusal::Length))
        .and_then(|set| PrivateKey::from_bytes(set, private_key))
        .and_then(|key| crate::open::open(key, cipher));
    deliver(opened.map(|message| ([message], 0)), [message], work)
}

/// Seals a secret of 1 to k1 bytes. The count is the number of the random block used.
///
/// Refusals: 2 for an empty key; 1; 2; 11; 9.
pub fn wrap(public_key: &[u8], random: &[u8], secret: &[u8], cipher: &mut [u8], work: &mut [u16]) -> u16 {
    let sealed = sealing_set(public_key, random, cipher, work)
        .and_then(|set| require_secret_length(secret, set))
        .and_then(|set| {
            let key = PublicKey::from_bytes(set, public_key);
            kem::wrap(&key, random, secret).ok_or(Refusal::ZeroErrorValue)
        });
    deliver_sealed(sealed, cipher, work)
}

/// Opens a ciphertext to a secret of 1 to k1 bytes: as many as the slice holds.
///
/// Refusals: 2 for an empty key; 1; 2; 11; 7, 8, 10.
pub fn unwrap(private_key: &[u8], cipher: &[u8], secret: &mut [u8], work: &mut [u16]) -> u16 {
    let opened = opening_set(private_key, cipher, work)
        .and_then(|set| require_secret_length(secret, set))
        .and_then(|set| PrivateKey::from_bytes(set, private_key))
        .and_then(|key| kem::unwrap(key, cipher, secret.len()));
    deliver(opened.map(|opened| ([opened], 0)), [secret], work)
}

/// Bytes to elements: L bytes give floor(8L / 10) elements, else 2.
pub fn unpack(bytes: &[u8], elements: &mut [u16]) -> u16 {
    if elements.len() != bits::elements_in(bytes.len()) {
        return Refusal::Length.number();
    }
    elements.copy_from_slice(&bits::unpack(bytes));
    DONE
}

/// Elements to bytes: F elements, all below 1024, give ceil(10F / 8) bytes, else 2.
pub fn pack(elements: &[u16], bytes: &mut [u8]) -> u16 {
    if bytes.len() != bits::bytes_for(elements.len()) || !field::are_elements(elements) {
        return Refusal::Length.number();
    }
    bytes.copy_from_slice(&bits::pack(elements));
    DONE
}

/// Shuffles 0..u into a list of u entries, from 1 to 65536, by at most u-1 numbers of two bytes each, else 2.
pub fn shuffle(numbers: &[u8], list: &mut [u16]) -> u16 {
    let u = list.len();
    let fits = (1..=LONGEST_LIST).contains(&u) && numbers.len().is_multiple_of(2) && numbers.len() / 2 < u;
    if !fits {
        return Refusal::Length.number();
    }
    list.copy_from_slice(Permutation::shuffle(u, &bits::to_numbers(numbers)).list());
    DONE
}

/// Inverts a permutation into a list of the same length; 2 if the lengths differ or the list is no permutation.
pub fn invert(list: &[u16], inverse: &mut [u16]) -> u16 {
    if list.len() != inverse.len() {
        return Refusal::Length.number();
    }
    let Some(permutation) = Permutation::from_list(list.to_vec()) else {
        return Refusal::Length.number();
    };
    inverse.copy_from_slice(permutation.inverse().list());
    DONE
}

/// Fills the mask from the seed; 2 if either is longer than 65536 bytes.
pub fn mask(seed: &[u8], mask: &mut [u8]) -> u16 {
    if seed.len().max(mask.len()) > crate::mask::LONGEST {
        return Refusal::Length.number();
    }
    mask.copy_from_slice(&crate::mask::generate(seed, mask.len()));
    DONE
}

/// The digest of a byte string, 64 bytes, else 2.
pub fn sha512(bytes: &[u8], digest: &mut [u8]) -> u16 {
    if digest.len() != crate::sha512::DIGEST {
        return Refusal::Length.number();
    }
    digest.copy_from_slice(&crate::sha512::digest(bytes));
    DONE
}

/// The answer of a call that is done and has no count.
const DONE: u16 = 0;

/// The set, if a condition on it holds.
fn require(condition: bool, set: &'static Set, refusal: Refusal) -> Result<&'static Set, Refusal> {
    condition.then_some(set).ok_or(refusal)
}

/// The length of a KEM secret: a rank of its own, after all other lengths.
fn require_secret_length(secret: &[u8], set: &'static Set) -> Result<&'static Set, Refusal> {
    require((1..=set.k1).contains(&secret.len()), set, Refusal::SecretLength)
}

/// The set of a public key, if the lengths are right that [`seal`] and [`wrap`] have in common.
fn sealing_set(public_key: &[u8], random: &[u8], cipher: &[u8], work: &[u16]) -> Result<&'static Set, Refusal> {
    let set = Set::of_key(public_key)?;
    let lengths_match = public_key.len() == set.public_bytes()
        && set.is_sealing_random(random.len())
        && cipher.len() == set.cipher_bytes()
        && work.len() == set.work_numbers();
    require(lengths_match, set, Refusal::Length)
}

/// The set of a private key, if the lengths are right that [`open`] and [`unwrap`] have in common.
fn opening_set(private_key: &[u8], cipher: &[u8], work: &[u16]) -> Result<&'static Set, Refusal> {
    let set = Set::of_key(private_key)?;
    let lengths_match = private_key.len() == set.private_bytes()
        && cipher.len() == set.cipher_bytes()
        && work.len() == set.work_numbers();
    require(lengths_match, set, Refusal::Length)
}

fn deliver_sealed(sealed: Result<Sealed, Refusal>, cipher: &mut [u8], work: &mut [u16]) -> u16 {
    deliver(sealed.map(|sealed| ([sealed.cipher], sealed.block)), [cipher], work)
}

/// Ends a call: leaves the buffers as the answer table says, and gives the answer.
///
/// `outcome` holds the contents of each output buffer and the count, or the refusal.
fn deliver<const BUFFERS: usize>(
    outcome: Result<([Vec<u8>; BUFFERS], usize), Refusal>,
    buffers: [&mut [u8]; BUFFERS],
    work: &mut [u16],
) -> u16 {
    match outcome {
        Ok((outputs, count)) => {
            for (buffer, output) in buffers.into_iter().zip(outputs) {
                buffer.copy_from_slice(&output);
            }
            work.fill(0);
            DONE + 256 * count as u16
        }
        Err(refusal) => {
            if !refusal.writes_nothing() {
                buffers.into_iter().for_each(|buffer| buffer.fill(0));
                work.fill(0);
            }
            refusal.number()
        }
    }
}
