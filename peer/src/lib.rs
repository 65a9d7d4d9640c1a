//! RLCE wrapping a second time: the independent peer of the proved library.
//!
//! This crate computes what the RLCE-KEM specification of September 14, 2017 says, which all comments here call the
//! specification, with its sections by number; README.md lists where it leaves a choice, and the choice made. It was
//! written from that alone, to be compared with the proved library byte by byte. Where there are two roads to the same
//! result it takes the other one: Berlekamp-Massey, Chien search and Forney's formula for decoding, logarithm tables
//! for products, whole matrices for the chain of key setup, forward elimination and back substitution, packing bit by
//! bit, and SHA-512 with constants computed from the primes.
//!
//! ```
//! use peer::{open, seal, setup, Set};
//!
//! let set = Set::of_byte(0x16).unwrap(); // Set 6, for tests only.
//! let random = |label: &[u8], length| peer::mask::generate(label, length); // Not random at all.
//! let mut work = vec![0; set.work_numbers()];
//!
//! let mut public_key = vec![0; set.public_bytes()];
//! let mut private_key = vec![0; set.private_bytes()];
//! let bytes = random(b"setup", set.setup_random_bytes());
//! let answer = setup(set.byte, &bytes, &mut public_key, &mut private_key, &mut work);
//! assert_eq!((answer % 256, answer / 256), (0, 1)); // Done, with the first window.
//!
//! let message = [7; 30];
//! let mut cipher = vec![0; set.cipher_bytes()];
//! let answer = seal(&public_key, &random(b"seal", set.block_bytes()), &message, &mut cipher, &mut work);
//! assert_eq!((answer % 256, answer / 256), (0, 0)); // Done, with block 0.
//!
//! let mut opened = [0; 30];
//! assert_eq!(open(&private_key, &cipher, &mut opened, &mut work), 0);
//! assert_eq!(opened, message);
//! ```
//!
//! It allocates freely and its running time depends on secrets. It is for tests, not for production.
//!
//! # Layers
//!
//! | layer | modules |
//! |---|---|
//! | field | [`field`] |
//! | bytes | [`bits`], [`perm`], [`mod@sha512`], [`mod@mask`] |
//! | algebra and code | [`matrix`], [`reed_solomon`] |
//! | scheme | [`sets`], [`refusal`], [`pad`], [`keys`], [`mod@setup`], [`mod@seal`], [`mod@open`], [`kem`] |
//! | calls | [`calls`]: the public calls over lent slices, repeated at the root of the crate |
//! | beside them | [`inputs`]: inputs of a certain kind, for tests and comparisons |
//!
//! # Short names
//!
//! n, k, t, w are the numbers of the set; N = n + w is the length of the scrambled word; 2t = n - k. Places below
//! n - w of the word before P2 are *unmixed*; the others form the w pairs that the blocks mix.

#![forbid(unsafe_code)]
#![warn(missing_docs)]

pub mod bits;
pub mod calls;
pub mod field;
pub mod inputs;
pub mod kem;
pub mod keys;
pub mod mask;
pub mod matrix;
pub mod open;
pub mod pad;
pub mod perm;
pub mod reed_solomon;
pub mod refusal;
pub mod seal;
pub mod sets;
pub mod setup;
pub mod sha512;

pub use calls::{invert, mask, open, pack, seal, setup, sha512, shuffle, unpack, unwrap, wrap};
pub use refusal::Refusal;
pub use sets::{Set, SETS};
