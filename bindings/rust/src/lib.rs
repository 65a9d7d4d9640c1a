//! Stanquivol from Rust: RLCE wrapping of secrets by a proved library, with types that keep lengths and sets right.
//!
//! ```
//! use stanquivol::{KeyPair, Secret, Set, Set1};
//!
//! # fn main() -> Result<(), Box<dyn std::error::Error>> {
//! // The collector makes a key pair; about one setup in a thousand asks for other random bytes.
//! let pair = loop {
//!     match KeyPair::<Set1>::setup(&Secret::random(Set1::SETUP_BYTES)?) {
//!         Err(refusal) if refusal.asks_for_other_random_bytes() => continue,
//!         result => break result?,
//!     }
//! };
//!
//! // A switch wraps a batch secret under the public key.
//! let secret = Secret::random(32)?;
//! let sealed = pair.public.wrap(&secret, &Secret::random(16 * Set1::BLOCK_BYTES)?)?;
//!
//! // The collector unwraps it.
//! let got = pair.private.unwrap(&sealed.cipher, 32)?;
//! assert_eq!(*got, *secret);
//! # Ok(())
//! # }
//! ```
//!
//! The crate has no dependencies. It links the static library `libstanquivol.a`, which the environment variable
//! `STANQUIVOL_LIB` names by its folder when the crate is built; see `build.rs`.
//!
//! What the library promises of each call is proved; what this crate adds is plain Rust: buffers of the right lengths,
//! refusals as errors ([`Refusal`]), and wiping ([`Secret`], [`PrivateKey`]). The calls on slices of any length are in [`calls`].

#![warn(missing_docs)]

pub mod calls;
mod keys;
mod refusal;
mod secret;
mod sets;

pub use keys::{Ciphertext, KeyPair, PrivateKey, PublicKey, Sealed, Work};
pub use refusal::Refusal;
pub use secret::{wipe, Secret};
pub use sets::{Set, Set1, Set6, BLOCKS_MOST};
