//! Keys, ciphertexts and the work area of a set, and the five verbs on them.

use crate::{calls, Refusal, Secret, Set, Set1, Set6};
use std::fmt;
use std::marker::PhantomData;

/// A public key: it seals and wraps.
#[derive(Clone, PartialEq, Eq)]
pub struct PublicKey<S: Set> {
    bytes: Box<[u8]>,
    set: PhantomData<S>,
}

/// A private key: it opens and unwraps. It is wiped when it is dropped.
pub struct PrivateKey<S: Set> {
    bytes: Secret,
    set: PhantomData<S>,
}

/// A ciphertext.
#[derive(Clone, PartialEq, Eq)]
pub struct Ciphertext<S: Set> {
    bytes: Box<[u8]>,
    set: PhantomData<S>,
}

/// A key pair, as [`KeyPair::setup`] makes it.
#[derive(Debug)]
pub struct KeyPair<S: Set> {
    /// The public key.
    pub public: PublicKey<S>,
    /// The private key.
    pub private: PrivateKey<S>,
    /// How many windows of the random bytes setup looked at, from 1 to 5.
    pub windows: u16,
}

/// What a sealing gives.
#[derive(Clone, Debug, PartialEq, Eq)]
pub struct Sealed<S: Set> {
    /// The ciphertext.
    pub cipher: Ciphertext<S>,
    /// The number of the random block that was used, from 0.
    pub block: u16,
}

/// A work area. Every verb has a form that lends one and a form that makes one inside; who calls often keeps one. No
/// secret stays in it: the library leaves it zero.
pub struct Work<S: Set> {
    numbers: Box<[u16]>,
    set: PhantomData<S>,
}

impl<S: Set> Work<S> {
    /// A work area.
    pub fn new() -> Self {
        Work {
            numbers: vec![0; S::WORK_NUMBERS].into_boxed_slice(),
            set: PhantomData,
        }
    }

    /// Its numbers, all zero.
    pub fn as_numbers(&self) -> &[u16] {
        &self.numbers
    }
}

impl<S: Set> Default for Work<S> {
    fn default() -> Self {
        Self::new()
    }
}

impl<S: Set> KeyPair<S> {
    /// Makes a key pair from [`Set::SETUP_BYTES`] random bytes, which are as secret as the private key.
    ///
    /// Refusals: `WrongLength`; `FewMultipliers`, `FewElements`, `NoWindow`, `Dependent`, which ask for other random bytes
    /// (about one setup in a thousand).
    pub fn setup(random: &[u8]) -> Result<Self, Refusal> {
        Self::setup_in(random, &mut Work::new())
    }

    /// As [`KeyPair::setup`], in a work area that is lent.
    pub fn setup_in(random: &[u8], work: &mut Work<S>) -> Result<Self, Refusal> {
        let mut public = vec![0; S::PUBLIC_BYTES].into_boxed_slice();
        let mut private = Secret::zeros(S::PRIVATE_BYTES);
        let returned = calls::setup(S::BYTE, random, &mut public, &mut private, &mut work.numbers);
        let windows = calls::part(returned)?;
        Ok(KeyPair {
            public: PublicKey {
                bytes: public,
                set: PhantomData,
            },
            private: PrivateKey {
                bytes: private,
                set: PhantomData,
            },
            windows,
        })
    }
}

/// The first checks of a key's bytes, in the library's order: no byte, a set byte that names no set, another length or
/// another set.
fn check_key<S: Set>(bytes: &[u8], length: usize) -> Result<(), Refusal> {
    let first = *bytes.first().ok_or(Refusal::WrongLength)?;
    if ![Set1::BYTE, Set6::BYTE].contains(&first) {
        return Err(Refusal::UnknownSet);
    }
    if first != S::BYTE || bytes.len() != length {
        return Err(Refusal::WrongLength);
    }
    Ok(())
}

impl<S: Set> PublicKey<S> {
    /// Takes the bytes of a public key of this set.
    ///
    /// Refusals: `WrongLength` for no byte; `UnknownSet`; `WrongLength` for another length or a key of another set.
    pub fn from_bytes(bytes: &[u8]) -> Result<Self, Refusal> {
        check_key::<S>(bytes, S::PUBLIC_BYTES)?;
        Ok(PublicKey {
            bytes: bytes.into(),
            set: PhantomData,
        })
    }

    /// The key's bytes.
    pub fn as_bytes(&self) -> &[u8] {
        &self.bytes
    }

    /// Seals a message of [`Set::MESSAGE_BYTES`] bytes with 1 to 16 random blocks of [`Set::BLOCK_BYTES`] bytes each, which
    /// are as secret as the message and must not be used twice.
    ///
    /// Refusals: `WrongLength`; `ZeroValues`, which asks for other random blocks.
    pub fn seal(&self, message: &[u8], random: &[u8]) -> Result<Sealed<S>, Refusal> {
        self.seal_in(message, random, &mut Work::new())
    }

    /// As [`PublicKey::seal`], in a work area that is lent.
    pub fn seal_in(&self, message: &[u8], random: &[u8], work: &mut Work<S>) -> Result<Sealed<S>, Refusal> {
        sealed(|cipher| calls::seal(&self.bytes, random, message, cipher, &mut work.numbers))
    }

    /// Wraps a secret of 1 to [`Set::SECRET_MOST`] bytes; random blocks as in [`PublicKey::seal`].
    ///
    /// Refusals: `WrongLength`; `WrongSecret`; `ZeroValues`, which asks for other random blocks.
    pub fn wrap(&self, secret: &[u8], random: &[u8]) -> Result<Sealed<S>, Refusal> {
        self.wrap_in(secret, random, &mut Work::new())
    }

    /// As [`PublicKey::wrap`], in a work area that is lent.
    pub fn wrap_in(&self, secret: &[u8], random: &[u8], work: &mut Work<S>) -> Result<Sealed<S>, Refusal> {
        sealed(|cipher| calls::wrap(&self.bytes, random, secret, cipher, &mut work.numbers))
    }
}

fn sealed<S: Set>(call: impl FnOnce(&mut [u8]) -> u16) -> Result<Sealed<S>, Refusal> {
    let mut bytes = vec![0; S::CIPHER_BYTES].into_boxed_slice();
    let block = calls::part(call(&mut bytes))?;
    Ok(Sealed {
        cipher: Ciphertext {
            bytes,
            set: PhantomData,
        },
        block,
    })
}

impl<S: Set> PrivateKey<S> {
    /// Takes a copy of the bytes of a private key of this set. Whether it is well formed is seen when it opens.
    ///
    /// Refusals: `WrongLength` for no byte; `UnknownSet`; `WrongLength` for another length or a key of another set.
    pub fn from_bytes(bytes: &[u8]) -> Result<Self, Refusal> {
        check_key::<S>(bytes, S::PRIVATE_BYTES)?;
        Ok(PrivateKey {
            bytes: Secret::copy_of(bytes),
            set: PhantomData,
        })
    }

    /// The key's bytes.
    pub fn as_bytes(&self) -> &[u8] {
        &self.bytes
    }

    /// Opens a ciphertext to its message.
    ///
    /// Refusals: `Malformed` and `Singular`, never with a key that setup made; `NotOpened`.
    pub fn open(&self, cipher: &Ciphertext<S>) -> Result<Secret, Refusal> {
        self.open_in(cipher, &mut Work::new())
    }

    /// As [`PrivateKey::open`], in a work area that is lent.
    pub fn open_in(&self, cipher: &Ciphertext<S>, work: &mut Work<S>) -> Result<Secret, Refusal> {
        let mut message = Secret::zeros(S::MESSAGE_BYTES);
        calls::part(calls::open(&self.bytes, &cipher.bytes, &mut message, &mut work.numbers))?;
        Ok(message)
    }

    /// Unwraps a secret of so many bytes. The ciphertext does not tell the secret's length.
    ///
    /// Refusals: `WrongSecret`; `Malformed` and `Singular`, never with a key that setup made; `NotOpened`.
    pub fn unwrap(&self, cipher: &Ciphertext<S>, length: usize) -> Result<Secret, Refusal> {
        self.unwrap_in(cipher, length, &mut Work::new())
    }

    /// As [`PrivateKey::unwrap`], in a work area that is lent.
    pub fn unwrap_in(&self, cipher: &Ciphertext<S>, length: usize, work: &mut Work<S>) -> Result<Secret, Refusal> {
        if length > S::SECRET_MOST {
            return Err(Refusal::WrongSecret);
        }
        let mut secret = Secret::zeros(length);
        calls::part(calls::unwrap(
            &self.bytes,
            &cipher.bytes,
            &mut secret,
            &mut work.numbers,
        ))?;
        Ok(secret)
    }
}

impl<S: Set> Ciphertext<S> {
    /// Takes the bytes of a ciphertext of this set.
    ///
    /// Refusal: `WrongLength`.
    pub fn from_bytes(bytes: &[u8]) -> Result<Self, Refusal> {
        if bytes.len() != S::CIPHER_BYTES {
            return Err(Refusal::WrongLength);
        }
        Ok(Ciphertext {
            bytes: bytes.into(),
            set: PhantomData,
        })
    }

    /// The ciphertext's bytes.
    pub fn as_bytes(&self) -> &[u8] {
        &self.bytes
    }
}

impl<S: Set> fmt::Debug for PublicKey<S> {
    fn fmt(&self, f: &mut fmt::Formatter<'_>) -> fmt::Result {
        write!(f, "PublicKey(set byte {:#04x}, {} bytes)", S::BYTE, self.bytes.len())
    }
}

impl<S: Set> fmt::Debug for PrivateKey<S> {
    fn fmt(&self, f: &mut fmt::Formatter<'_>) -> fmt::Result {
        write!(f, "PrivateKey(set byte {:#04x}, {} bytes)", S::BYTE, self.bytes.len())
    }
}

impl<S: Set> fmt::Debug for Ciphertext<S> {
    fn fmt(&self, f: &mut fmt::Formatter<'_>) -> fmt::Result {
        write!(f, "Ciphertext(set byte {:#04x}, {} bytes)", S::BYTE, self.bytes.len())
    }
}

impl<S: Set> fmt::Debug for Work<S> {
    fn fmt(&self, f: &mut fmt::Formatter<'_>) -> fmt::Result {
        write!(f, "Work(set byte {:#04x}, {} numbers)", S::BYTE, self.numbers.len())
    }
}
