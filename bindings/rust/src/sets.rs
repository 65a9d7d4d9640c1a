//! The sets and their sizes.

use std::fmt::Debug;

mod sealed {
    pub trait Sealed {}
}

/// A set of the library: its set byte, and every length that must match. [`Set1`] and [`Set6`] are all there are.
pub trait Set: sealed::Sealed + Copy + Eq + Debug + 'static {
    /// The set byte, first of both keys.
    const BYTE: u8;
    /// Bytes of a public key.
    const PUBLIC_BYTES: usize;
    /// Bytes of a private key.
    const PRIVATE_BYTES: usize;
    /// Bytes of a ciphertext.
    const CIPHER_BYTES: usize;
    /// Bytes of a message.
    const MESSAGE_BYTES: usize;
    /// The most bytes of a secret.
    const SECRET_MOST: usize = Self::MESSAGE_BYTES;
    /// Random bytes of a setup.
    const SETUP_BYTES: usize;
    /// Random bytes of a block; a sealing takes 1 to [`BLOCKS_MOST`] blocks.
    const BLOCK_BYTES: usize;
    /// 16-bit numbers of the work area.
    const WORK_NUMBERS: usize;
}

/// The most random blocks that a sealing takes.
pub const BLOCKS_MOST: usize = 16;

/// Set 1.
#[derive(Clone, Copy, Debug, PartialEq, Eq)]
pub enum Set1 {}

/// Set 6, for tests only: it is far too small to keep a secret.
#[derive(Clone, Copy, Debug, PartialEq, Eq)]
pub enum Set6 {}

impl sealed::Sealed for Set1 {}
impl sealed::Sealed for Set6 {}

impl Set for Set1 {
    const BYTE: u8 = 0x11;
    const PUBLIC_BYTES: usize = 118441;
    const PRIVATE_BYTES: usize = 121666;
    const CIPHER_BYTES: usize = 785;
    const MESSAGE_BYTES: usize = 504;
    const SETUP_BYTES: usize = 48617;
    const BLOCK_BYTES: usize = 188;
    const WORK_NUMBERS: usize = 1336384;
}

impl Set for Set6 {
    const BYTE: u8 = 0x16;
    const PUBLIC_BYTES: usize = 626;
    const PRIVATE_BYTES: usize = 859;
    const CIPHER_BYTES: usize = 57;
    const MESSAGE_BYTES: usize = 30;
    const SETUP_BYTES: usize = 402;
    const BLOCK_BYTES: usize = 24;
    const WORK_NUMBERS: usize = 7200;
}
