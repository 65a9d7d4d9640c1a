//! Bytes that are wiped when they are dropped.

use std::fmt;
use std::fs::File;
use std::io::{self, Read};
use std::ops::{Deref, DerefMut};
use std::sync::atomic::{compiler_fence, Ordering};

/// Secret bytes: a message, a wrapped secret, or random bytes. They are overwritten with zeros when they are dropped, and
/// never shown by `Debug`. They cannot be copied by accident; a copy that is made by way of the slice is not wiped.
pub struct Secret(Box<[u8]>);

impl Secret {
    /// So many zero bytes, to be filled.
    pub fn zeros(length: usize) -> Secret {
        Secret(vec![0; length].into_boxed_slice())
    }

    /// Takes a copy of these bytes.
    pub fn copy_of(bytes: &[u8]) -> Secret {
        Secret(bytes.into())
    }

    /// So many bytes from the system's random generator, `/dev/urandom`.
    pub fn random(length: usize) -> io::Result<Secret> {
        let mut secret = Secret::zeros(length);
        File::open("/dev/urandom")?.read_exact(&mut secret)?;
        Ok(secret)
    }
}

impl Deref for Secret {
    type Target = [u8];

    fn deref(&self) -> &[u8] {
        &self.0
    }
}

impl DerefMut for Secret {
    fn deref_mut(&mut self) -> &mut [u8] {
        &mut self.0
    }
}

impl Drop for Secret {
    fn drop(&mut self) {
        wipe(&mut self.0);
    }
}

impl fmt::Debug for Secret {
    fn fmt(&self, f: &mut fmt::Formatter<'_>) -> fmt::Result {
        write!(f, "Secret({} bytes)", self.0.len())
    }
}

/// Overwrites bytes with zeros; the compiler may not leave this out.
pub fn wipe(bytes: &mut [u8]) {
    for byte in bytes {
        // a valid, aligned place that this function alone has
        unsafe { std::ptr::write_volatile(byte, 0) };
    }
    compiler_fence(Ordering::SeqCst);
}
