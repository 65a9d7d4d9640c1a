//! The C interface on slices, call by call, with the values that it returns: the answer number plus 256 times the count.
//! `include/stanquivol.h` is the manual of each. Any slices may be given; a refusal says what is wrong with them.
//!
//! Nothing checks the declarations here against the library but the header's text, so there is one declaration each, and one
//! safe function over it. They are safe because the library reads and writes only what is lent, whatever it holds: that
//! is proved. Slices that Rust lends do not overlap where one of them is written.

use crate::Refusal;

/// Takes a returned value apart: the count of a call that is done, or the refusal.
///
/// ```
/// use stanquivol::{calls, Refusal};
///
/// assert_eq!(calls::part(256), Ok(1));
/// assert_eq!(calls::part(10), Err(Refusal::NotOpened));
/// let mut digest = [0; 64];
/// assert_eq!(calls::part(calls::sha512(b"abc", &mut digest)), Ok(0));
/// assert_eq!(digest[..4], [0xDD, 0xAF, 0x35, 0xA1]);
/// assert_eq!(calls::part(calls::sha512(b"abc", &mut digest[..63])), Err(Refusal::WrongLength));
/// ```
///
/// # Panics
/// If no call returns this value.
pub fn part(returned: u16) -> Result<u16, Refusal> {
    match Refusal::of_number(returned % 256) {
        None if returned.is_multiple_of(256) => Ok(returned / 256),
        Some(refusal) if returned < 256 => Err(refusal),
        _ => panic!("no call returns {returned}"),
    }
}

extern "C" {
    fn stanquivol_setup(
        set: u8,
        random: *const u8,
        random_length: usize,
        public_key: *mut u8,
        public_key_length: usize,
        private_key: *mut u8,
        private_key_length: usize,
        work: *mut u16,
        work_length: usize,
    ) -> u16;
    fn stanquivol_seal(
        public_key: *const u8,
        public_key_length: usize,
        random: *const u8,
        random_length: usize,
        message: *const u8,
        message_length: usize,
        cipher: *mut u8,
        cipher_length: usize,
        work: *mut u16,
        work_length: usize,
    ) -> u16;
    fn stanquivol_open(
        private_key: *const u8,
        private_key_length: usize,
        cipher: *const u8,
        cipher_length: usize,
        message: *mut u8,
        message_length: usize,
        work: *mut u16,
        work_length: usize,
    ) -> u16;
    fn stanquivol_wrap(
        public_key: *const u8,
        public_key_length: usize,
        random: *const u8,
        random_length: usize,
        secret: *const u8,
        secret_length: usize,
        cipher: *mut u8,
        cipher_length: usize,
        work: *mut u16,
        work_length: usize,
    ) -> u16;
    fn stanquivol_unwrap(
        private_key: *const u8,
        private_key_length: usize,
        cipher: *const u8,
        cipher_length: usize,
        secret: *mut u8,
        secret_length: usize,
        work: *mut u16,
        work_length: usize,
    ) -> u16;
    fn stanquivol_unpack(bytes: *const u8, n: usize, elements: *mut u16, m: usize) -> u16;
    fn stanquivol_pack(elements: *const u16, n: usize, bytes: *mut u8, m: usize) -> u16;
    fn stanquivol_shuffle(numbers: *const u8, n: usize, list: *mut u16, m: usize) -> u16;
    fn stanquivol_invert(list: *const u16, n: usize, inverse: *mut u16, m: usize) -> u16;
    fn stanquivol_mask(seed: *const u8, n: usize, mask: *mut u8, m: usize) -> u16;
    fn stanquivol_sha512(bytes: *const u8, n: usize, digest: *mut u8, m: usize) -> u16;
}

/// `stanquivol_setup`.
pub fn setup(set: u8, random: &[u8], public_key: &mut [u8], private_key: &mut [u8], work: &mut [u16]) -> u16 {
    unsafe {
        stanquivol_setup(
            set,
            random.as_ptr(),
            random.len(),
            public_key.as_mut_ptr(),
            public_key.len(),
            private_key.as_mut_ptr(),
            private_key.len(),
            work.as_mut_ptr(),
            work.len(),
        )
    }
}

/// `stanquivol_seal`.
pub fn seal(public_key: &[u8], random: &[u8], message: &[u8], cipher: &mut [u8], work: &mut [u16]) -> u16 {
    unsafe {
        stanquivol_seal(
            public_key.as_ptr(),
            public_key.len(),
            random.as_ptr(),
            random.len(),
            message.as_ptr(),
            message.len(),
            cipher.as_mut_ptr(),
            cipher.len(),
            work.as_mut_ptr(),
            work.len(),
        )
    }
}

/// `stanquivol_open`.
pub fn open(private_key: &[u8], cipher: &[u8], message: &mut [u8], work: &mut [u16]) -> u16 {
    unsafe {
        stanquivol_open(
            private_key.as_ptr(),
            private_key.len(),
            cipher.as_ptr(),
            cipher.len(),
            message.as_mut_ptr(),
            message.len(),
            work.as_mut_ptr(),
            work.len(),
        )
    }
}

/// `stanquivol_wrap`.
pub fn wrap(public_key: &[u8], random: &[u8], secret: &[u8], cipher: &mut [u8], work: &mut [u16]) -> u16 {
    unsafe {
        stanquivol_wrap(
            public_key.as_ptr(),
            public_key.len(),
            random.as_ptr(),
            random.len(),
            secret.as_ptr(),
            secret.len(),
            cipher.as_mut_ptr(),
            cipher.len(),
            work.as_mut_ptr(),
            work.len(),
        )
    }
}

/// `stanquivol_unwrap`.
pub fn unwrap(private_key: &[u8], cipher: &[u8], secret: &mut [u8], work: &mut [u16]) -> u16 {
    unsafe {
        stanquivol_unwrap(
            private_key.as_ptr(),
            private_key.len(),
            cipher.as_ptr(),
            cipher.len(),
            secret.as_mut_ptr(),
            secret.len(),
            work.as_mut_ptr(),
            work.len(),
        )
    }
}

/// `stanquivol_unpack`.
pub fn unpack(bytes: &[u8], elements: &mut [u16]) -> u16 {
    unsafe { stanquivol_unpack(bytes.as_ptr(), bytes.len(), elements.as_mut_ptr(), elements.len()) }
}

/// `stanquivol_pack`.
pub fn pack(elements: &[u16], bytes: &mut [u8]) -> u16 {
    unsafe { stanquivol_pack(elements.as_ptr(), elements.len(), bytes.as_mut_ptr(), bytes.len()) }
}

/// `stanquivol_shuffle`.
pub fn shuffle(numbers: &[u8], list: &mut [u16]) -> u16 {
    unsafe { stanquivol_shuffle(numbers.as_ptr(), numbers.len(), list.as_mut_ptr(), list.len()) }
}

/// `stanquivol_invert`.
pub fn invert(list: &[u16], inverse: &mut [u16]) -> u16 {
    unsafe { stanquivol_invert(list.as_ptr(), list.len(), inverse.as_mut_ptr(), inverse.len()) }
}

/// `stanquivol_mask`.
pub fn mask(seed: &[u8], mask: &mut [u8]) -> u16 {
    unsafe { stanquivol_mask(seed.as_ptr(), seed.len(), mask.as_mut_ptr(), mask.len()) }
}

/// `stanquivol_sha512`.
pub fn sha512(bytes: &[u8], digest: &mut [u8]) -> u16 {
    unsafe { stanquivol_sha512(bytes.as_ptr(), bytes.len(), digest.as_mut_ptr(), digest.len()) }
}
