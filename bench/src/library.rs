//! The proved library's C interface on slices: one line each, as in the header, and one safe function over it.

extern "C" {
    #[rustfmt::skip]
    fn stanquivol_setup(
        set: u8,
        random: *const u8,
        a: usize,
        public_key: *mut u8,
        b: usize,
        private_key: *mut u8,
        c: usize,
        work: *mut u16,
        d: usize,
    ) -> u16;
    #[rustfmt::skip]
    fn stanquivol_seal(
        key: *const u8,
        a: usize,
        random: *const u8,
        b: usize,
        message: *const u8,
        c: usize,
        cipher: *mut u8,
        d: usize,
        work: *mut u16,
        e: usize,
    ) -> u16;
    #[rustfmt::skip]
    fn stanquivol_open(
        key: *const u8,
        a: usize,
        cipher: *const u8,
        b: usize,
        message: *mut u8,
        c: usize,
        work: *mut u16,
        d: usize,
    ) -> u16;
    #[rustfmt::skip]
    fn stanquivol_wrap(
        key: *const u8,
        a: usize,
        random: *const u8,
        b: usize,
        secret: *const u8,
        c: usize,
        cipher: *mut u8,
        d: usize,
        work: *mut u16,
        e: usize,
    ) -> u16;
    #[rustfmt::skip]
    fn stanquivol_unwrap(
        key: *const u8,
        a: usize,
        cipher: *const u8,
        b: usize,
        secret: *mut u8,
        c: usize,
        work: *mut u16,
        d: usize,
    ) -> u16;
    fn stanquivol_mask(seed: *const u8, a: usize, mask: *mut u8, b: usize) -> u16;
    fn stanquivol_sha512(bytes: *const u8, a: usize, digest: *mut u8, b: usize) -> u16;
}

pub fn setup(set: u8, random: &[u8], public_key: &mut [u8], private_key: &mut [u8], work: &mut [u16]) -> u16 {
    let (a, b, c, d) = (random.len(), public_key.len(), private_key.len(), work.len());
    let (p, q, w) = (public_key.as_mut_ptr(), private_key.as_mut_ptr(), work.as_mut_ptr());
    unsafe { stanquivol_setup(set, random.as_ptr(), a, p, b, q, c, w, d) }
}

pub fn seal(key: &[u8], random: &[u8], message: &[u8], cipher: &mut [u8], work: &mut [u16]) -> u16 {
    let (a, b, c, d, e) = (key.len(), random.len(), message.len(), cipher.len(), work.len());
    let (o, w) = (cipher.as_mut_ptr(), work.as_mut_ptr());
    unsafe { stanquivol_seal(key.as_ptr(), a, random.as_ptr(), b, message.as_ptr(), c, o, d, w, e) }
}

pub fn open(key: &[u8], cipher: &[u8], message: &mut [u8], work: &mut [u16]) -> u16 {
    let (a, b, c, d) = (key.len(), cipher.len(), message.len(), work.len());
    unsafe {
        stanquivol_open(
            key.as_ptr(),
            a,
            cipher.as_ptr(),
            b,
            message.as_mut_ptr(),
            c,
            work.as_mut_ptr(),
            d,
        )
    }
}

pub fn wrap(key: &[u8], random: &[u8], secret: &[u8], cipher: &mut [u8], work: &mut [u16]) -> u16 {
    let (a, b, c, d, e) = (key.len(), random.len(), secret.len(), cipher.len(), work.len());
    let (o, w) = (cipher.as_mut_ptr(), work.as_mut_ptr());
    unsafe { stanquivol_wrap(key.as_ptr(), a, random.as_ptr(), b, secret.as_ptr(), c, o, d, w, e) }
}

pub fn unwrap(key: &[u8], cipher: &[u8], secret: &mut [u8], work: &mut [u16]) -> u16 {
    let (a, b, c, d) = (key.len(), cipher.len(), secret.len(), work.len());
    unsafe {
        stanquivol_unwrap(
            key.as_ptr(),
            a,
            cipher.as_ptr(),
            b,
            secret.as_mut_ptr(),
            c,
            work.as_mut_ptr(),
            d,
        )
    }
}

pub fn mask(seed: &[u8], mask: &mut [u8]) -> u16 {
    unsafe { stanquivol_mask(seed.as_ptr(), seed.len(), mask.as_mut_ptr(), mask.len()) }
}

pub fn sha512(bytes: &[u8], digest: &mut [u8]) -> u16 {
    unsafe { stanquivol_sha512(bytes.as_ptr(), bytes.len(), digest.as_mut_ptr(), digest.len()) }
}
