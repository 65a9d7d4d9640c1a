//! What the library is measured against beside the peer: OpenSSL's SHA-512, Botan's McEliece, the field kernel alone.

extern "C" {
    fn kernel_products(matrix: *mut u16, rows: usize, columns: usize);
}

/// rows · rows · columns products of the field kernel on a matrix.
pub fn kernel(matrix: &mut [u16], rows: usize, columns: usize) {
    assert!(matrix.len() == rows * columns && rows > 1);
    unsafe { kernel_products(matrix.as_mut_ptr(), rows, columns) }
}

/// SHA-512 by OpenSSL's three plain calls, which cost less than its envelope for short inputs.
#[cfg(openssl)]
pub mod openssl {
    #[repr(C, align(16))]
    struct State([u64; 32]); // SHA512_CTX has 216 bytes

    extern "C" {
        fn SHA512_Init(state: *mut State) -> i32;
        fn SHA512_Update(state: *mut State, bytes: *const u8, length: usize) -> i32;
        fn SHA512_Final(digest: *mut u8, state: *mut State) -> i32;
        fn OpenSSL_version(what: i32) -> *const std::os::raw::c_char;
    }

    pub fn sha512(parts: &[&[u8]], digest: &mut [u8; 64]) {
        let mut state = State([0; 32]);
        unsafe {
            SHA512_Init(&mut state);
            for part in parts {
                SHA512_Update(&mut state, part.as_ptr(), part.len());
            }
            SHA512_Final(digest.as_mut_ptr(), &mut state);
        }
    }

    pub fn mask(seed: &[u8], mask: &mut [u8]) {
        let mut digest = [0; 64];
        for (counter, part) in mask.chunks_mut(64).enumerate() {
            sha512(&[seed, &(counter as u32).to_be_bytes()], &mut digest);
            part.copy_from_slice(&digest[..part.len()]);
        }
    }

    pub fn version() -> String {
        unsafe { std::ffi::CStr::from_ptr(OpenSSL_version(0)) }
            .to_string_lossy()
            .into_owned()
    }
}

/// McEliece with n = 2960 and t = 57 by Botan: a new key, a sealing with it, its opening.
#[cfg(botan)]
pub mod botan {
    extern "C" {
        fn botan_keygen();
        fn botan_encrypt();
        fn botan_decrypt() -> i32;
        fn botan_version_text() -> *const std::os::raw::c_char;
    }

    pub fn keygen() {
        unsafe { botan_keygen() }
    }

    pub fn encrypt() {
        unsafe { botan_encrypt() }
    }

    pub fn decrypt() {
        assert_eq!(unsafe { botan_decrypt() }, 1, "Botan opens what it sealed");
    }

    pub fn version() -> String {
        unsafe { std::ffi::CStr::from_ptr(botan_version_text()) }
            .to_string_lossy()
            .into_owned()
    }
}
