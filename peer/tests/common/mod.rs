//! What the tests share: calls on buffers full of junk, and inputs of a certain kind.
#![allow(dead_code, unused_imports)] // Each test file uses its own part.

pub use peer::inputs::{edit_elements, edit_private, window_fits_first, zero_block, Noise};
use peer::{Set, SETS};

/// Set 6, on which most tests run.
pub fn set6() -> &'static Set {
    &SETS[0]
}

/// Set 1.
pub fn set1() -> &'static Set {
    &SETS[1]
}

/// Runs a call on output buffers and a work area full of junk, twice with different junk; checks that it left them as
/// the table of answers in `calls` says; gives its answer and the output buffers.
fn run<const BUFFERS: usize>(
    lengths: [usize; BUFFERS],
    work_length: usize,
    call: impl Fn(&mut [Vec<u8>; BUFFERS], &mut [u16]) -> u16,
) -> (u16, [Vec<u8>; BUFFERS]) {
    let [first, second] = [0xA5u8, 0x3C].map(|junk| {
        let mut buffers = lengths.map(|length| vec![junk; length]);
        let mut work = vec![u16::from(junk) * 257; work_length];
        let answer = call(&mut buffers, &mut work);
        let all = |byte: u8| buffers.iter().flatten().all(|&b| b == byte);
        match answer % 256 {
            0 => assert!(work.iter().all(|&number| number == 0)),
            1 | 2 | 11 => assert!(all(junk) && work.iter().all(|&number| number == u16::from(junk) * 257)),
            3..=10 => assert!(all(0) && work.iter().all(|&number| number == 0)),
            other => panic!("answer {other}"),
        }
        assert!(answer < 256 || answer.is_multiple_of(256), "a refusal's count is 0");
        (answer, buffers)
    });
    assert_eq!(first.0, second.0);
    if first.0.is_multiple_of(256) {
        assert_eq!(first.1, second.1, "outputs are full");
    }
    first
}

/// The set whose lengths a call with this set byte gets: set 6 if the byte names none.
fn set_of(byte: Option<&u8>) -> &'static Set {
    byte.and_then(|&byte| Set::of_byte(byte)).unwrap_or(set6())
}

/// Setup with output buffers and work area of any lengths.
pub fn setup_with(byte: u8, random: &[u8], lengths: [usize; 2], work: usize) -> (u16, [Vec<u8>; 2]) {
    run(lengths, work, |[public, private], work| {
        peer::setup(byte, random, public, private, work)
    })
}

/// Setup with buffers as they must be.
pub fn setup(byte: u8, random: &[u8]) -> (u16, [Vec<u8>; 2]) {
    let set = set_of(Some(&byte));
    setup_with(
        byte,
        random,
        [set.public_bytes(), set.private_bytes()],
        set.work_numbers(),
    )
}

pub fn seal_with(key: &[u8], random: &[u8], message: &[u8], cipher: usize, work: usize) -> (u16, Vec<u8>) {
    let (answer, [cipher]) = run([cipher], work, |[cipher], work| {
        peer::seal(key, random, message, cipher, work)
    });
    (answer, cipher)
}

pub fn seal(key: &[u8], random: &[u8], message: &[u8]) -> (u16, Vec<u8>) {
    let set = set_of(key.first());
    seal_with(key, random, message, set.cipher_bytes(), set.work_numbers())
}

pub fn open_with(key: &[u8], cipher: &[u8], message: usize, work: usize) -> (u16, Vec<u8>) {
    let (answer, [message]) = run([message], work, |[message], work| {
        peer::open(key, cipher, message, work)
    });
    (answer, message)
}

pub fn open(key: &[u8], cipher: &[u8]) -> (u16, Vec<u8>) {
    let set = set_of(key.first());
    open_with(key, cipher, set.k1, set.work_numbers())
}

pub fn wrap_with(key: &[u8], random: &[u8], secret: &[u8], cipher: usize, work: usize) -> (u16, Vec<u8>) {
    let (answer, [cipher]) = run([cipher], work, |[cipher], work| {
        peer::wrap(key, random, secret, cipher, work)
    });
    (answer, cipher)
}

pub fn wrap(key: &[u8], random: &[u8], secret: &[u8]) -> (u16, Vec<u8>) {
    let set = set_of(key.first());
    wrap_with(key, random, secret, set.cipher_bytes(), set.work_numbers())
}

pub fn unwrap_with(key: &[u8], cipher: &[u8], secret: usize, work: usize) -> (u16, Vec<u8>) {
    let (answer, [secret]) = run([secret], work, |[secret], work| peer::unwrap(key, cipher, secret, work));
    (answer, secret)
}

pub fn unwrap(key: &[u8], cipher: &[u8], secret: usize) -> (u16, Vec<u8>) {
    let set = set_of(key.first());
    unwrap_with(key, cipher, secret, set.work_numbers())
}

/// A public and a private key of a set, from the first random bytes that setup does not refuse.
pub fn keys(set: &Set, noise: &mut Noise) -> [Vec<u8>; 2] {
    loop {
        let (answer, keys) = setup(set.byte, &noise.bytes(set.setup_random_bytes()));
        if answer % 256 == 0 {
            return keys;
        }
    }
}

/// Random bytes of set 6 none of whose windows fits.
pub fn no_window_fits(noise: &mut Noise) -> Vec<u8> {
    window_fits_first(set6(), 5, noise)
}
