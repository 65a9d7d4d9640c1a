//! Writes the cases of the program `call_vectors` to standard output: calls of the five verbs with everything that is lent, and
//! what the peer leaves. `scripts/call-vectors` stores them.
//!
//! A case is 17 bytes, three inputs, and two outputs as they must be afterwards:
//!
//! | bytes | what |
//! |---|---|
//! | 0 | the verb: 0 setup, 1 seal, 2 open, 3 wrap, 4 unwrap, 5 a case by seeds |
//! | 1 | setup's set byte |
//! | 2, 3 | the answer number and the count |
//! | 4 | the work area afterwards: 0 zero, 1 as it was |
//! | 5 to 16 | lengths of the three inputs, of the two outputs and of the work area, two bytes each |
//!
//! Before the call every byte of an output and of the work area is 0xA5. A case by seeds is a whole way in set 1: from three seeds,
//! whose masks are the random bytes of setup, the message and the random blocks, to the digests of public key, private key
//! and ciphertext and the five numbers of the answers.

use peer::inputs::{edit_elements, edit_private, window_fits_first, zero_block, Noise};
use peer::mask::generate;
use peer::setup::Draw;
use peer::{Set, SETS};
use std::io::Write;

const FILL: u8 = 0xA5;

#[derive(Clone, Copy)]
enum Verb {
    Setup,
    Seal,
    Open,
    Wrap,
    Unwrap,
}

/// The inputs of set 6 from which the cases are made.
struct Example {
    public: Vec<u8>,
    private: Vec<u8>,
    message: Vec<u8>,
    blocks: Vec<u8>,
    cipher: Vec<u8>,
}

const SIX: &Set = &SETS[0];

/// The bytes of an example that stand for random ones: the mask of, say, `setup 0`.
fn bytes(label: &str, number: usize, length: usize) -> Vec<u8> {
    generate(format!("{label} {number}").as_bytes(), length)
}

fn example(number: usize) -> Example {
    let pair = peer::setup::generate(SIX, &bytes("setup", number, 402)).expect("a pair");
    let message = bytes("message", number, 30);
    let blocks = bytes("seal", number, 384);
    let sealed = peer::seal::seal(&pair.public, &blocks, &message).expect("a ciphertext");
    Example {
        public: pair.public.to_bytes(),
        private: pair.private.to_bytes(),
        message,
        blocks,
        cipher: sealed.cipher,
    }
}

fn put(out: &mut Vec<u8>, number: usize) {
    out.extend(u16::try_from(number).expect("a length of two bytes").to_be_bytes());
}

/// Makes a call on filled buffers and adds the case.
fn add(out: &mut Vec<u8>, verb: Verb, set: u8, inputs: &[&[u8]], lengths: [usize; 2], work: usize) {
    let mut outputs = lengths.map(|length| vec![FILL; length]);
    let mut area = vec![u16::from_be_bytes([FILL, FILL]); work];
    let before = area.clone();
    let [first, second] = &mut outputs;
    let returned = match (verb, inputs) {
        (Verb::Setup, [random]) => peer::setup(set, random, first, second, &mut area),
        (Verb::Seal, [key, random, message]) => peer::seal(key, random, message, first, &mut area),
        (Verb::Open, [key, cipher]) => peer::open(key, cipher, first, &mut area),
        (Verb::Wrap, [key, random, secret]) => peer::wrap(key, random, secret, first, &mut area),
        (Verb::Unwrap, [key, cipher]) => peer::unwrap(key, cipher, first, &mut area),
        _ => unreachable!("other inputs than the verb has"),
    };
    let zero = area.iter().all(|&number| number == 0);
    assert!(zero || area == before);
    out.extend([
        verb as u8,
        set,
        (returned % 256) as u8,
        (returned / 256) as u8,
        u8::from(!zero),
    ]);
    (0..3).for_each(|i| put(out, inputs.get(i).map_or(0, |input| input.len())));
    lengths.into_iter().chain([work]).for_each(|length| put(out, length));
    inputs.iter().for_each(|input| out.extend(*input));
    outputs.iter().for_each(|output| out.extend(output));
}

fn add_setup(out: &mut Vec<u8>, random: &[u8]) {
    add(out, Verb::Setup, 0x16, &[random], [626, 859], 7200);
}

fn setups(out: &mut Vec<u8>, noise: &mut Noise) {
    // windows 0 and 1, and dependent columns
    for number in [0, 40, 97] {
        add_setup(out, &bytes("setup", number, 402));
    }
    // windows 2 to 4, and none
    for p in 2..6 {
        add_setup(out, &window_fits_first(SIX, p, noise));
    }
    // five zeros among the multipliers pass, six do not
    for zeros in [5, 6] {
        let mut random = bytes("setup", 1, 402);
        edit_elements(SIX, &mut random, |elements| elements[3..3 + zeros].fill(0));
        add_setup(out, &random);
    }
    // a zero determinant moves the search by one; and too few elements
    for last in [6, 5] {
        let mut random = bytes("setup", 2, 402);
        edit_elements(SIX, &mut random, |elements| {
            elements[45..85].fill(0);
            elements[50..66].copy_from_slice(&[1, 1, 1, 2].repeat(4));
            elements[66..71].copy_from_slice(&[5, 5, 5, 5, last]);
        });
        add_setup(out, &random);
    }
    add_setup(out, &[0; 402]);
    // other lengths, and another set byte before them
    let random = bytes("setup", 0, 403);
    add_setup(out, &random[..401]);
    add_setup(out, &random);
    for (lengths, work) in [([625, 859], 7200), ([626, 860], 7200), ([626, 859], 7199)] {
        add(out, Verb::Setup, 0x16, &[&random[..402]], lengths, work);
    }
    add(out, Verb::Setup, 0x26, &[&random[..402]], [626, 859], 7200);
    add(out, Verb::Setup, 0x61, &[&[]], [0, 0], 0);
}

fn sealings(out: &mut Vec<u8>, noise: &mut Noise) {
    let Example {
        public,
        message,
        blocks,
        ..
    } = example(0);
    let mut seal = |inputs: [&[u8]; 3], cipher, work| add(out, Verb::Seal, 0, &inputs, [cipher, 0], work);
    seal([&public, &blocks[..24], &message], 57, 7200);
    seal([&public, &blocks, &message], 57, 7200);
    // two blocks that yield zero error values, then one that fits; and none that fits
    let zero: Vec<u8> = (0..2).flat_map(|_| zero_block(SIX, &message, noise)).collect();
    seal([&public, &[&zero, &blocks[..24]].concat(), &message], 57, 7200);
    seal([&public, &zero, &message], 57, 7200);
    for length in [0, 25, 408] {
        seal([&public, &bytes("seal", 0, length), &message], 57, 7200);
    }
    seal([&[], &[], &[]], 0, 0);
    seal([&[0x26], &[], &[]], 0, 0);
    seal([&public, &blocks, &message[..29]], 57, 7200);
    seal([&public[..625], &blocks, &message], 57, 7200);
    seal([&public, &blocks, &message], 56, 7200);
    seal([&public, &blocks, &message], 57, 7201);
    // any elements are a public key
    let mut foreign = vec![0xFF; 626];
    foreign[0] = 0x16;
    seal([&foreign, &blocks, &message], 57, 7200);
    let mut wrap = |secret: &[u8]| add(out, Verb::Wrap, 0, &[&public, &blocks, secret], [57, 0], 7200);
    wrap(&message[..1]);
    wrap(&message[..16]);
    wrap(&message);
    wrap(&[]);
    wrap(&[0; 31]);
    add(out, Verb::Wrap, 0, &[&public, &blocks[..25], &[]], [57, 0], 7200);
}

fn openings(out: &mut Vec<u8>, noise: &mut Noise) {
    let Example {
        private,
        message,
        cipher,
        public,
        ..
    } = example(0);
    let mut open = |key: &[u8], cipher: &[u8]| add(out, Verb::Open, 0, &[key, cipher], [30, 0], 7200);
    open(&private, &cipher);
    // a flipped bit at the start, in the middle and at the end; a spare bit; nothing sealed at all
    for (place, bit) in [(0, 0x80), (28, 0x01), (56, 0x40), (56, 0x01)] {
        let mut damaged = cipher.clone();
        damaged[place] ^= bit;
        open(&private, &damaged);
    }
    open(&private, &[0; 57]);
    open(&example(1).private, &cipher);
    // a list entry too large, or twice; a zero inverse; a spare bit of the key
    let edited = |edit: &dyn Fn(&mut Vec<u8>)| {
        let mut key = private.clone();
        edit(&mut key);
        key
    };
    open(&edited(&|key| key[1..3].copy_from_slice(&[0, 40])), &cipher);
    open(&edited(&|key| key[169..171].copy_from_slice(&[0, 45])), &cipher);
    open(&edited(&|key| key.copy_within(1..3, 3)), &cipher);
    open(
        &edited(&|key| edit_private(SIX, key, |elements| elements[49] = 0)),
        &cipher,
    );
    open(&edited(&|key| key[858] |= 1), &cipher);
    // GE zero: W is singular; and all faults at once
    let singular = edited(&|key| edit_private(SIX, key, |elements| elements[50..].fill(0)));
    open(&singular, &cipher);
    let mut both = singular;
    both[858] |= 1;
    open(&both, &[0xFF; 57]);
    // keys that setup never makes: u above u0, which opens; block columns zero
    let random = window_fits_first(SIX, 1, noise);
    let pair = Draw::new(SIX, &random).pair(0).expect("a pair");
    let sealed = peer::seal::seal(&pair.public, &bytes("seal", 0, 384), &message).expect("a ciphertext");
    open(&pair.private.to_bytes(), &sealed.cipher);
    open(
        &edited(&|key| edit_private(SIX, key, |elements| elements[..10].fill(0))),
        &cipher,
    );
    // lengths and set bytes
    open(&[], &cipher);
    open(&edited(&|key| key[0] = 0x10), &cipher);
    open(&public, &cipher);
    open(&private, &cipher[..56]);
    add(out, Verb::Open, 0, &[&private, &cipher], [31, 0], 7200);
    add(out, Verb::Open, 0, &[&private, &cipher], [30, 0], 7199);

    let mut unwrap = |key: &[u8], length| add(out, Verb::Unwrap, 0, &[key, &cipher], [length, 0], 7200);
    for length in [1, 16, 30, 0, 31] {
        unwrap(&private, length);
    }
    unwrap(&both, 31);
    unwrap(&both, 16);
    unwrap(&public, 31);
}

/// The whole way in set 1.
fn seeded(out: &mut Vec<u8>, number: usize) {
    let set = &SETS[1];
    let label = |label: &str| format!("{label} {number}").into_bytes();
    let seeds = [label("setup"), label("message"), label("seal")];
    let mut work = vec![0; set.work_numbers()];
    let (mut public, mut private) = (vec![0; set.public_bytes()], vec![0; set.private_bytes()]);
    let random = generate(&seeds[0], set.setup_random_bytes());
    let made = peer::setup(set.byte, &random, &mut public, &mut private, &mut work);
    let message = generate(&seeds[1], set.k1);
    let blocks = generate(&seeds[2], 16 * set.block_bytes());
    let mut cipher = vec![0; set.cipher_bytes()];
    let sealed = peer::seal(&public, &blocks, &message, &mut cipher, &mut work);
    let mut opened = vec![0; set.k1];
    let open = peer::open(&private, &cipher, &mut opened, &mut work);
    assert_eq!((made % 256, sealed % 256, open), (0, 0, 0));
    assert_eq!(opened, message);
    let mut expected: Vec<u8> = [public, private, cipher, opened]
        .iter()
        .flat_map(|x| peer::sha512::digest(x))
        .collect();
    expected.extend([
        (made % 256) as u8,
        (made / 256) as u8,
        (sealed % 256) as u8,
        (sealed / 256) as u8,
        open as u8,
    ]);
    out.extend([5, set.byte, 0, 0, 1]);
    seeds.iter().for_each(|seed| put(out, seed.len()));
    [expected.len(), 0, 0].into_iter().for_each(|length| put(out, length));
    seeds.iter().for_each(|seed| out.extend(seed));
    out.extend(expected);
}

fn main() -> std::io::Result<()> {
    let mut noise = Noise(2017);
    let mut out = Vec::new();
    setups(&mut out, &mut noise);
    sealings(&mut out, &mut noise);
    openings(&mut out, &mut noise);
    for number in [0, 1] {
        seeded(&mut out, number);
    }
    std::io::stdout().write_all(&out)
}
