//! bench [hash | calls | setup | seal | open ..]: measures the proved library beside its rivals and prints ratios, one line each (`measure::contest`).
//! `bench loop CALL SET TIMES` does nothing but one call of the library, for a profiler.

#[cfg_attr(not(openssl), allow(dead_code))]
mod library;
mod measure;
mod rivals;

use measure::{contest, Rival};
use peer::Set;

/// Bytes that look random, the same in every run.
fn noise(label: &str, number: usize, length: usize) -> Vec<u8> {
    peer::mask::generate(format!("{label} {number}").as_bytes(), length)
}

/// How many different inputs the rounds go through.
const INPUTS: usize = 8;

/// Inputs of all five calls, made by the peer: keys, sealed messages, wrapped secrets.
struct Inputs {
    set: &'static Set,
    random: Vec<Vec<u8>>,
    blocks: Vec<Vec<u8>>,
    messages: Vec<Vec<u8>>,
    secrets: Vec<Vec<u8>>,
    public_keys: Vec<Vec<u8>>,
    private_keys: Vec<Vec<u8>>,
    sealed: Vec<Vec<u8>>,
    wrapped: Vec<Vec<u8>>,
}

impl Inputs {
    fn new(byte: u8) -> Inputs {
        let set = Set::of_byte(byte).expect("a set byte");
        let each = |label: &str, length| (0..INPUTS).map(|i| noise(label, i, length)).collect::<Vec<_>>();
        let mut inputs = Inputs {
            set,
            random: vec![],
            blocks: each("blocks", 16 * set.block_bytes()),
            messages: each("message", set.k1),
            secrets: each("secret", set.k1.min(32)),
            public_keys: vec![],
            private_keys: vec![],
            sealed: vec![],
            wrapped: vec![],
        };
        let mut work = vec![0; set.work_numbers()];
        for number in 0.. {
            let random = noise("setup", number, set.setup_random_bytes());
            let (mut public_key, mut private_key) = (vec![0; set.public_bytes()], vec![0; set.private_bytes()]);
            if peer::setup(byte, &random, &mut public_key, &mut private_key, &mut work) % 256 == 0 {
                inputs.random.push(random);
                inputs.public_keys.push(public_key);
                inputs.private_keys.push(private_key);
            }
            if inputs.random.len() == INPUTS {
                break;
            }
        }
        for i in 0..INPUTS {
            let (key, blocks) = (&inputs.public_keys[i], &inputs.blocks[i]);
            let (mut sealed, mut wrapped) = (vec![0; set.cipher_bytes()], vec![0; set.cipher_bytes()]);
            assert_eq!(
                peer::seal(key, blocks, &inputs.messages[i], &mut sealed, &mut work) % 256,
                0
            );
            assert_eq!(
                peer::wrap(key, blocks, &inputs.secrets[i], &mut wrapped, &mut work) % 256,
                0
            );
            inputs.sealed.push(sealed);
            inputs.wrapped.push(wrapped);
        }
        inputs
    }
}

/// One side's five calls.
#[derive(Clone, Copy)]
struct Calls {
    setup: fn(u8, &[u8], &mut [u8], &mut [u8], &mut [u16]) -> u16,
    seal: fn(&[u8], &[u8], &[u8], &mut [u8], &mut [u16]) -> u16,
    open: fn(&[u8], &[u8], &mut [u8], &mut [u16]) -> u16,
    wrap: fn(&[u8], &[u8], &[u8], &mut [u8], &mut [u16]) -> u16,
    unwrap: fn(&[u8], &[u8], &mut [u8], &mut [u16]) -> u16,
}

const LIBRARY: Calls = Calls {
    setup: library::setup,
    seal: library::seal,
    open: library::open,
    wrap: library::wrap,
    unwrap: library::unwrap,
};

const PEER: Calls = Calls {
    setup: peer::setup,
    seal: peer::seal,
    open: peer::open,
    wrap: peer::wrap,
    unwrap: peer::unwrap,
};

/// A run of one call; every result is compared with the input it came from.
fn run<'a>(call: &str, side: Calls, x: &'a Inputs) -> Box<dyn FnMut(usize) + 'a> {
    let set = x.set;
    let mut work = vec![0; set.work_numbers()];
    let (mut public_key, mut private_key) = (vec![0; set.public_bytes()], vec![0; set.private_bytes()]);
    let (mut cipher, mut message, mut secret) = (vec![0; set.cipher_bytes()], vec![0; set.k1], vec![0; set.k1.min(32)]);
    match call {
        "setup" => Box::new(move |i| {
            let answer = (side.setup)(set.byte, &x.random[i], &mut public_key, &mut private_key, &mut work);
            assert!(answer % 256 == 0 && public_key == x.public_keys[i] && private_key == x.private_keys[i]);
        }),
        "seal" => Box::new(move |i| {
            let answer = (side.seal)(&x.public_keys[i], &x.blocks[i], &x.messages[i], &mut cipher, &mut work);
            assert!(answer % 256 == 0 && cipher == x.sealed[i]);
        }),
        "open" => Box::new(move |i| {
            let answer = (side.open)(&x.private_keys[i], &x.sealed[i], &mut message, &mut work);
            assert!(answer == 0 && message == x.messages[i]);
        }),
        "wrap" => Box::new(move |i| {
            let answer = (side.wrap)(&x.public_keys[i], &x.blocks[i], &x.secrets[i], &mut cipher, &mut work);
            assert!(answer % 256 == 0 && cipher == x.wrapped[i]);
        }),
        _ => Box::new(move |i| {
            let answer = (side.unwrap)(&x.private_keys[i], &x.wrapped[i], &mut secret, &mut work);
            assert!(answer == 0 && secret == x.secrets[i]);
        }),
    }
}

fn set_of(number: &str) -> u8 {
    if number == "1" {
        0x11
    } else {
        0x16
    }
}

/// The calls of one set, beside the peer, and for set 1 beside the kernel, the zeroing of the work area and Botan.
fn calls(number: &str, names: &[&str]) {
    let inputs = Inputs::new(set_of(number));
    let large = number == "1";
    for &call in names {
        let mut sides = vec![
            Rival {
                name: "library",
                run: run(call, LIBRARY, &inputs),
            },
            Rival {
                name: "peer",
                run: run(call, PEER, &inputs),
            },
        ];
        if large && call == "setup" {
            let (rows, columns) = (inputs.set.k, inputs.set.n + inputs.set.w);
            let mut matrix: Vec<u16> = noise("matrix", 0, rows * columns)
                .iter()
                .map(|&x| u16::from(x) * 4)
                .collect();
            sides.push(Rival::new("kernel", move |_| {
                rivals::kernel(&mut matrix, rows, columns)
            }));
        }
        if large && call == "seal" {
            let mut area = vec![1u16; inputs.set.work_numbers()];
            sides.push(Rival::new("wipe", move |_| std::hint::black_box(&mut area).fill(0)));
        }
        #[cfg(botan)]
        if large {
            match call {
                "setup" => sides.push(Rival::new("Botan", |_| rivals::botan::keygen())),
                "seal" => {
                    rivals::botan::keygen();
                    sides.push(Rival::new("Botan", |_| rivals::botan::encrypt()));
                }
                "open" => {
                    rivals::botan::keygen();
                    rivals::botan::encrypt();
                    sides.push(Rival::new("Botan", |_| rivals::botan::decrypt()));
                }
                _ => {}
            }
        }
        let rounds = if large && call == "setup" { 5 } else { 21 };
        contest(&format!("{call} {number}"), rounds, INPUTS, sides);
    }
}

/// SHA-512 and masks beside OpenSSL.
#[cfg(openssl)]
fn hashes(name: &'static str) {
    for length in [64, 1024, 16384] {
        let bytes = noise("hash", 0, length);
        let (mut own, mut other) = (vec![0; 64], [0; 64]);
        library::sha512(&bytes, &mut own);
        rivals::openssl::sha512(&[&bytes], &mut other);
        assert_eq!(own, other);
        let sides = vec![
            Rival::new("library", |_| assert_eq!(library::sha512(&bytes, &mut own), 0)),
            Rival::new(name, |_| rivals::openssl::sha512(&[&bytes], &mut other)),
        ];
        contest(&format!("sha512 {length}"), 21, 1, sides);
    }
    for length in [64, 1024, 16384] {
        let seed = noise("seed", 0, 32);
        let (mut own, mut other) = (vec![0; length], vec![0; length]);
        library::mask(&seed, &mut own);
        rivals::openssl::mask(&seed, &mut other);
        assert_eq!(own, other);
        let sides = vec![
            Rival::new("library", |_| assert_eq!(library::mask(&seed, &mut own), 0)),
            Rival::new(name, |_| rivals::openssl::mask(&seed, &mut other)),
        ];
        contest(&format!("mask {length}"), 21, 1, sides);
    }
}

const FIVE: [&str; 5] = ["setup", "seal", "open", "wrap", "unwrap"];

fn main() {
    let words: Vec<String> = std::env::args().skip(1).collect();
    let words: Vec<&str> = words.iter().map(String::as_str).collect();
    match words[..] {
        ["loop", call, number, times] => {
            let inputs = Inputs::new(set_of(number));
            let mut run = run(call, LIBRARY, &inputs);
            (0..times.parse().expect("a number")).for_each(|i: usize| run(i % INPUTS));
        }
        #[cfg(openssl)]
        ["hash"] => hashes("OpenSSL"),
        #[cfg(openssl)]
        ["hash-software"] => hashes("OpenSSL, no special instructions"),
        ["versions"] => {
            #[cfg(openssl)]
            println!("{}", rivals::openssl::version());
            #[cfg(botan)]
            println!("Botan {}", rivals::botan::version());
        }
        ["calls"] => {
            calls("6", &FIVE);
            calls("1", &FIVE);
        }
        [call, number] if FIVE.contains(&call) => calls(number, &[call]),
        _ => {
            eprintln!("usage: bench hash | hash-software | calls | CALL SET | loop CALL SET TIMES | versions");
            std::process::exit(2);
        }
    }
}
