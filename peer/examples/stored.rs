//! Writes the stored cases of the gate's programs below a folder: `cargo run --release --example stored -- FOLDER`.
//!
//! `bench_values`: one record for each call, and what the program must print. The number that is stated for it stands beside
//! each case; the peer must give it too. `set1_once`: what one run of set 1 must print. `setup`, `seal`, `open`: the files that
//! the gate hands to these programs.

#[path = "../tests/common/mod.rs"]
mod common;

use std::fs;
use std::path::Path;

use common::{edit_elements, edit_private, keys, no_window_fits, set1, set6, window_fits_first, Noise};
use peer::keys::{encode, PrivateKey, PublicKey};
use peer::open::Opener;
use peer::seal::{part_block, seal_triple};
use peer::setup::refusing_step;
use peer::sha512::digest;
use peer::Refusal;

const PUBLIC: usize = 626;
const PRIVATE: usize = 859;
const CIPHER: usize = 57;
const MESSAGE: usize = 30;
const WORK: usize = 7200;

/// What the lent buffers hold before a call.
const JUNK: u8 = 165;
const JUNK_NUMBER: u16 = 257 * JUNK as u16;

/// The calls, by the number that a record has for them.
#[derive(Clone, Copy)]
enum Call {
    Setup,
    Seal,
    Wrap,
    Open,
    Unwrap,
}

/// The stored cases and what is printed for them.
#[derive(Default)]
struct Cases {
    stdin: Vec<u8>,
    stdout: String,
}

impl Cases {
    /// A call with three inputs (those that it does not take are empty) and with buffers of these lengths.
    #[allow(clippy::too_many_arguments)] // They are the parts of a record.
    fn add(
        &mut self,
        label: &str,
        expected: u16,
        call: Call,
        byte: u8,
        inputs: [&[u8]; 3],
        outputs: [usize; 2],
        work: usize,
    ) -> [Vec<u8>; 2] {
        self.stdin.extend([call as u8, byte, expected as u8, label.len() as u8]);
        for length in [
            inputs[0].len(),
            inputs[1].len(),
            inputs[2].len(),
            outputs[0],
            outputs[1],
            work,
        ] {
            self.stdin.extend((length as u16).to_be_bytes());
        }
        self.stdin.extend(label.as_bytes());
        self.stdin.extend(inputs.concat());

        let mut buffers = outputs.map(|length| vec![JUNK; length]);
        let mut numbers = vec![JUNK_NUMBER; work];
        let [out, other] = &mut buffers;
        let [a, b, c] = inputs;
        let answer = match call {
            Call::Setup => peer::setup(byte, a, out, other, &mut numbers),
            Call::Seal => peer::seal(a, b, c, out, &mut numbers),
            Call::Wrap => peer::wrap(a, b, c, out, &mut numbers),
            Call::Open => peer::open(a, b, out, &mut numbers),
            Call::Unwrap => peer::unwrap(a, b, out, &mut numbers),
        };
        assert_eq!(answer % 256, expected, "{label}");
        self.stdout += &format!("{label}: expected {expected}, got {}", answer % 256);
        if answer % 256 == 0 {
            self.stdout += &format!(" count {}", answer / 256);
        }
        self.stdout += &format!("; {}", state(&buffers[0]));
        if let Call::Setup = call {
            self.stdout += &format!(", {}", state(&buffers[1]));
        }
        let left = if numbers.is_empty() {
            "empty"
        } else if numbers.iter().all(|&number| number == 0) {
            "zero"
        } else if numbers.iter().all(|&number| number == JUNK_NUMBER) {
            "as before"
        } else {
            "neither"
        };
        self.stdout += &format!("; work {left}\n");
        buffers
    }

    fn setup(&mut self, label: &str, expected: u16, random: &[u8]) -> [Vec<u8>; 2] {
        let label = format!("setup, {label}");
        let outputs = [PUBLIC, PRIVATE];
        self.add(&label, expected, Call::Setup, 0x16, [random, &[], &[]], outputs, WORK)
    }

    fn seal(&mut self, label: &str, expected: u16, inputs: [&[u8]; 3]) -> Vec<u8> {
        let label = format!("seal, {label}");
        let [cipher, _] = self.add(&label, expected, Call::Seal, 0, inputs, [CIPHER, 0], WORK);
        cipher
    }

    fn wrap(&mut self, label: &str, expected: u16, inputs: [&[u8]; 3]) -> Vec<u8> {
        let label = format!("wrap, {label}");
        let [cipher, _] = self.add(&label, expected, Call::Wrap, 0, inputs, [CIPHER, 0], WORK);
        cipher
    }

    fn open(&mut self, label: &str, expected: u16, key: &[u8], cipher: &[u8]) -> Vec<u8> {
        let label = format!("open, {label}");
        let inputs = [key, cipher, &[]];
        let [message, _] = self.add(&label, expected, Call::Open, 0, inputs, [MESSAGE, 0], WORK);
        message
    }

    fn unwrap(&mut self, label: &str, expected: u16, key: &[u8], cipher: &[u8], secret: usize) -> Vec<u8> {
        let label = format!("unwrap, {label}");
        let inputs = [key, cipher, &[]];
        let [secret, _] = self.add(&label, expected, Call::Unwrap, 0, inputs, [secret, 0], WORK);
        secret
    }
}

fn hex(bytes: &[u8]) -> String {
    bytes.iter().map(|byte| format!("{byte:02x}")).collect()
}

/// What a program prints of an output buffer.
fn state(bytes: &[u8]) -> String {
    if bytes.is_empty() {
        "empty".to_string()
    } else if bytes.iter().all(|&byte| byte == 0) {
        "zero".to_string()
    } else if bytes.iter().all(|&byte| byte == JUNK) {
        "as before".to_string()
    } else {
        hex(&digest(bytes)[..16])
    }
}

/// Random bytes of set 6 that setup does not refuse.
fn good_random(noise: &mut Noise) -> Vec<u8> {
    loop {
        let random = noise.bytes(402);
        if refusing_step(set6(), &random).is_none() {
            return random;
        }
    }
}

/// Random bytes of set 6 whose first fitting window is p, and that setup does not refuse.
fn good_window(p: usize, noise: &mut Noise) -> Vec<u8> {
    loop {
        let random = window_fits_first(set6(), p, noise);
        if refusing_step(set6(), &random).is_none() {
            return random;
        }
    }
}

/// Random bytes of set 6 with zeros among the 45 elements for multipliers.
fn zero_multipliers(places: &[usize], random: &[u8]) -> Vec<u8> {
    let mut random = random.to_vec();
    edit_elements(set6(), &mut random, |elements| {
        for element in &mut elements[..45] {
            *element |= 1;
        }
        for &place in places {
            elements[place] = 0;
        }
    });
    random
}

/// Random bytes of set 6 that setup refuses with 6.
fn dependent(noise: &mut Noise) -> Vec<u8> {
    loop {
        let random = noise.bytes(402);
        if refusing_step(set6(), &random) == Some(Refusal::Dependent) {
            return random;
        }
    }
}

/// A random block of set 6 that does, or does not, yield a zero error value for this message.
fn block(has_zero: bool, public: &[u8], message: &[u8], noise: &mut Noise) -> Vec<u8> {
    let key = PublicKey::from_bytes(set6(), public);
    loop {
        let block = noise.bytes(24);
        let (seed, places) = part_block(set6(), &block);
        if seal_triple(&key, message, seed, &places).is_none() == has_zero {
            return block;
        }
    }
}

fn setup_cases(cases: &mut Cases, noise: &mut Noise) -> [Vec<u8>; 2] {
    let mut random = good_random(noise);
    let pair = cases.setup("402 random bytes", 0, &random);
    cases.setup("401 random bytes", 2, &random[..401]);
    random.push(0);
    cases.setup("403 random bytes", 2, &random);
    random.pop();
    cases.setup("no random bytes", 2, &[]);
    for (label, byte, outputs, work, expected) in [
        ("set byte 26", 0x26, [PUBLIC, PRIVATE], WORK, 1),
        ("set byte 26 and every length wrong", 0x26, [0, 0], 0, 1),
        (
            "set byte 11 with the lengths of set 6",
            0x11,
            [PUBLIC, PRIVATE],
            WORK,
            2,
        ),
        ("public key one byte short", 0x16, [PUBLIC - 1, PRIVATE], WORK, 2),
        ("public key one byte long", 0x16, [PUBLIC + 1, PRIVATE], WORK, 2),
        ("private key one byte short", 0x16, [PUBLIC, PRIVATE - 1], WORK, 2),
        ("private key one byte long", 0x16, [PUBLIC, PRIVATE + 1], WORK, 2),
        ("work area one number short", 0x16, [PUBLIC, PRIVATE], WORK - 1, 2),
        ("work area one number long", 0x16, [PUBLIC, PRIVATE], WORK + 1, 2),
    ] {
        let inputs: [&[u8]; 3] = [&random, &[], &[]];
        cases.add(
            &format!("setup, {label}"),
            expected,
            Call::Setup,
            byte,
            inputs,
            outputs,
            work,
        );
    }
    let base = good_random(noise);
    for (label, places, expected) in [
        ("five zeros among the 45 multipliers", vec![0, 11, 22, 33, 44], 0),
        ("five zeros, the first of the 45", vec![0, 1, 2, 3, 4], 0),
        ("five zeros, the last of the 45", vec![40, 41, 42, 43, 44], 0),
        ("six zeros among the 45 multipliers", vec![0, 11, 22, 33, 43, 44], 3),
    ] {
        cases.setup(label, expected, &zero_multipliers(&places, &base));
    }
    cases.setup("all bytes zero", 3, &[0; 402]);
    let mut few = random.clone();
    edit_elements(set6(), &mut few, |elements| elements[45..85].fill(1));
    cases.setup("block elements all 1", 4, &few);
    for p in 0..5 {
        cases.setup(&format!("window {p} is the first to fit"), 0, &good_window(p, noise));
    }
    cases.setup("no window fits", 5, &no_window_fits(noise));
    cases.setup("dependent columns", 6, &dependent(noise));
    pair
}

fn seal_cases(cases: &mut Cases, noise: &mut Noise, public: &[u8], message: &[u8]) -> Vec<u8> {
    let mut random = block(false, public, message, noise);
    random.extend(noise.bytes(16 * 24));
    let cipher = cases.seal("24 random bytes", 0, [public, &random[..24], message]);
    cases.seal("384 random bytes", 0, [public, &random[..384], message]);
    for length in [0, 25, 408] {
        cases.seal(
            &format!("{length} random bytes"),
            2,
            [public, &random[..length], message],
        );
    }
    let random = &random[..24];
    let longer = [public, &[0]].concat();
    let mut other = public.to_vec();
    other[0] = 0x26;
    cases.seal("empty key", 2, [&[], random, message]);
    cases.seal("key of set byte 26", 1, [&other, random, message]);
    cases.seal("key of 1 byte", 2, [&public[..1], random, message]);
    cases.seal("key one byte short", 2, [&public[..PUBLIC - 1], random, message]);
    cases.seal("key one byte long", 2, [&longer, random, message]);
    cases.seal("message of 29 bytes", 2, [public, random, &message[..29]]);
    cases.seal("message of 31 bytes", 2, [public, random, &[0; 31]]);
    for (label, cipher, work) in [
        ("seal, ciphertext one byte short", CIPHER - 1, WORK),
        ("seal, ciphertext one byte long", CIPHER + 1, WORK),
        ("seal, work area one number short", CIPHER, WORK - 1),
        ("seal, work area one number long", CIPHER, WORK + 1),
    ] {
        cases.add(label, 2, Call::Seal, 0, [public, random, message], [cipher, 0], work);
    }
    let zero = block(true, public, message, noise);
    cases.seal("one block with a zero error value", 9, [public, &zero, message]);
    cases.seal(
        "sixteen blocks with a zero error value",
        9,
        [public, &zero.repeat(16), message],
    );
    for passed_over in [1, 3, 15] {
        let mut blocks = zero.repeat(passed_over);
        blocks.extend(random);
        let label = format!("zero error values in the first {passed_over}, block {passed_over} fits");
        cases.seal(&label, 0, [public, &blocks, message]);
    }
    cipher
}

fn wrap_cases(cases: &mut Cases, noise: &mut Noise, [public, private]: [&[u8]; 2]) {
    let secret = noise.bytes(31);
    for length in [1, 16, 30] {
        let mut message = secret[..length].to_vec();
        message.resize(30, 0);
        let random = block(false, public, &message, noise);
        let cipher = cases.wrap(
            &format!("secret of {length} of 30 bytes"),
            0,
            [public, &random, &secret[..length]],
        );
        let back = cases.unwrap(
            &format!("that secret of {length} of 30 bytes"),
            0,
            private,
            &cipher,
            length,
        );
        assert_eq!(back, secret[..length]);
    }
    let random = noise.bytes(24);
    for length in [0, 31] {
        cases.wrap(
            &format!("secret of {length} bytes"),
            11,
            [public, &random, &secret[..length]],
        );
        cases.unwrap(&format!("secret of {length} bytes"), 11, private, &[0; CIPHER], length);
    }
    cases.wrap("empty key and no secret", 2, [&[], &random, &[]]);
    cases.wrap("25 random bytes and no secret", 2, [public, &[0; 25], &[]]);
    let zero = block(true, public, &[0; 30], noise);
    cases.wrap("one block with a zero error value", 9, [public, &zero, &[0; 30]]);
    cases.unwrap("empty key and no secret", 2, &[], &[0; CIPHER], 0);
    cases.unwrap(
        "ciphertext one byte short and no secret",
        2,
        private,
        &[0; CIPHER - 1],
        0,
    );
    cases.unwrap("57 zero bytes", 10, private, &[0; CIPHER], 16);
}

fn open_cases(cases: &mut Cases, noise: &mut Noise, [public, private]: [&[u8]; 2], message: &[u8], cipher: &[u8]) {
    assert_eq!(cases.open("the sealed message", 0, private, cipher), message);
    let mut other = private.to_vec();
    other[0] = 0x26;
    cases.open("empty key", 2, &[], cipher);
    cases.open("key of set byte 26", 1, &other, cipher);
    cases.open("key one byte short", 2, &private[..PRIVATE - 1], cipher);
    cases.open("key one byte long", 2, &[private, &[0]].concat(), cipher);
    cases.open("ciphertext one byte short", 2, private, &cipher[..CIPHER - 1]);
    cases.open("ciphertext one byte long", 2, private, &[cipher, &[0]].concat());
    for (label, message, work) in [
        ("open, message one byte short", MESSAGE - 1, WORK),
        ("open, message one byte long", MESSAGE + 1, WORK),
        ("open, work area one number short", MESSAGE, WORK - 1),
        ("open, work area one number long", MESSAGE, WORK + 1),
    ] {
        cases.add(label, 2, Call::Open, 0, [private, cipher, &[]], [message, 0], work);
    }
    let mut with_key = |label: &str, expected: u16, edit: &dyn Fn(&mut Vec<u8>)| {
        let mut key = private.to_vec();
        edit(&mut key);
        cases.open(label, expected, &key, cipher);
    };
    with_key("entry 40 in the first list", 7, &|key| {
        key[1..3].copy_from_slice(&[0, 40])
    });
    with_key("entry 45 in the second list", 7, &|key| {
        key[169..171].copy_from_slice(&[0, 45])
    });
    with_key("an entry of the first list twice", 7, &|key| key.copy_within(1..3, 3));
    with_key("an entry of the second list twice", 7, &|key| {
        key.copy_within(81..83, 169)
    });
    with_key("a zero among the inverses", 7, &|key| {
        edit_private(set6(), key, |elements| elements[49] = 0)
    });
    with_key("spare bit of the key set", 7, &|key| key[858] |= 1);
    with_key("W singular", 8, &|key| {
        edit_private(set6(), key, |elements| elements[50..550].fill(0))
    });
    with_key("spare bit of the key set and W singular", 7, &|key| {
        edit_private(set6(), key, |elements| elements[50..550].fill(0));
        key[858] |= 1;
    });
    cases.open("57 zero bytes", 10, private, &[0; CIPHER]);
    let key = PublicKey::from_bytes(set6(), public);
    for count in [0, 9, 11] {
        let mut word = encode(&key.ge, &noise.elements(20));
        for place in noise.places(count, 45) {
            word[usize::from(place)] ^= noise.unit();
        }
        let label = format!("a word {count} places away");
        cases.open(&label, 10, private, &peer::bits::pack(&word));
    }
    // The sealed word with one error value taken back, and with one place more: the same code word and padded string, nearly.
    let opener = PrivateKey::from_bytes(set6(), private).map(Opener::new);
    let found = opener
        .ok()
        .flatten()
        .and_then(|opener| opener.find(cipher))
        .expect("it opens");
    let mut nine = peer::bits::unpack(cipher);
    nine[usize::from(found.places[0])] ^= found.error_values[0];
    cases.open(
        "the sealed word, one error value less",
        10,
        private,
        &peer::bits::pack(&nine),
    );
    let mut eleven = peer::bits::unpack(cipher);
    let free = (0..45)
        .find(|place| !found.places.contains(place))
        .expect("45 is more than 10");
    eleven[usize::from(free)] ^= 1;
    cases.open(
        "the sealed word, one error place more",
        10,
        private,
        &peer::bits::pack(&eleven),
    );
    for spare in [0, 5] {
        let mut cipher = cipher.to_vec();
        cipher[56] |= 1 << spare;
        cases.open(
            &format!("spare bit {spare} of the ciphertext set"),
            10,
            private,
            &cipher,
        );
    }
    let mut damaged = cipher.to_vec();
    damaged[20] ^= 0x10;
    cases.open("a damaged ciphertext", 10, private, &damaged);
    let [_, other] = keys(set6(), noise);
    cases.open("the key of another pair", 10, &other, cipher);
}

/// One run of set 1; the random bytes are masks of these words.
fn set_1_once() -> String {
    let set = set1();
    let mut work = vec![JUNK_NUMBER; set.work_numbers()];
    let [mut public, mut private] = [set.public_bytes(), set.private_bytes()].map(|length| vec![JUNK; length]);
    let mut cipher = vec![JUNK; set.cipher_bytes()];
    let mut opened = vec![JUNK; set.k1];
    let random = peer::mask::generate(b"setup", set.setup_random_bytes());
    let blocks = peer::mask::generate(b"seal", 2 * set.block_bytes());
    let message = peer::mask::generate(b"message", set.k1);
    let mut text = String::new();

    let answer = peer::setup(set.byte, &random, &mut public, &mut private, &mut work);
    assert_eq!(answer % 256, 0);
    text += &format!("setup {} count {}\n", answer % 256, answer / 256);
    text += &format!("public {}\nprivate {}\n", hex(&digest(&public)), hex(&digest(&private)));
    let answer = peer::seal(&public, &blocks, &message, &mut cipher, &mut work);
    assert_eq!(answer % 256, 0);
    text += &format!("seal {} count {}\n", answer % 256, answer / 256);
    text += &format!("cipher {}\n", hex(&digest(&cipher)));
    let answer = peer::open(&private, &cipher, &mut opened, &mut work);
    assert_eq!(answer, 0);
    assert_eq!(opened, message);
    text += &format!("open {} count {}\n", answer % 256, answer / 256);
    text + &format!("message {}\nsealed {}\n", hex(&digest(&opened)), hex(&digest(&message)))
}

fn write(folder: &Path, name: &str, bytes: impl AsRef<[u8]>) {
    let path = folder.join(name);
    fs::create_dir_all(path.parent().expect("a file stands in a folder")).expect("the folder can be made");
    fs::write(path, bytes).expect("the file can be written");
}

fn main() {
    let folder = std::env::args().nth(1).expect("usage: stored FOLDER");
    let folder = Path::new(&folder);
    let mut noise = Noise(1);

    let mut cases = Cases::default();
    let [public, private] = setup_cases(&mut cases, &mut noise);
    let message = noise.bytes(30);
    let cipher = seal_cases(&mut cases, &mut noise, &public, &message);
    open_cases(&mut cases, &mut noise, [&public, &private], &message, &cipher);
    wrap_cases(&mut cases, &mut noise, [&public, &private]);
    write(folder, "bench_values/stdin", cases.stdin);
    write(folder, "bench_values/stdout", cases.stdout);

    write(folder, "set1_once/stdout", set_1_once());

    let random = good_window(1, &mut noise);
    write(folder, "setup/data/random", random);
    write(folder, "setup/stdout", "done 2\n");
    let blocks = [
        block(true, &public, &message, &mut noise),
        block(false, &public, &message, &mut noise),
    ]
    .concat();
    write(folder, "seal/data/public", &public);
    write(folder, "seal/data/random", &blocks);
    write(folder, "seal/data/message", &message);
    write(folder, "seal/stdout", "done 1\n");
    write(folder, "open/data/private", &private);
    write(folder, "open/data/cipher", &cipher);
    write(folder, "open/stdout", "done\n");
}
