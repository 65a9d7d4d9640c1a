//! Known answers: keys and ciphertexts from strings of the mask generator. The digests were confirmed by a third,
//! naive transcription of the specification in another language.

mod common;

use common::{open, seal, setup};
use peer::mask::generate;
use peer::Set;

/// One example: its set byte and number, and what comes out.
struct Example {
    byte: u8,
    number: usize,
    /// p + 1.
    windows: u16,
    /// The first 16 bytes of the SHA-512 digests, in hex.
    public: &'static str,
    private: &'static str,
    block: u16,
    cipher: &'static str,
}

const EXAMPLES: [Example; 5] = [
    Example {
        byte: 0x16,
        number: 0,
        windows: 1,
        public: "c6174056b8ee3626146352c6eb66d1ed",
        private: "15378110ba5ffa6fddbe60426dabf9a4",
        block: 0,
        cipher: "0f5a252aab4205096a070a4a649d4682",
    },
    Example {
        byte: 0x16,
        number: 1,
        windows: 1,
        public: "aa7ff8176d7cbe40a7d4d84ec4f86978",
        private: "6728d2a5ede36f4e07a40f69fcb7fae9",
        block: 0,
        cipher: "4d67de96d8e09c755c75c58596844a26",
    },
    Example {
        byte: 0x16,
        number: 30,
        windows: 1,
        public: "ae489788f186d401058f9d5f3bb832e4",
        private: "0cf43dc4fcd240a9a2acea7a8b977544",
        block: 1,
        cipher: "a7dd0a0fec1029616d92e02e0add34e5",
    },
    Example {
        byte: 0x16,
        number: 40,
        windows: 2,
        public: "28a89dd459e41c9c1807553e681af8e1",
        private: "8bfc9d71908f34001f3e95fd6e10e90d",
        block: 0,
        cipher: "8697db504f1b59ac6d9ed59d953d50b1",
    },
    Example {
        byte: 0x11,
        number: 0,
        windows: 1,
        public: "cc78f62349e14ce7ee85111521120b43",
        private: "26b25f69f805ad438645725a7e6f163a",
        block: 0,
        cipher: "230f0ec2bc4fd872202bd28216467ebf",
    },
];

fn digest(bytes: &[u8]) -> String {
    let digest = peer::sha512::digest(bytes);
    digest[..16].iter().map(|byte| format!("{byte:02x}")).collect()
}

/// The bytes of an example that stand for random ones: the mask of, say, `setup 0`.
fn bytes(label: &str, number: usize, length: usize) -> Vec<u8> {
    generate(format!("{label} {number}").as_bytes(), length)
}

#[test]
fn known_keys_and_ciphertexts() {
    for example in EXAMPLES {
        let number = example.number;
        let set = Set::of_byte(example.byte).unwrap();
        let (answer, [public, private]) = setup(set.byte, &bytes("setup", number, set.setup_random_bytes()));
        assert_eq!(answer, 256 * example.windows);
        assert_eq!(digest(&public), example.public);
        assert_eq!(digest(&private), example.private);

        let message = bytes("message", number, set.k1);
        let random = bytes("seal", number, 16 * set.block_bytes());
        let (answer, cipher) = seal(&public, &random, &message);
        assert_eq!(answer, 256 * example.block);
        assert_eq!(digest(&cipher), example.cipher);
        assert_eq!(open(&private, &cipher), (0, message));
    }
}

#[test]
fn a_known_refusal() {
    assert_eq!(setup(0x16, &bytes("setup", 97, 402)).0, 6);
}
