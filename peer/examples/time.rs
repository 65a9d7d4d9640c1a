//! Times setup, seal and open of set 1 (or of the set whose byte is given in hex): `cargo run --release --example time`.

use std::time::{Duration, Instant};

use peer::{open, seal, setup, Set};

/// Bytes that look random, the same in every run.
fn noise(length: usize) -> Vec<u8> {
    peer::mask::generate(b"time", length)
}

/// The shortest of several runs.
fn fastest(runs: usize, mut run: impl FnMut()) -> Duration {
    let time = |_| {
        let start = Instant::now();
        run();
        start.elapsed()
    };
    (0..runs).map(time).min().unwrap_or_default()
}

fn main() {
    let byte = std::env::args()
        .nth(1)
        .map_or(Ok(0x11), |hex| u8::from_str_radix(&hex, 16));
    let Some(set) = byte.ok().and_then(Set::of_byte) else {
        eprintln!("refused 1");
        return;
    };
    let mut work = vec![0; set.work_numbers()];
    let mut public_key = vec![0; set.public_bytes()];
    let mut private_key = vec![0; set.private_bytes()];
    let mut cipher = vec![0; set.cipher_bytes()];
    let mut opened = vec![0; set.k1];
    let message = noise(set.k1);
    let random = noise(set.setup_random_bytes());
    let blocks = noise(16 * set.block_bytes());

    let setup_time = fastest(10, || {
        let answer = setup(set.byte, &random, &mut public_key, &mut private_key, &mut work);
        assert_eq!(answer % 256, 0);
    });
    let seal_time = fastest(50, || {
        let answer = seal(&public_key, &blocks, &message, &mut cipher, &mut work);
        assert_eq!(answer % 256, 0);
    });
    let open_time = fastest(50, || {
        assert_eq!(open(&private_key, &cipher, &mut opened, &mut work), 0);
    });
    assert_eq!(opened, message);
    println!(
        "set {}: setup {setup_time:?}, seal {seal_time:?}, open {open_time:?}",
        set.number
    );
}
