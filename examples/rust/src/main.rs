//! A switch wraps a batch secret under the collector's public key; the collector unwraps it at night.

use stanquivol::{Ciphertext, KeyPair, PublicKey, Secret, Set, Set1, BLOCKS_MOST};
use std::error::Error;

/// The collector makes its key pair. About one setup in a thousand asks for other random bytes.
fn set_up() -> Result<KeyPair<Set1>, Box<dyn Error>> {
    loop {
        match KeyPair::setup(&Secret::random(Set1::SETUP_BYTES)?) {
            Err(refusal) if refusal.asks_for_other_random_bytes() => continue,
            result => return Ok(result?),
        }
    }
}

fn main() -> Result<(), Box<dyn Error>> {
    let collector = set_up()?;
    let published = collector.public.as_bytes().to_vec();

    // the switch
    let secret = Secret::random(32)?;
    let blocks = Secret::random(BLOCKS_MOST * Set1::BLOCK_BYTES)?;
    let sent = PublicKey::<Set1>::from_bytes(&published)?
        .wrap(&secret, &blocks)?
        .cipher
        .as_bytes()
        .to_vec();
    println!("a secret of {} bytes is wrapped in {} bytes", secret.len(), sent.len());

    // the collector
    let got = collector
        .private
        .unwrap(&Ciphertext::from_bytes(&sent)?, secret.len())?;
    println!(
        "unwrapped: {}",
        if *got == *secret {
            "the same secret"
        } else {
            "another secret"
        }
    );

    // a ciphertext with a flipped bit is refused
    let mut damaged = sent;
    damaged[100] ^= 1;
    match collector.private.unwrap(&Ciphertext::from_bytes(&damaged)?, 32) {
        Ok(_) => println!("damaged: unwrapped"),
        Err(refusal) => println!("damaged: refused {}", refusal.number()),
    }
    Ok(())
}
