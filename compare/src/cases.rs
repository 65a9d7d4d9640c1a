//! Cases by number, and faults of lengths and set bytes on top of any case.

use crate::call::{Call, Verb};
use crate::keys::Stock;
use crate::lengths::Lengths;
use crate::{opening, sealing, setting_up, small};
use peer::inputs::Noise;
use peer::{Set, SETS};

/// The set of a case, if it has one, and its call.
pub struct Case {
    pub set: Option<u8>,
    pub call: Call,
}

/// Makes cases. It only keeps what is dear to make; a case depends on its number alone.
#[derive(Default)]
pub struct Cases {
    stock: Stock,
}

/// Out of a hundred cases, how many are of the small calls, of a setup, a sealing and an opening of set 6, and of set 1; the
/// last ones are dear.
const SMALL: usize = 24;
const SIX: [(Verb, usize); 5] = [
    (Verb::Setup, 14),
    (Verb::Seal, 8),
    (Verb::Wrap, 9),
    (Verb::Open, 20),
    (Verb::Unwrap, 15),
];
const ONE: [(Verb, usize); 5] = [
    (Verb::Setup, 1),
    (Verb::Seal, 2),
    (Verb::Wrap, 2),
    (Verb::Open, 3),
    (Verb::Unwrap, 2),
];

impl Cases {
    /// Case number `number`.
    pub fn case(&mut self, number: u64) -> Case {
        let mut noise = Noise(number.wrapping_mul(0x9E37_79B9_7F4A_7C15) ^ 0x2545_F491_4F6C_DD1D);
        let mut ticket = noise.below(100);
        for (set, shares) in [(&SETS[0], SIX), (&SETS[1], ONE)] {
            for (verb, share) in shares {
                if ticket < share {
                    let call = self.large(set, verb, &mut noise);
                    return Case {
                        set: Some(set.number),
                        call,
                    };
                }
                ticket -= share;
            }
        }
        debug_assert!(ticket < SMALL);
        Case {
            set: None,
            call: small::case(&mut noise),
        }
    }

    /// A case of one of the five calls, perhaps with faults of lengths and set bytes.
    pub fn large(&mut self, set: &'static Set, verb: Verb, noise: &mut Noise) -> Call {
        let mut call = match verb {
            Verb::Setup => setting_up::case(set, noise),
            Verb::Seal | Verb::Wrap => sealing::case(verb, &self.stock.pair(set, noise), noise),
            _ => {
                let (pair, other) = (self.stock.pair(set, noise), self.stock.pair(set, noise));
                opening::case(verb, &pair, &other, noise)
            }
        };
        let faults = noise.one_of(&[0, 0, 0, 0, 0, 0, 0, 1, 1, 2, 3]);
        for _ in 0..faults {
            spoil(&mut call, noise);
        }
        call
    }
}

/// Spoils a length or the set byte.
fn spoil(call: &mut Call, noise: &mut Noise) {
    let buffers = call.read.len() + call.written.len() + 1;
    let ticket = noise.below(buffers + 2);
    if ticket >= buffers {
        let any = noise.number() as u8;
        let byte = noise.one_of(&[any, 0x16, 0x11, 0x26, 0x06, 0x10, 0x61, 0x00, 0xFF]);
        call.kind = format!("{}, set byte {byte:#04x}", call.kind);
        match call.verb {
            Verb::Setup => call.set = byte,
            _ => call.read[0].iter_mut().take(1).for_each(|first| *first = byte),
        }
        return;
    }
    let resized = if let Some(buffer) = call.read.get_mut(ticket) {
        resize(buffer, noise.number() as u8, noise)
    } else if let Some(buffer) = call.written.get_mut(ticket - call.read.len()) {
        resize(buffer, noise.number() as u8, noise)
    } else {
        resize(&mut call.numbers, noise.number() as u16, noise)
    };
    call.kind = format!("{}, buffer {ticket} has {resized} elements", call.kind);
}

fn resize<T: Clone>(buffer: &mut Vec<T>, fill: T, noise: &mut Noise) -> usize {
    let length = noise.not_quite(buffer.len());
    buffer.resize(length, fill);
    length
}
