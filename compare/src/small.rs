//! Cases of the six small calls.

use crate::call::{Call, Verb};
use crate::lengths::Lengths;
use peer::inputs::Noise;

fn call(verb: Verb) -> Call {
    Call {
        verb,
        kind: String::new(),
        set: 0,
        read: vec![],
        list: vec![],
        written: vec![],
        numbers: vec![],
    }
}

fn unpack(noise: &mut Noise) -> Call {
    let length = noise.length(2000);
    let entries = noise.about(8 * length / 10);
    Call {
        read: vec![noise.bytes(length)],
        numbers: noise.numbers(entries),
        ..call(Verb::Unpack)
    }
}

fn pack(noise: &mut Noise) -> Call {
    let length = noise.length(2000);
    let mut list = noise.elements(length);
    if length > 0 && noise.once_in(5) {
        let place = noise.below(length);
        list[place] = 1024 + noise.below(64512) as u16;
    }
    let bytes = noise.about((10 * length).div_ceil(8));
    Call {
        list,
        written: vec![noise.bytes(bytes)],
        ..call(Verb::Pack)
    }
}

fn shuffle(noise: &mut Noise) -> Call {
    let most = if noise.once_in(50) { 65540 } else { 700 };
    let entries = noise.length(most);
    let numbers = 2 * noise.length(entries.max(1));
    let numbers = if noise.once_in(10) { numbers + 1 } else { numbers };
    Call {
        read: vec![noise.bytes(numbers)],
        numbers: noise.numbers(entries),
        ..call(Verb::Shuffle)
    }
}

fn invert(noise: &mut Noise) -> Call {
    let most = if noise.once_in(50) { 65540 } else { 700 };
    let entries = noise.length(most);
    let mut list: Vec<u16> = (0..entries).map(|i| i as u16).collect();
    for i in 0..entries {
        list.swap(i, i + noise.below(entries - i));
    }
    if entries > 0 && noise.once_in(3) {
        let place = noise.below(entries);
        list[place] = noise.number() as u16 % (entries as u16).wrapping_add(2).max(1);
    }
    let entries = noise.about(entries);
    Call {
        list,
        numbers: noise.numbers(entries),
        ..call(Verb::Invert)
    }
}

fn mask(noise: &mut Noise) -> Call {
    let most = if noise.once_in(4) { 65537 } else { 700 };
    let (seed, mask) = (noise.length(most), noise.length(most));
    Call {
        read: vec![noise.bytes(seed)],
        written: vec![noise.bytes(mask)],
        ..call(Verb::Mask)
    }
}

fn sha512(noise: &mut Noise) -> Call {
    let most = if noise.once_in(20) { 70000 } else { 700 };
    let (length, digest) = (noise.length(most), noise.about(64));
    Call {
        read: vec![noise.bytes(length)],
        written: vec![noise.bytes(digest)],
        ..call(Verb::Sha512)
    }
}

/// A case of one of the six.
pub fn case(noise: &mut Noise) -> Call {
    noise.one_of(&[unpack, pack, shuffle, invert, mask, sha512])(noise)
}
