//! Packing, shuffling, inverting, masks and digests as public calls: lengths, and nothing written on 2.

use peer::{invert, mask, pack, sha512, shuffle, unpack};

/// A call on a buffer of junk: its answer, and the buffer if it was written.
fn on_junk<T: Copy + PartialEq + From<u8>>(length: usize, call: impl Fn(&mut [T]) -> u16) -> Option<Vec<T>> {
    let junk = T::from(0xA5);
    let mut buffer = vec![junk; length];
    match call(&mut buffer) {
        0 => Some(buffer),
        2 => {
            assert!(buffer.iter().all(|&entry| entry == junk), "written on 2");
            None
        }
        other => panic!("answer {other}"),
    }
}

#[test]
fn unpacking_wants_as_many_elements_as_there_are() {
    for length in 0..60 {
        let bytes: Vec<u8> = (0..length).map(|i| (37 * i) as u8).collect();
        for count in 0..60 {
            let done = on_junk(count, |elements| unpack(&bytes, elements)).is_some();
            assert_eq!(done, count == 8 * length / 10);
        }
    }
}

#[test]
fn packing_wants_elements_and_room() {
    for count in 0..50usize {
        let elements: Vec<u16> = (0..count).map(|i| 1023 - i as u16).collect();
        for length in 0..65 {
            let done = on_junk(length, |bytes| pack(&elements, bytes)).is_some();
            assert_eq!(done, length == (10 * count).div_ceil(8));
        }
    }
    assert_eq!(
        on_junk(3, |bytes| pack(&[1023, 1023], bytes)),
        Some(vec![0xFF, 0xFF, 0xF0])
    );
    assert_eq!(on_junk(3, |bytes| pack(&[1023, 1024], bytes)), None);
    assert_eq!(on_junk(3, |bytes| pack(&[0xFFFF, 0], bytes)), None);
}

#[test]
fn shuffling_wants_1_to_65536_entries() {
    let numbers = vec![0x5A; 2 * 65537];
    assert_eq!(on_junk(0, |list| shuffle(&[], list)), None);
    assert_eq!(on_junk(1, |list| shuffle(&[], list)), Some(vec![0]));
    assert_eq!(on_junk(1, |list| shuffle(&[0, 0], list)), None);
    assert_eq!(on_junk(3, |list| shuffle(&[], list)), Some(vec![0, 1, 2]));
    assert_eq!(
        on_junk(3, |list| shuffle(&numbers[..4], list)).map(|list| list.len()),
        Some(3)
    );
    assert_eq!(on_junk(3, |list| shuffle(&numbers[..6], list)), None);
    assert_eq!(on_junk(3, |list| shuffle(&numbers[..1], list)), None);
    assert_eq!(on_junk(3, |list| shuffle(&numbers[..3], list)), None);
    let longest = on_junk(65536, |list| shuffle(&numbers[..2 * 65535], list)).unwrap();
    let inverse = on_junk(65536, |inverse| invert(&longest, inverse)).unwrap();
    assert!((0..=u16::MAX).all(|i| inverse[usize::from(longest[usize::from(i)])] == i));
    assert_eq!(on_junk(65536, |list| shuffle(&numbers[..2 * 65536], list)), None);
    assert_eq!(on_junk(65537, |list| shuffle(&[], list)), None);
    // The largest number, and the last entry of the longest list.
    let swapped = on_junk(65536, |list| shuffle(&[0xFF, 0xFF], list)).unwrap();
    assert_eq!((swapped[0], swapped[65535]), (65535, 0));
}

#[test]
fn inverting_wants_a_permutation() {
    assert_eq!(on_junk(0, |inverse| invert(&[], inverse)), Some(vec![]));
    assert_eq!(on_junk(1, |inverse| invert(&[], inverse)), None);
    assert_eq!(on_junk(0, |inverse| invert(&[0], inverse)), None);
    assert_eq!(on_junk(2, |inverse| invert(&[1, 0], inverse)), Some(vec![1, 0]));
    assert_eq!(on_junk(3, |inverse| invert(&[1, 2, 0], inverse)), Some(vec![2, 0, 1]));
    assert_eq!(on_junk(2, |inverse| invert(&[1, 1], inverse)), None);
    assert_eq!(on_junk(2, |inverse| invert(&[0, 2], inverse)), None);
    assert_eq!(on_junk(3, |inverse| invert(&[0, 1, 0xFFFF], inverse)), None);
    let too_long: Vec<u16> = (0..=u16::MAX).chain([0]).collect();
    assert_eq!(on_junk(65537, |inverse| invert(&too_long, inverse)), None);
}

#[test]
fn masks_and_seeds_have_at_most_65536_bytes() {
    let seed = vec![7; 65537];
    assert_eq!(on_junk(0, |output| mask(&[], output)), Some(vec![]));
    assert_eq!(
        on_junk(65, |output| mask(&[], output)),
        Some(peer::mask::generate(&[], 65))
    );
    assert!(on_junk(65536, |output| mask(&seed[..65536], output)).is_some());
    assert_eq!(on_junk(65537, |output| mask(&[], output)), None);
    assert_eq!(on_junk(0, |output| mask(&seed, output)), None);
}

#[test]
fn digests_have_64_bytes() {
    for length in [0, 32, 63, 65, 128] {
        assert_eq!(on_junk(length, |digest| sha512(b"abc", digest)), None);
    }
    let digest = on_junk(64, |digest| sha512(b"abc", digest)).unwrap();
    assert_eq!(digest, peer::sha512::digest(b"abc"));
}
