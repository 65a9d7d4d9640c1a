//! The five verbs through the types, for both sets, and every refusal that they can meet.

use stanquivol::{Ciphertext, KeyPair, PrivateKey, PublicKey, Refusal, Secret, Set, Set1, Set6, Work};

/// Bytes that look random, the same in every run: masks of a label.
fn bytes(label: &str, length: usize) -> Vec<u8> {
    let mut bytes = vec![0; length];
    assert_eq!(stanquivol::calls::mask(label.as_bytes(), &mut bytes), 0);
    bytes
}

fn pair<S: Set>() -> KeyPair<S> {
    let pair = KeyPair::setup(&bytes("setup 0", S::SETUP_BYTES)).unwrap();
    assert_eq!(pair.windows, 1);
    pair
}

fn round_trip<S: Set>() {
    let pair = pair::<S>();
    let mut work = Work::new();
    let random = bytes("seal 0", 16 * S::BLOCK_BYTES);
    let message = bytes("message 0", S::MESSAGE_BYTES);
    let sealed = pair.public.seal(&message, &random).unwrap();
    assert_eq!(*pair.private.open(&sealed.cipher).unwrap(), *message);
    assert_eq!(pair.public.seal_in(&message, &random, &mut work).unwrap(), sealed);
    assert_eq!(*pair.private.open_in(&sealed.cipher, &mut work).unwrap(), *message);
    for length in [1, 16, S::SECRET_MOST] {
        let wrapped = pair.public.wrap_in(&message[..length], &random, &mut work).unwrap();
        assert_eq!(
            *pair.private.unwrap_in(&wrapped.cipher, length, &mut work).unwrap(),
            message[..length]
        );
        assert_eq!(pair.public.wrap(&message[..length], &random).unwrap(), wrapped);
        assert_eq!(
            *pair.private.unwrap(&wrapped.cipher, length).unwrap(),
            message[..length]
        );
    }
    assert!(work.as_numbers().iter().all(|&number| number == 0));

    // by way of bytes
    let public = PublicKey::<S>::from_bytes(pair.public.as_bytes()).unwrap();
    let private = PrivateKey::<S>::from_bytes(pair.private.as_bytes()).unwrap();
    let cipher = Ciphertext::<S>::from_bytes(public.seal(&message, &random).unwrap().cipher.as_bytes()).unwrap();
    assert_eq!(cipher, sealed.cipher);
    assert_eq!(*private.open(&cipher).unwrap(), *message);
}

#[test]
fn set_6_opens_what_it_seals() {
    round_trip::<Set6>();
}

#[test]
fn set_1_opens_what_it_seals() {
    round_trip::<Set1>();
}

#[test]
fn setup_refuses() {
    let setup = |random: &[u8]| KeyPair::<Set6>::setup(random).unwrap_err();
    assert_eq!(setup(&[]), Refusal::WrongLength);
    assert_eq!(setup(&[0; 401]), Refusal::WrongLength);
    assert_eq!(setup(&[0; 402]), Refusal::FewMultipliers);
    assert_eq!(setup(&[0xFF; 402]), Refusal::FewElements);
    assert_eq!(setup(&bytes("setup 97", 402)), Refusal::Dependent);
    assert!(Refusal::Dependent.asks_for_other_random_bytes());
    assert!(!Refusal::WrongLength.asks_for_other_random_bytes());
}

#[test]
fn sealing_refuses() {
    let public = pair::<Set6>().public;
    let block = bytes("seal 0", 24);
    assert_eq!(public.seal(&[0; 29], &block), Err(Refusal::WrongLength));
    for length in [0, 25, 408] {
        assert_eq!(
            public.wrap(&[0; 16], &bytes("seal 0", length)),
            Err(Refusal::WrongLength)
        );
    }
    assert_eq!(public.wrap(&[], &block), Err(Refusal::WrongSecret));
    assert_eq!(public.wrap(&[0; 31], &block), Err(Refusal::WrongSecret));
    // about one block in a hundred yields a zero error value
    let refused = (0..2000).any(|i| public.wrap(&[7], &bytes(&format!("block {i}"), 24)) == Err(Refusal::ZeroValues));
    assert!(refused);
}

#[test]
fn opening_refuses() {
    let pair = pair::<Set6>();
    let sealed = pair.public.wrap(b"secret", &bytes("seal 0", 24)).unwrap();
    assert_eq!(
        pair.private.unwrap(&sealed.cipher, 0).unwrap_err(),
        Refusal::WrongSecret
    );
    assert_eq!(
        pair.private.unwrap(&sealed.cipher, 31).unwrap_err(),
        Refusal::WrongSecret
    );
    assert_eq!(
        pair.private.unwrap(&sealed.cipher, usize::MAX).unwrap_err(),
        Refusal::WrongSecret
    );
    let mut damaged = sealed.cipher.as_bytes().to_vec();
    damaged[7] ^= 1;
    let damaged = Ciphertext::<Set6>::from_bytes(&damaged).unwrap();
    assert_eq!(pair.private.unwrap(&damaged, 6).unwrap_err(), Refusal::NotOpened);
    let mut key = pair.private.as_bytes().to_vec();
    key[1..3].fill(0xFF);
    let malformed = PrivateKey::<Set6>::from_bytes(&key).unwrap();
    assert_eq!(malformed.open(&sealed.cipher).unwrap_err(), Refusal::Malformed);
    // the lists and the inverses kept, GE zero
    key.copy_from_slice(pair.private.as_bytes());
    let ge = 1 + 2 * 40 + 2 * 45 + 50 * 10 / 8 + 1;
    key[ge..].fill(0);
    let singular = PrivateKey::<Set6>::from_bytes(&key).unwrap();
    assert_eq!(singular.open(&sealed.cipher).unwrap_err(), Refusal::Singular);
}

#[test]
fn bytes_of_other_lengths_and_sets_are_no_keys() {
    let pair = pair::<Set6>();
    let refused = |bytes: &[u8]| PublicKey::<Set6>::from_bytes(bytes).unwrap_err();
    assert_eq!(refused(&[]), Refusal::WrongLength);
    assert_eq!(refused(&[0x26; 626]), Refusal::UnknownSet);
    assert_eq!(refused(&[0x11; 626]), Refusal::WrongLength);
    assert_eq!(refused(&pair.public.as_bytes()[..625]), Refusal::WrongLength);
    assert_eq!(
        PublicKey::<Set1>::from_bytes(pair.public.as_bytes()).unwrap_err(),
        Refusal::WrongLength
    );
    assert_eq!(
        PrivateKey::<Set6>::from_bytes(pair.public.as_bytes()).unwrap_err(),
        Refusal::WrongLength
    );
    assert_eq!(Ciphertext::<Set6>::from_bytes(&[0; 56]), Err(Refusal::WrongLength));
}

#[test]
fn refusals_have_numbers_and_words() {
    for (number, refusal) in (1..).zip(Refusal::ALL) {
        assert_eq!(refusal.number(), number);
        assert_eq!(Refusal::of_number(number), Some(refusal));
        assert_eq!(refusal.to_string(), format!("refused {number}: {}", refusal.meaning()));
    }
    assert_eq!(Refusal::of_number(0), None);
    assert_eq!(Refusal::of_number(12), None);
    let error: Box<dyn std::error::Error> = Refusal::NotOpened.into();
    assert_eq!(error.to_string(), "refused 10: the ciphertext is not opened");
}

#[test]
fn secrets_are_wiped_and_not_shown() {
    let mut secret = Secret::copy_of(b"a batch secret");
    assert_eq!(format!("{secret:?}"), "Secret(14 bytes)");
    assert!(!format!("{:?}", pair::<Set6>()).contains("22, "));
    stanquivol::wipe(&mut secret);
    assert_eq!(*secret, [0; 14]);
    assert_ne!(*Secret::random(32).unwrap(), *Secret::random(32).unwrap());
}

/// The value of a constant of the header.
fn of_header(name: &str) -> usize {
    let header = include_str!("../../../include/stanquivol.h");
    let line = header.lines().find_map(|line| {
        line.strip_prefix("#define STANQUIVOL_")?
            .strip_prefix(name)?
            .strip_prefix(' ')
    });
    let value = line.unwrap_or_else(|| panic!("the header has no {name}"));
    match value.strip_prefix("0x") {
        Some(hex) => usize::from_str_radix(hex, 16).unwrap(),
        None => value.parse().unwrap(),
    }
}

fn same_as_header<S: Set>(set: &str) {
    assert_eq!(usize::from(S::BYTE), of_header(set));
    for (name, value) in [
        ("PUBLIC_BYTES", S::PUBLIC_BYTES),
        ("PRIVATE_BYTES", S::PRIVATE_BYTES),
        ("CIPHER_BYTES", S::CIPHER_BYTES),
        ("MESSAGE_BYTES", S::MESSAGE_BYTES),
        ("SECRET_MOST", S::SECRET_MOST),
        ("SETUP_BYTES", S::SETUP_BYTES),
        ("BLOCK_BYTES", S::BLOCK_BYTES),
        ("WORK_NUMBERS", S::WORK_NUMBERS),
    ] {
        assert_eq!(of_header(&format!("{set}_{name}")), value);
    }
}

#[test]
fn constants_are_those_of_the_header() {
    same_as_header::<Set1>("SET1");
    same_as_header::<Set6>("SET6");
    assert_eq!(of_header("BLOCKS_MOST"), stanquivol::BLOCKS_MOST);
    for (name, refusal) in [
        ("UNKNOWN_SET", Refusal::UnknownSet),
        ("WRONG_LENGTH", Refusal::WrongLength),
        ("FEW_MULTIPLIERS", Refusal::FewMultipliers),
        ("FEW_ELEMENTS", Refusal::FewElements),
        ("NO_WINDOW", Refusal::NoWindow),
        ("DEPENDENT", Refusal::Dependent),
        ("MALFORMED", Refusal::Malformed),
        ("SINGULAR", Refusal::Singular),
        ("ZERO_VALUES", Refusal::ZeroValues),
        ("NOT_OPENED", Refusal::NotOpened),
        ("WRONG_SECRET", Refusal::WrongSecret),
    ] {
        assert_eq!(of_header(name), usize::from(refusal.number()));
    }
}
