//! The answer numbers.

use std::error::Error;
use std::fmt;

/// Why a call refuses; the discriminants are the answer numbers. The number 0 means done.
#[derive(Clone, Copy, Debug, PartialEq, Eq, PartialOrd, Ord, Hash)]
pub enum Refusal {
    /// The set byte names no set.
    UnknownSet = 1,
    /// A key has no first byte, or a length, an element or a list is not as stated.
    WrongLength = 2,
    /// Setup: fewer than n multipliers that are not zero.
    FewMultipliers = 3,
    /// Setup: the block search runs out of elements.
    FewElements = 4,
    /// Setup: none of five windows has u at most u0.
    NoWindow = 5,
    /// Setup: the first k columns are dependent.
    Dependent = 6,
    /// Opening: the private key is malformed.
    Malformed = 7,
    /// Opening: the key's matrix W is singular.
    Singular = 8,
    /// Sealing: every random block yields a zero error value.
    ZeroValues = 9,
    /// Opening: the ciphertext is not opened.
    NotOpened = 10,
    /// Wrapping: the secret has no byte, or more than a message.
    WrongSecret = 11,
}

impl Refusal {
    /// All refusals, by rising number.
    pub const ALL: [Refusal; 11] = [
        Refusal::UnknownSet,
        Refusal::WrongLength,
        Refusal::FewMultipliers,
        Refusal::FewElements,
        Refusal::NoWindow,
        Refusal::Dependent,
        Refusal::Malformed,
        Refusal::Singular,
        Refusal::ZeroValues,
        Refusal::NotOpened,
        Refusal::WrongSecret,
    ];

    /// The answer number.
    pub const fn number(self) -> u16 {
        self as u16
    }

    /// The refusal of an answer number from 1 to 11.
    pub fn of_number(number: u16) -> Option<Refusal> {
        Refusal::ALL.into_iter().find(|refusal| refusal.number() == number)
    }

    /// Whether the same call may well succeed with other random bytes: setup's 3 to 6, and sealing's 9.
    pub const fn asks_for_other_random_bytes(self) -> bool {
        matches!(self.number(), 3..=6 | 9)
    }

    /// Its meaning in words.
    pub const fn meaning(self) -> &'static str {
        match self {
            Refusal::UnknownSet => "the set byte names no set",
            Refusal::WrongLength => "a key is empty, or a length, an element or a list is not as stated",
            Refusal::FewMultipliers => "too many of the random bytes' multipliers are zero",
            Refusal::FewElements => "the random bytes have too few elements for the blocks",
            Refusal::NoWindow => "none of the five windows of the random bytes fits",
            Refusal::Dependent => "the random bytes give a matrix whose first columns are dependent",
            Refusal::Malformed => "the private key is malformed",
            Refusal::Singular => "the private key's matrix W is singular",
            Refusal::ZeroValues => "every random block yields a zero error value",
            Refusal::NotOpened => "the ciphertext is not opened",
            Refusal::WrongSecret => "the secret has no byte, or more than a message",
        }
    }
}

impl fmt::Display for Refusal {
    fn fmt(&self, f: &mut fmt::Formatter<'_>) -> fmt::Result {
        write!(f, "refused {}: {}", self.number(), self.meaning())
    }
}

impl Error for Refusal {}
