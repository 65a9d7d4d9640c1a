//! Answer numbers.

/// Why a call refuses; the discriminants are the answer numbers of the C interface. The number 0 means done.
#[derive(Clone, Copy, Debug, PartialEq, Eq, PartialOrd, Ord)]
pub enum Refusal {
    /// The set byte is not in the table.
    UnknownSet = 1,
    /// A key has no first byte, or a length, an element or a list is not as stated.
    Length = 2,
    /// Setup: fewer than n non-zero multipliers.
    Multipliers = 3,
    /// Setup: the block search runs out of elements.
    Blocks = 4,
    /// Setup: none of five windows has u at most u0.
    Windows = 5,
    /// Setup: the first k columns are dependent.
    Dependent = 6,
    /// Opening: the private key is malformed.
    Malformed = 7,
    /// Opening: the key's matrix W is singular.
    Singular = 8,
    /// Sealing: every random block yields a zero error value.
    ZeroErrorValue = 9,
    /// Opening: the ciphertext is not opened.
    NotOpened = 10,
    /// KEM: the secret is shorter than 1 or longer than k1.
    SecretLength = 11,
}

impl Refusal {
    /// The answer number.
    pub const fn number(self) -> u16 {
        self as u16
    }

    /// Whether the call ends before it writes anything.
    pub const fn writes_nothing(self) -> bool {
        matches!(self, Refusal::UnknownSet | Refusal::Length | Refusal::SecretLength)
    }
}
