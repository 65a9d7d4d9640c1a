//! Key pairs for the cases. Pairs of set 6 are made anew for each case; those of set 1, which are dear, come from a small
//! stock. Either way a case's pair is known by the case's number alone.

use crate::lengths::Lengths;
use peer::inputs::{window_fits_first, Noise};
use peer::keys::{PrivateKey, PublicKey};
use peer::perm::Permutation;
use peer::setup::{Draw, KeyPair};
use peer::Set;

/// A key pair as bytes and as structures.
#[derive(Clone)]
pub struct Pair {
    pub set: &'static Set,
    pub public: Vec<u8>,
    pub private: Vec<u8>,
    pub public_key: PublicKey,
    pub private_key: PrivateKey,
    pub p2: Permutation,
}

impl Pair {
    fn new(pair: KeyPair) -> Pair {
        Pair {
            set: pair.public.set,
            public: pair.public.to_bytes(),
            private: pair.private.to_bytes(),
            p2: pair.private.inverse_p2.inverse(),
            public_key: pair.public,
            private_key: pair.private,
        }
    }

    /// The two places of the scrambled word that hold pair i.
    pub fn places_of_pair(&self, i: usize) -> [u16; 2] {
        [0, 1].map(|side| self.private_key.inverse_p2.list()[self.set.unmixed() + 2 * i + side])
    }

    /// The places of I, below k and mixed.
    pub fn mixed(&self) -> Vec<usize> {
        (0..self.set.k)
            .filter(|&place| self.p2.image(place) >= self.set.unmixed())
            .collect()
    }

    /// The places of T, as many from k up as I has, unmixed.
    pub fn helping(&self) -> Vec<usize> {
        let unmixed = |&place: &usize| self.p2.image(place) < self.set.unmixed();
        (self.set.k..self.set.scrambled())
            .filter(unmixed)
            .take(self.mixed().len())
            .collect()
    }
}

/// The kinds of pairs: as setup makes them; both lists the identity, so that I is empty; u above u0, which setup never
/// makes but opening takes.
fn make(set: &'static Set, kind: usize, noise: &mut Noise) -> Pair {
    loop {
        let pair = match kind {
            0 => peer::setup::generate(set, &noise.bytes(set.setup_random_bytes())),
            1 => {
                let mut random = noise.bytes(set.setup_random_bytes());
                let elements = set.setup_random_bytes() - 4 * set.n - 2 * set.w;
                random[elements..].fill(0);
                peer::setup::generate(set, &random)
            }
            _ => Draw::new(set, &window_fits_first(set, 1, noise)).pair(0),
        };
        if let Ok(pair) = pair {
            return Pair::new(pair);
        }
    }
}

/// The stock of pairs of set 1.
#[derive(Default)]
pub struct Stock([Option<Pair>; 4]);

impl Stock {
    /// A pair of a set.
    pub fn pair(&mut self, set: &'static Set, noise: &mut Noise) -> Pair {
        if set.number == 6 {
            let kind = noise.one_of(&[0, 0, 0, 0, 0, 0, 1, 2]);
            return make(set, kind, noise);
        }
        let i = noise.below(self.0.len());
        let kind = i.saturating_sub(1);
        self.0[i]
            .get_or_insert_with(|| make(set, kind, &mut Noise(1000 + i as u64)))
            .clone()
    }
}
