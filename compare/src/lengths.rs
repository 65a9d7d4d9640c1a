//! Lengths at random, and chances.

use peer::inputs::Noise;

/// What a maker of cases asks of its noise beside bytes and numbers.
pub trait Lengths {
    /// True once in `n` times.
    fn once_in(&mut self, n: usize) -> bool;
    /// A length: mostly short, sometimes long, sometimes at an edge.
    fn length(&mut self, most: usize) -> usize;
    /// `n`, or now and then a length beside it.
    fn about(&mut self, n: usize) -> usize;
    /// A length other than `n`, mostly by one.
    fn not_quite(&mut self, n: usize) -> usize;
    /// One of the things in a list.
    fn one_of<T: Copy>(&mut self, things: &[T]) -> T;
}

impl Lengths for Noise {
    fn once_in(&mut self, n: usize) -> bool {
        self.below(n) == 0
    }

    fn length(&mut self, most: usize) -> usize {
        match self.below(8) {
            0 => 0,
            1 => self.below(4),
            2 => most - self.below(3).min(most),
            3 => self.below(most + 1),
            _ => self.below(most.min(300) + 1),
        }
    }

    fn about(&mut self, n: usize) -> usize {
        match self.below(10) {
            0 => n + 1,
            1 => n.saturating_sub(1),
            2 => self.length(n + 10),
            _ => n,
        }
    }

    fn not_quite(&mut self, n: usize) -> usize {
        let length = match self.below(8) {
            0..=2 => n + 1,
            3..=5 => n.saturating_sub(1),
            6 => 0,
            _ => self.length(2 * n + 10),
        };
        if length == n {
            n + 1
        } else {
            length
        }
    }

    fn one_of<T: Copy>(&mut self, things: &[T]) -> T {
        things[self.below(things.len())]
    }
}
