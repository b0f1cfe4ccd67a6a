//! Numbers to work on, and the two kinds of elements on both sides.

use crate::ours::{self, Kind};
use p3_field::Field;

/// A generator of numbers: splitmix64.
pub struct Numbers(u64);

impl Numbers {
    pub fn new(seed: u64) -> Self {
        Self(seed)
    }

    pub fn next(&mut self) -> u64 {
        self.0 = self.0.wrapping_add(0x9e37_79b9_7f4a_7c15);
        let mut z = self.0;
        z = (z ^ (z >> 30)).wrapping_mul(0xbf58_476d_1ce4_e5b9);
        z = (z ^ (z >> 27)).wrapping_mul(0x94d0_49bb_1331_11eb);
        z ^ (z >> 31)
    }
}

/// Heights that differ by up to a half of their mean, and add up to the area.
pub fn heights_of(numbers: &mut Numbers, columns: usize, area: usize) -> Vec<usize> {
    let mean = area / columns;
    let mut heights = vec![mean; columns];
    for pair in heights.chunks_exact_mut(2) {
        let moved = numbers.next() as usize % (mean / 2);
        pair[0] += moved;
        pair[1] -= moved;
    }
    heights
}

/// One kind of elements on both sides.
pub trait Both {
    type Ours: Kind;
    type Theirs: Field;
    const NAME: &str;
    fn theirs(numbers: &[u64]) -> Vec<Self::Theirs>;
    fn numbers(cells: &[Self::Theirs]) -> Vec<u64>;
}

pub struct Words;

impl Both for Words {
    type Ours = ours::Word;
    type Theirs = p3_field::Word;
    const NAME: &str = "words";

    fn theirs(numbers: &[u64]) -> Vec<p3_field::Word> {
        numbers.iter().map(|&n| p3_field::Word::new(n)).collect()
    }

    fn numbers(cells: &[p3_field::Word]) -> Vec<u64> {
        cells.iter().map(|cell| cell.number()).collect()
    }
}

pub struct Residues;

impl Both for Residues {
    type Ours = ours::Residue;
    type Theirs = p3_field::Residue;
    const NAME: &str = "residues";

    fn theirs(numbers: &[u64]) -> Vec<p3_field::Residue> {
        numbers.iter().map(|&n| p3_field::Residue::new(n)).collect()
    }

    fn numbers(cells: &[p3_field::Residue]) -> Vec<u64> {
        cells.iter().map(|cell| cell.number()).collect()
    }
}
