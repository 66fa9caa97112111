//! From levels to coefficients, and the two inverse transforms.
//!
//! Both transforms sum factors T(u,n) of the cosine times 2048×√2. The sums of a row or column are taken in halves, even and odd u apart: T(u,7−n) is T(u,n)
//! for even u and −T(u,n) for odd u, so that half the multiplications do.

use crate::records::{Coefficient, POSITIONS};
use std::ops::{Add, Mul, Sub};

const SIDE: usize = 8;

/// The place 8×v + u of each position along the zigzag.
const ZIGZAG: [u8; POSITIONS] = [
    0, 1, 8, 16, 9, 2, 3, 10, 17, 24, 32, 25, 18, 11, 4, 5, 12, 19, 26, 33, 40, 48, 41, 34, 27, 20, 13, 6, 7, 14, 21, 28, 35, 42, 49, 56, 57, 50, 43,
    36, 29, 22, 15, 23, 30, 37, 44, 51, 58, 59, 52, 45, 38, 31, 39, 46, 53, 60, 61, 54, 47, 55, 62, 63,
];

/// W(1) to W(7), and T(0,n) as W(0).
const W: [i16; SIDE] = [2048, 2841, 2676, 2408, 2048, 1609, 1108, 565];

const LOWEST_COEFFICIENT: i32 = -2048;
const HIGHEST_COEFFICIENT: i32 = 2047;

/// The code of the first coefficient 1,024, which would have had the forbidden code 128.
const MIDDLE_GREY_CODE: u8 = 255;

#[derive(Clone, Copy, Debug, PartialEq, Eq)]
pub enum Transform {
    TwoPass = 0,
    Direct = 1,
}

impl Transform {
    pub fn from_number(number: u32) -> Option<Self> {
        [Transform::TwoPass, Transform::Direct].into_iter().find(|&transform| transform as u32 == number)
    }
}

/// The coefficients of a block, and which of its rows have any.
pub struct Block {
    coefficients: [[i16; SIDE]; SIDE],
    /// Bit v is set when a coefficient of row v may differ from 0.
    rows: u8,
    /// Is no coefficient but the first set?
    flat: bool,
}

impl Block {
    /// An INTER block: levels alone.
    pub fn of_levels(quantizer: u8, levels: &[Coefficient]) -> Self {
        let mut block = Block { coefficients: [[0; SIDE]; SIDE], rows: 0, flat: true };
        block.set_levels(quantizer, levels);
        block
    }

    /// An INTRA block: the first coefficient has a code of its own.
    pub fn of_dc_and_levels(code: u8, quantizer: u8, levels: &[Coefficient]) -> Self {
        let mut block = Block::of_levels(quantizer, levels);
        block.coefficients[0][0] = if code == MIDDLE_GREY_CODE { 1024 } else { 8 * i16::from(code) };
        block.rows |= 1;
        block
    }

    fn set_levels(&mut self, quantizer: u8, levels: &[Coefficient]) {
        for &Coefficient { position, level } in levels {
            let place = ZIGZAG[usize::from(position) % POSITIONS];
            let row = usize::from(place / SIDE as u8);
            self.coefficients[row][usize::from(place) % SIDE] = coefficient(quantizer, level);
            self.rows |= 1 << row;
            self.flat &= position == 0;
        }
    }
}

fn coefficient(quantizer: u8, level: i8) -> i16 {
    let quantizer = i32::from(quantizer);
    let level = i32::from(level);
    let even = 1 - quantizer % 2;
    let size = quantizer * (2 * level.abs() + 1) - even;
    (size * level.signum()).clamp(LOWEST_COEFFICIENT, HIGHEST_COEFFICIENT) as i16
}

impl Transform {
    /// The 64 results, each from −256 to 255, by rows.
    pub fn invert(self, block: &Block) -> [[i16; SIDE]; SIDE] {
        if block.flat {
            // By both transforms this is what the sums come to.
            return [[into_range((i32::from(block.coefficients[0][0]) + 4) >> 3); SIDE]; SIDE];
        }
        match self {
            Transform::TwoPass => invert_in_two_passes(block),
            Transform::Direct => invert_directly(block),
        }
    }
}

/// Rounds after the rows and again after the columns. |T| sums to 15,303 for each n, so that 32 bits hold every sum of both passes.
fn invert_in_two_passes(block: &Block) -> [[i16; SIDE]; SIDE] {
    let rows = sum_rows(block).map(|row| Lanes(row.map(|sum| (sum + 128) >> 8)));
    cosine_sums(rows).map(|Lanes(sums)| sums.map(|sum| into_range((sum + (1 << 16)) >> 17)))
}

/// Rounds once.
fn invert_directly(block: &Block) -> [[i16; SIDE]; SIDE] {
    let rows = sum_rows(block).map(|row| Lanes(row.map(i64::from)));
    cosine_sums(rows).map(|Lanes(sums)| sums.map(|sum| into_range(((sum + (1 << 24)) >> 25) as i32)))
}

/// Eight numbers that are reckoned with alike: the columns of a block.
#[derive(Clone, Copy)]
struct Lanes<N>([N; SIDE]);

impl<N: Copy + From<i16>> From<i16> for Lanes<N> {
    fn from(number: i16) -> Self {
        Lanes([N::from(number); SIDE])
    }
}

impl<N: Copy + Add<Output = N>> Add for Lanes<N> {
    type Output = Self;

    fn add(self, other: Self) -> Self {
        Lanes(std::array::from_fn(|lane| self.0[lane] + other.0[lane]))
    }
}

impl<N: Copy + Sub<Output = N>> Sub for Lanes<N> {
    type Output = Self;

    fn sub(self, other: Self) -> Self {
        Lanes(std::array::from_fn(|lane| self.0[lane] - other.0[lane]))
    }
}

impl<N: Copy + Mul<Output = N>> Mul for Lanes<N> {
    type Output = Self;

    fn mul(self, other: Self) -> Self {
        Lanes(std::array::from_fn(|lane| self.0[lane] * other.0[lane]))
    }
}

fn sum_rows(block: &Block) -> [[i32; SIDE]; SIDE] {
    let mut sums = [[0; SIDE]; SIDE];
    for (row, (sum, coefficients)) in sums.iter_mut().zip(&block.coefficients).enumerate() {
        if block.rows >> row & 1 == 1 {
            *sum = cosine_sums(coefficients.map(i32::from));
        }
    }
    sums
}

/// The sum over u of T(u,n)×x(u), for each n.
fn cosine_sums<N>(x: [N; SIDE]) -> [N; SIDE]
where
    N: Copy + From<i16> + Add<Output = N> + Sub<Output = N> + Mul<Output = N>,
{
    let w = W.map(N::from);
    let sum = w[0] * (x[0] + x[4]);
    let difference = w[0] * (x[0] - x[4]);
    let outer = w[2] * x[2] + w[6] * x[6];
    let inner = w[6] * x[2] - w[2] * x[6];
    let even = [sum + outer, difference + inner, difference - inner, sum - outer];
    let odd = [
        w[1] * x[1] + w[3] * x[3] + w[5] * x[5] + w[7] * x[7],
        w[3] * x[1] - w[7] * x[3] - w[1] * x[5] - w[5] * x[7],
        w[5] * x[1] - w[1] * x[3] + w[7] * x[5] + w[3] * x[7],
        w[7] * x[1] - w[5] * x[3] + w[3] * x[5] - w[1] * x[7],
    ];
    [even[0] + odd[0], even[1] + odd[1], even[2] + odd[2], even[3] + odd[3], even[3] - odd[3], even[2] - odd[2], even[1] - odd[1], even[0] - odd[0]]
}

fn into_range(result: i32) -> i16 {
    result.clamp(-256, 255) as i16
}

#[cfg(test)]
mod tests {
    use super::*;
    use crate::random::Random;

    fn factor(u: usize, n: usize) -> i64 {
        if u == 0 {
            return 2048;
        }
        let mut m = (2 * n + 1) * u % 32;
        if m > 16 {
            m = 32 - m;
        }
        if m < 8 {
            i64::from(W[m])
        } else {
            -i64::from(W[16 - m])
        }
    }

    /// The page's sums, taken as they are written there.
    fn by_definition(transform: Transform, x: &[[i16; SIDE]; SIDE]) -> [[i16; SIDE]; SIDE] {
        let mut results = [[0; SIDE]; SIDE];
        for (k, row) in results.iter_mut().enumerate() {
            for (n, result) in row.iter_mut().enumerate() {
                let sum = |u_sum: &dyn Fn(i64) -> i64| -> i64 {
                    (0..SIDE).map(|v| factor(v, k) * u_sum((0..SIDE).map(|u| factor(u, n) * i64::from(x[v][u])).sum())).sum()
                };
                let value = match transform {
                    Transform::TwoPass => (sum(&|row| (row + 128).div_euclid(256)) + 65_536).div_euclid(131_072),
                    Transform::Direct => (sum(&|row| row) + 16_777_216).div_euclid(33_554_432),
                };
                *result = value.clamp(-256, 255) as i16;
            }
        }
        results
    }

    fn drawn_block(random: &mut Random) -> Block {
        let mut block = Block { coefficients: [[0; SIDE]; SIDE], rows: 0, flat: true };
        let size = random.pick(&[3, 50, 600, 2048]);
        for _ in 0..random.pick(&[1, 2, 5, 20, 200]) {
            let (row, across) = (random.below(SIDE), random.below(SIDE));
            block.coefficients[row][across] = random.between(-size, size).min(2047) as i16;
            block.rows |= 1 << row;
            block.flat &= row + across == 0;
        }
        block
    }

    #[test]
    fn both_transforms_are_the_sums_of_the_page() {
        let mut random = Random::new(1);
        for _ in 0..20_000 {
            let block = drawn_block(&mut random);
            for transform in [Transform::TwoPass, Transform::Direct] {
                assert_eq!(transform.invert(&block), by_definition(transform, &block.coefficients));
            }
        }
    }

    #[test]
    fn flat_blocks_too() {
        for value in -2048..=2047 {
            let mut block = Block::of_levels(1, &[]);
            block.coefficients[0][0] = value;
            for transform in [Transform::TwoPass, Transform::Direct] {
                assert_eq!(transform.invert(&block), by_definition(transform, &block.coefficients));
            }
        }
    }

    #[test]
    fn sums_at_the_ends_fit() {
        for n in 0..SIDE {
            for k in 0..SIDE {
                let mut block = Block { coefficients: [[0; SIDE]; SIDE], rows: 255, flat: false };
                for v in 0..SIDE {
                    for u in 0..SIDE {
                        block.coefficients[v][u] = if factor(u, n) * factor(v, k) > 0 { 2047 } else { -2048 };
                    }
                }
                for transform in [Transform::TwoPass, Transform::Direct] {
                    assert_eq!(transform.invert(&block), by_definition(transform, &block.coefficients));
                }
            }
        }
    }

    #[test]
    fn levels_of_the_page() {
        assert_eq!(coefficient(5, 3), 35);
        assert_eq!(coefficient(4, -3), -27);
        assert_eq!(coefficient(31, 127), 2047);
        assert_eq!(coefficient(31, -127), -2048);
        assert_eq!(coefficient(9, 0), 0);
    }

    #[test]
    fn zigzag_of_the_page() {
        let mut position = 0;
        for diagonal in 0..15 {
            for step in 0..SIDE {
                let (u, v) = if diagonal % 2 == 0 { (step as i32, diagonal - step as i32) } else { (diagonal - step as i32, step as i32) };
                if (0..8).contains(&u) && (0..8).contains(&v) {
                    assert_eq!(i32::from(ZIGZAG[position]), 8 * v + u);
                    position += 1;
                }
            }
        }
    }
}
