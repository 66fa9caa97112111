//! Writes valid deliveries of drawn macroblocks.

use crate::motion::Vectors;
use crate::random::Random;
use crate::records::{MacroblockType, PictureKind, Vector, BLOCKS, POSITIONS};

/// What the macroblocks of a delivery are drawn from.
#[derive(Clone, Copy, Debug)]
pub struct Mix {
    /// Weights of skipped, INTER and INTRA macroblocks in an INTER picture.
    pub types: [u32; 3],
    pub quantizers: Quantizers,
    pub vectors: VectorMix,
    /// Of a hundred blocks so many have coefficients.
    pub coded: u32,
    pub runs: Runs,
    pub levels: Levels,
    pub codes: Codes,
}

#[derive(Clone, Copy, Debug)]
pub enum Quantizers {
    Any,
    Always(u8),
    /// 1, 2, 30 or 31.
    Ends,
}

#[derive(Clone, Copy, Debug)]
pub enum VectorMix {
    Zero,
    /// At most three half samples.
    Near,
    Any,
    /// Most of them at the ends of the range.
    Far,
    /// Up to 16 half samples, without half steps.
    Whole,
    /// Up to 15 half samples, with half steps in both directions.
    Half,
    /// Any difference from the predictor.
    AnyDifference,
}

#[derive(Clone, Copy, Debug)]
pub enum Runs {
    /// One to three coefficients among the first ones.
    Few,
    /// Any number of coefficients anywhere.
    Any,
    /// Every position.
    All,
    /// Position 63, and little before it.
    Last,
}

#[derive(Clone, Copy, Debug)]
pub enum Levels {
    Small,
    Any,
    /// ±127 and ±1.
    Ends,
}

#[derive(Clone, Copy, Debug)]
pub enum Codes {
    Any,
    /// Near one another, as in a picture without edges.
    Smooth,
    /// 1, 254 and 255.
    Ends,
}

/// Draws a mix, so that skipped, predicted and coefficient-heavy pictures all occur.
pub fn draw_mix(random: &mut Random) -> Mix {
    Mix {
        types: random.pick(&[
            [1, 1, 1],
            [8, 1, 1],
            [20, 1, 0],
            [1, 8, 1],
            [3, 6, 1],
            [0, 12, 1],
            [0, 1, 0],
            [0, 1, 0],
            [1, 1, 6],
            [0, 0, 1],
            [1, 0, 0],
        ]),
        quantizers: match random.below(4) {
            0 => Quantizers::Always(random.between(1, 31) as u8),
            1 => Quantizers::Ends,
            _ => Quantizers::Any,
        },
        vectors: random.pick(&[
            VectorMix::Zero,
            VectorMix::Near,
            VectorMix::Any,
            VectorMix::Any,
            VectorMix::Far,
            VectorMix::Whole,
            VectorMix::Half,
            VectorMix::AnyDifference,
        ]),
        coded: random.pick(&[0, 5, 20, 20, 50, 50, 80, 100]),
        runs: random.pick(&[Runs::Few, Runs::Few, Runs::Few, Runs::Few, Runs::Few, Runs::Few, Runs::Any, Runs::Any, Runs::All, Runs::Last]),
        levels: random.pick(&[Levels::Small, Levels::Small, Levels::Any, Levels::Ends]),
        codes: random.pick(&[Codes::Any, Codes::Smooth, Codes::Smooth, Codes::Ends]),
    }
}

/// The words as they are delivered.
pub fn to_bytes(words: &[u32]) -> Vec<u8> {
    words.iter().flat_map(|word| word.to_be_bytes()).collect()
}

/// A valid delivery of a segment of so many columns and rows.
pub fn write_delivery(random: &mut Random, kind: PictureKind, columns: usize, rows: usize, mix: &Mix) -> Vec<u32> {
    let smooth_code = random.between(20, 235);
    let mut writer = Writer { random, mix, vectors: Vectors::default(), smooth_code, words: Vec::new() };
    writer.vectors.begin(columns);
    for _ in 0..columns * rows {
        writer.write_macroblock(kind);
    }
    writer.words
}

struct Writer<'a> {
    random: &'a mut Random,
    mix: &'a Mix,
    vectors: Vectors,
    smooth_code: i32,
    words: Vec<u32>,
}

impl Writer<'_> {
    fn write_macroblock(&mut self, kind: PictureKind) {
        let kind = match kind {
            PictureKind::Intra => MacroblockType::Intra,
            PictureKind::Inter => [MacroblockType::Skipped, MacroblockType::Inter, MacroblockType::Intra][self.random.weighted(&self.mix.types)],
        };
        match kind {
            MacroblockType::Skipped => {
                self.words.push(1 << 28);
                self.vectors.push(Vector::default());
            }
            MacroblockType::Inter => {
                let pattern = self.write_head(1);
                self.write_vector();
                for block in 0..BLOCKS {
                    self.write_coefficients(block, 0, pattern);
                }
            }
            MacroblockType::Intra => {
                let pattern = self.write_head(2);
                self.vectors.push(Vector::default());
                for block in 0..BLOCKS {
                    self.write_dc(block);
                    self.write_coefficients(block, 1, pattern);
                }
            }
        }
    }

    fn write_head(&mut self, kind: u32) -> u32 {
        let quantizer = match self.mix.quantizers {
            Quantizers::Any => self.random.between(1, 31) as u32,
            Quantizers::Always(quantizer) => quantizer.into(),
            Quantizers::Ends => self.random.pick(&[1, 2, 30, 31]),
        };
        let pattern = (0..BLOCKS).fold(0, |pattern, _| pattern << 1 | u32::from(self.random.percent(self.mix.coded)));
        self.words.push(1 << 28 | kind << 26 | quantizer << 21 | pattern << 15);
        pattern
    }

    fn write_vector(&mut self) {
        let vector = match self.mix.vectors {
            VectorMix::AnyDifference => {
                let difference = self.draw_vector(|random| random.between(-32, 31));
                self.vectors.resolve(difference)
            }
            VectorMix::Zero => Vector::default(),
            VectorMix::Near => self.draw_vector(|random| random.between(-3, 3)),
            VectorMix::Any => self.draw_vector(|random| random.between(-32, 31)),
            VectorMix::Far => self.draw_vector(|random| random.pick(&[-32, -31, -30, 0, 1, 29, 30, 31])),
            VectorMix::Whole => self.draw_vector(|random| 2 * random.between(-8, 8)),
            VectorMix::Half => self.draw_vector(|random| 2 * random.between(-8, 7) + 1),
        };
        let difference = self.vectors.difference_to(vector);
        self.vectors.push(vector);
        let bits = |component: i8| (i32::from(component) + 32) as u32;
        self.words.push(2 << 28 | bits(difference.horizontal) << 6 | bits(difference.vertical));
    }

    fn draw_vector(&mut self, mut component: impl FnMut(&mut Random) -> i32) -> Vector {
        Vector { horizontal: component(self.random) as i8, vertical: component(self.random) as i8 }
    }

    fn write_dc(&mut self, block: usize) {
        let code = match self.mix.codes {
            Codes::Any => self.random.between(1, 255),
            Codes::Smooth => {
                self.smooth_code = (self.smooth_code + self.random.between(-6, 6)).clamp(1, 254);
                self.smooth_code
            }
            Codes::Ends => self.random.pick(&[1, 254, 255]),
        };
        // 128 is forbidden, and middle grey has the code 255.
        let code = if code == 128 { 255 } else { code as u32 };
        self.words.push(3 << 28 | (block as u32) << 25 | code);
    }

    fn write_coefficients(&mut self, block: usize, first: usize, pattern: u32) {
        if pattern >> (BLOCKS - 1 - block) & 1 == 0 {
            return;
        }
        let positions = self.draw_positions(first);
        let mut next = first;
        for &position in &positions {
            let run = (position - next) as u32;
            let last = u32::from(Some(&position) == positions.last());
            let level = self.draw_level() as u8;
            self.words.push(4 << 28 | (block as u32) << 25 | run << 19 | last << 18 | u32::from(level));
            next = position + 1;
        }
    }

    /// One position or more, rising.
    fn draw_positions(&mut self, first: usize) -> Vec<usize> {
        let end = POSITIONS - 1;
        let positions: Vec<usize> = match self.mix.runs {
            Runs::Few => {
                let reach = self.random.between(first as i32, 14) as usize;
                (first..=reach).filter(|_| self.random.once_in(3)).take(3).collect()
            }
            Runs::Any => {
                let cases = self.random.pick(&[2, 4, 10, 30]);
                (first..=end).filter(|_| self.random.once_in(cases)).collect()
            }
            Runs::All => (first..=end).collect(),
            Runs::Last => (first..=end).filter(|&position| position == end || self.random.once_in(40)).collect(),
        };
        if positions.is_empty() {
            vec![self.random.between(first as i32, end as i32) as usize]
        } else {
            positions
        }
    }

    fn draw_level(&mut self) -> i8 {
        let size = match self.mix.levels {
            Levels::Small => self.random.between(1, 3),
            Levels::Any => self.random.between(1, 127),
            Levels::Ends => self.random.pick(&[1, 126, 127]),
        } as i8;
        if self.random.percent(50) {
            size
        } else {
            -size
        }
    }
}
