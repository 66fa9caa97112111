//! Reads a delivery: words of 32 bits into macroblocks, with every rule of the format asked in its order.

use crate::answers::{Layer, Refusal, NO_BLOCK};
use std::slice::ChunksExact;

/// Blocks of a macroblock: four of luma, then Cb and Cr.
pub const BLOCKS: usize = 6;

/// Coefficients of a block.
pub const POSITIONS: usize = 64;

const HEAD: u32 = 1;
const VECTOR: u32 = 2;
const DC: u32 = 3;
const COEFFICIENT: u32 = 4;

const HEAD_UNNAMED: u32 = 0x0000_7fff;
const VECTOR_UNNAMED: u32 = 0x0fff_f000;
const DC_UNNAMED: u32 = 0x01ff_ff00;
const COEFFICIENT_UNNAMED: u32 = 0x0003_ff00;

/// What is added to a component of a vector difference, so that no word holds a negative one.
const VECTOR_OFFSET: i8 = 32;

#[derive(Clone, Copy, Debug, PartialEq, Eq)]
pub enum PictureKind {
    Intra,
    Inter,
}

#[derive(Clone, Copy, Debug, PartialEq, Eq)]
pub enum MacroblockType {
    Skipped,
    Inter,
    Intra,
}

/// A motion vector, or a difference of two, in half samples; right and down are positive.
#[derive(Clone, Copy, Debug, Default, PartialEq, Eq)]
pub struct Vector {
    pub horizontal: i8,
    pub vertical: i8,
}

#[derive(Clone, Copy, Debug)]
pub struct Coefficient {
    /// Its place along the zigzag.
    pub position: u8,
    pub level: i8,
}

#[derive(Clone, Copy, Debug)]
pub struct Macroblock {
    pub kind: MacroblockType,
    pub quantizer: u8,
    /// Bit 5 belongs to block 0, bit 0 to block 5.
    pub pattern: u8,
    pub difference: Vector,
    /// The code of each block's first coefficient, if INTRA.
    pub dc: [u8; BLOCKS],
    /// How many of the delivery's coefficients each block has.
    pub coefficients: [u8; BLOCKS],
}

impl Macroblock {
    pub fn has_pattern(&self, block: usize) -> bool {
        self.pattern >> (BLOCKS - 1 - block) & 1 == 1
    }
}

/// The macroblocks of a delivery, and the coefficients of all of them one after the other. Room is kept from delivery to delivery.
#[derive(Default)]
pub struct Records {
    pub macroblocks: Vec<Macroblock>,
    pub coefficients: Vec<Coefficient>,
}

/// What an accepted delivery is answered.
#[derive(Clone, Copy, Debug, PartialEq, Eq)]
pub struct Counts {
    pub words: usize,
    pub intra: usize,
}

impl Records {
    /// Reads a delivery of so many macroblocks. After a refusal the records are those read before it.
    pub fn read(&mut self, kind: PictureKind, macroblocks: usize, bytes: &[u8]) -> Result<Counts, Refusal> {
        self.macroblocks.clear();
        self.coefficients.clear();
        let mut words = Words::new(bytes)?;
        let mut intra = 0;
        while words.macroblock < macroblocks {
            let macroblock = self.read_macroblock(kind, &mut words)?;
            intra += usize::from(macroblock.kind == MacroblockType::Intra);
            self.macroblocks.push(macroblock);
            words.macroblock += 1;
        }
        words.end()?;
        Ok(Counts { words: words.total, intra })
    }

    fn read_macroblock(&mut self, kind: PictureKind, words: &mut Words) -> Result<Macroblock, Refusal> {
        let mut macroblock = read_head(kind, words)?;
        match macroblock.kind {
            MacroblockType::Skipped => {}
            MacroblockType::Inter => {
                macroblock.difference = read_difference(words)?;
                for block in 0..BLOCKS {
                    self.read_coefficients(&mut macroblock, block, 0, words)?;
                }
            }
            MacroblockType::Intra => {
                for block in 0..BLOCKS {
                    macroblock.dc[block] = read_dc(block, words)?;
                    self.read_coefficients(&mut macroblock, block, 1, words)?;
                }
            }
        }
        Ok(macroblock)
    }

    fn read_coefficients(&mut self, macroblock: &mut Macroblock, block: usize, first: u32, words: &mut Words) -> Result<(), Refusal> {
        if !macroblock.has_pattern(block) {
            return Ok(());
        }
        let before = self.coefficients.len();
        let mut next = first;
        loop {
            let word = words.next_of_block(COEFFICIENT, COEFFICIENT_UNNAMED, block)?;
            let level = word as u8 as i8;
            if level == 0 || level == i8::MIN {
                return Err(words.refusal(15, Layer::Block, block as u32));
            }
            let position = next + (word >> 19 & 63);
            if position >= POSITIONS as u32 {
                return Err(words.refusal(16, Layer::Block, block as u32));
            }
            self.coefficients.push(Coefficient { position: position as u8, level });
            if word >> 18 & 1 == 1 {
                break;
            }
            next = position + 1;
        }
        macroblock.coefficients[block] = (self.coefficients.len() - before) as u8;
        Ok(())
    }
}

fn read_head(kind: PictureKind, words: &mut Words) -> Result<Macroblock, Refusal> {
    let word = words.next(HEAD, HEAD_UNNAMED, NO_BLOCK)?;
    let quantizer = word >> 21 & 31;
    let pattern = word >> 15 & 63;
    let kind = match (word >> 26 & 3, kind) {
        (0, PictureKind::Inter) if quantizer == 0 && pattern == 0 => MacroblockType::Skipped,
        (1, PictureKind::Inter) if quantizer != 0 => MacroblockType::Inter,
        (2, _) if quantizer != 0 => MacroblockType::Intra,
        _ => return Err(words.refusal(13, Layer::Macroblock, NO_BLOCK)),
    };
    Ok(Macroblock {
        kind,
        quantizer: quantizer as u8,
        pattern: pattern as u8,
        difference: Vector::default(),
        dc: [0; BLOCKS],
        coefficients: [0; BLOCKS],
    })
}

fn read_difference(words: &mut Words) -> Result<Vector, Refusal> {
    let word = words.next(VECTOR, VECTOR_UNNAMED, NO_BLOCK)?;
    let component = |bits: u32| (bits & 63) as i8 - VECTOR_OFFSET;
    Ok(Vector { horizontal: component(word >> 6), vertical: component(word) })
}

fn read_dc(block: usize, words: &mut Words) -> Result<u8, Refusal> {
    let word = words.next_of_block(DC, DC_UNNAMED, block)?;
    let code = word as u8;
    if code == 0 || code == 128 {
        return Err(words.refusal(15, Layer::Block, block as u32));
    }
    Ok(code)
}

/// The words of a delivery, and how many macroblocks were read whole.
struct Words<'a> {
    left: ChunksExact<'a, u8>,
    total: usize,
    macroblock: usize,
}

impl<'a> Words<'a> {
    fn new(bytes: &'a [u8]) -> Result<Self, Refusal> {
        if !bytes.len().is_multiple_of(4) {
            return Err(Refusal { number: 9, layer: Layer::Words, word: 0, macroblock: 0, block: NO_BLOCK });
        }
        let left = bytes.chunks_exact(4);
        let total = left.len();
        Ok(Words { left, total, macroblock: 0 })
    }

    /// The next word, which is to be of this kind and to have no bit set that the kind does not name.
    fn next(&mut self, kind: u32, unnamed: u32, block: u32) -> Result<u32, Refusal> {
        let Some(&[a, b, c, d]) = self.left.next().and_then(|bytes| bytes.first_chunk()) else {
            return Err(Refusal { number: 10, layer: Layer::Words, word: self.total, macroblock: self.macroblock, block });
        };
        let word = u32::from_be_bytes([a, b, c, d]);
        if word >> 28 != kind {
            return Err(self.refusal(11, Layer::Words, block));
        }
        if word & unnamed != 0 {
            return Err(self.refusal(12, Layer::Words, block));
        }
        Ok(word)
    }

    /// The next word, which is also to carry the number of the block that is due.
    fn next_of_block(&mut self, kind: u32, unnamed: u32, block: usize) -> Result<u32, Refusal> {
        let word = self.next(kind, unnamed, block as u32)?;
        if word >> 25 & 7 != block as u32 {
            return Err(self.refusal(14, Layer::Block, block as u32));
        }
        Ok(word)
    }

    fn end(&self) -> Result<(), Refusal> {
        if self.left.len() == 0 {
            return Ok(());
        }
        let word = self.total - self.left.len();
        Err(Refusal { number: 17, layer: Layer::Segment, word, macroblock: self.macroblock, block: NO_BLOCK })
    }

    /// A refusal of the word read last.
    fn refusal(&self, number: u32, layer: Layer, block: u32) -> Refusal {
        Refusal { number, layer, word: self.total - self.left.len() - 1, macroblock: self.macroblock, block }
    }
}

#[cfg(test)]
mod tests {
    use super::*;

    fn read_one(words: &[u32]) -> Result<Counts, (u32, Layer, usize, usize, u32)> {
        let bytes: Vec<u8> = words.iter().flat_map(|word| word.to_be_bytes()).collect();
        let told = |refusal: Refusal| (refusal.number, refusal.layer, refusal.word, refusal.macroblock, refusal.block);
        Records::default().read(PictureKind::Inter, 1, &bytes).map_err(told)
    }

    #[test]
    fn refusals_of_the_page() {
        assert_eq!(Records::default().read(PictureKind::Inter, 1, &[0x19, 0, 0]).unwrap_err().number, 9);
        assert_eq!(read_one(&[]), Err((10, Layer::Words, 0, 0, 6)));
        assert_eq!(read_one(&[0x14800000]), Err((10, Layer::Words, 1, 0, 6)));
        assert_eq!(read_one(&[0x30000064]), Err((11, Layer::Words, 0, 0, 6)));
        assert_eq!(read_one(&[0x10000001]), Err((12, Layer::Words, 0, 0, 6)));
        assert_eq!(read_one(&[0x10200000]), Err((13, Layer::Macroblock, 0, 0, 6)));
        assert_eq!(read_one(&[0x14808000, 0x20000820, 0x48040001]), Err((14, Layer::Block, 2, 0, 5)));
        assert_eq!(read_one(&[0x14900000, 0x20000820, 0x40040080]), Err((15, Layer::Block, 2, 0, 0)));
        assert_eq!(read_one(&[0x14900000, 0x20000820, 0x41f80001, 0x40040001]), Err((16, Layer::Block, 3, 0, 0)));
        assert_eq!(read_one(&[0x10000000, 0x10000000]), Err((17, Layer::Segment, 1, 1, 6)));
    }

    #[test]
    fn intra_macroblock_of_the_page() {
        let words = [0x19000000, 0x30000064, 0x32000064, 0x34000064, 0x36000064, 0x3800006e, 0x3a00006e];
        assert_eq!(read_one(&words), Ok(Counts { words: 7, intra: 1 }));
    }
}
