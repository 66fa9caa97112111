//! Formats, layouts and planes.

use std::ops::Range;

/// Luma and two chroma planes.
pub const PLANES: usize = 3;

/// Samples across and down that a macroblock has in a plane.
pub const SIDES: [usize; PLANES] = [16, 8, 8];

/// A missing segment of an INTRA picture is grey.
pub const GREY: u8 = 128;

/// The age of a macroblock that was not coded INTRA since, or in, the last INTRA picture.
pub const NEVER: u8 = 255;

/// Ages are counted up to here.
pub const OLDEST: u8 = 250;

#[derive(Clone, Copy, Debug, PartialEq, Eq)]
pub enum Format {
    SubQcif,
    Qcif,
    Cif,
}

impl Format {
    pub fn from_number(number: u32) -> Option<Self> {
        match number {
            1 => Some(Format::SubQcif),
            2 => Some(Format::Qcif),
            3 => Some(Format::Cif),
            _ => None,
        }
    }

    /// Macroblocks across.
    pub fn columns(self) -> usize {
        match self {
            Format::SubQcif => 8,
            Format::Qcif => 11,
            Format::Cif => 22,
        }
    }

    /// Macroblocks down.
    pub fn rows(self) -> usize {
        match self {
            Format::SubQcif => 6,
            Format::Qcif => 9,
            Format::Cif => 18,
        }
    }

    pub fn macroblocks(self) -> usize {
        self.columns() * self.rows()
    }

    /// Samples in a plane.
    pub fn samples(self, plane: usize) -> usize {
        self.macroblocks() * SIDES[plane] * SIDES[plane]
    }
}

/// How samples are kept. It changes no answer, so that a decoder with one layout in memory may pass it over.
#[derive(Clone, Copy, Debug, PartialEq, Eq)]
pub enum Store {
    Bytes = 0,
    Tiles = 1,
}

impl Store {
    pub fn from_number(number: u32) -> Option<Self> {
        [Store::Bytes, Store::Tiles].into_iter().find(|&store| store as u32 == number)
    }
}

/// Does a segment begin at row 0, and none below the picture?
pub fn is_sound(layout: u32, rows: usize) -> bool {
    layout & 1 == 1 && layout >> rows == 0
}

/// How many segments a sound layout has.
pub fn segment_count(layout: u32) -> u32 {
    layout.count_ones()
}

/// The macroblock rows of a segment of a sound layout.
pub fn segment_rows(layout: u32, rows: usize, segment: u32) -> Range<usize> {
    let mut starts = layout;
    for _ in 0..segment {
        starts &= starts - 1;
    }
    let top = starts.trailing_zeros() as usize;
    let bottom = (starts & (starts - 1)).trailing_zeros() as usize;
    top..bottom.min(rows)
}

/// The age after one more picture that does not code the macroblock INTRA.
pub fn aged(age: u8) -> u8 {
    if age == NEVER {
        NEVER
    } else {
        (age + 1).min(OLDEST)
    }
}

/// Samples row by row from the top, without gaps.
#[derive(Clone, Debug, PartialEq, Eq)]
pub struct Plane {
    pub width: usize,
    pub samples: Vec<u8>,
}

impl Plane {
    fn new(width: usize, height: usize) -> Self {
        Plane { width, samples: vec![0; width * height] }
    }

    pub fn height(&self) -> usize {
        self.samples.len() / self.width
    }
}

/// The three planes of a picture, and the ages of its macroblocks.
#[derive(Clone, Debug, PartialEq, Eq)]
pub struct Picture {
    pub planes: [Plane; PLANES],
    pub ages: Vec<u8>,
}

impl Picture {
    pub fn new(format: Format) -> Self {
        let planes = SIDES.map(|side| Plane::new(format.columns() * side, format.rows() * side));
        Picture { planes, ages: vec![0; format.macroblocks()] }
    }
}

#[cfg(test)]
mod tests {
    use super::*;

    #[test]
    fn segments_of_a_layout() {
        assert!(is_sound(273, 9));
        assert!(!is_sound(272, 9));
        assert!(!is_sound(513, 9));
        assert_eq!(segment_count(273), 3);
        assert_eq!(segment_rows(273, 9, 0), 0..4);
        assert_eq!(segment_rows(273, 9, 1), 4..8);
        assert_eq!(segment_rows(273, 9, 2), 8..9);
        assert_eq!(segment_rows(1, 6, 0), 0..6);
    }
}
