//! Rebuilds a segment of a picture from its records.

use crate::filter;
use crate::motion::{self, Predictor, Vectors};
use crate::pictures::{aged, Picture, Plane, PLANES, SIDES};
use crate::records::{Coefficient, Macroblock, MacroblockType, Records, BLOCKS};
use crate::transform::{Block, Transform};
use std::array;
use std::ops::Range;

const BLOCK_SIDE: usize = 8;

/// How a picture is rebuilt.
#[derive(Clone, Copy)]
pub struct Manner {
    pub transform: Transform,
    pub rounding: u8,
}

/// Room for what is kept of the segment while it is rebuilt.
#[derive(Default)]
pub struct Rebuilder {
    vectors: Vectors,
    marks: Vec<u8>,
}

impl Rebuilder {
    /// Rebuilds the segment in these macroblock rows, in the working picture and with its ages, from its records and the same rows of the finished picture.
    pub fn rebuild(&mut self, manner: Manner, records: &Records, rows: Range<usize>, finished: &Picture, working: &mut Picture) {
        let columns = working.planes[0].width / SIDES[0];
        self.vectors.begin(columns);
        self.marks.clear();
        let mut segment = Segment {
            transform: manner.transform,
            predictors: [0, 1, 2].map(|plane| {
                let lines = rows.start * SIDES[plane]..rows.end * SIDES[plane];
                Predictor::new(&finished.planes[plane], lines, manner.rounding)
            }),
            finished,
            working,
            coefficients: &records.coefficients,
        };
        for (row, macroblocks) in rows.clone().zip(records.macroblocks.chunks_exact(columns)) {
            self.rebuild_row(&mut segment, row, macroblocks);
        }
        filter::deblock(working, rows, columns, &self.marks);
    }

    fn rebuild_row(&mut self, segment: &mut Segment, row: usize, macroblocks: &[Macroblock]) {
        let mut column = 0;
        // Neighbours that are all skipped are copied together.
        for run in macroblocks.chunk_by(|one, next| one.kind == MacroblockType::Skipped && next.kind == MacroblockType::Skipped) {
            let columns = column..column + run.len();
            let macroblock = &run[0];
            match macroblock.kind {
                MacroblockType::Skipped => segment.copy(row, columns.clone()),
                MacroblockType::Inter => {
                    let vector = self.vectors.resolve(macroblock.difference);
                    segment.predict(row, column, vector);
                    segment.add_residual(row, column, macroblock);
                    self.vectors.push(vector);
                }
                MacroblockType::Intra => segment.rebuild_intra(row, column, macroblock),
            }
            if macroblock.kind != MacroblockType::Inter {
                run.iter().for_each(|_| self.vectors.push(Default::default()));
            }
            self.marks.extend(run.iter().map(|macroblock| macroblock.quantizer));
            segment.age(row, columns.clone(), macroblock.kind);
            column = columns.end;
        }
    }
}

/// A segment that is being rebuilt.
struct Segment<'a> {
    transform: Transform,
    predictors: [Predictor<'a>; PLANES],
    finished: &'a Picture,
    working: &'a mut Picture,
    /// Those of the macroblocks that are still to come.
    coefficients: &'a [Coefficient],
}

impl<'a> Segment<'a> {
    fn copy(&mut self, row: usize, columns: Range<usize>) {
        for ((working, finished), side) in self.working.planes.iter_mut().zip(&self.finished.planes).zip(SIDES) {
            let part = columns.start * side..columns.end * side;
            let lines = row * side * working.width..(row + 1) * side * working.width;
            let targets = working.samples[lines.clone()].chunks_exact_mut(working.width);
            let sources = finished.samples[lines].chunks_exact(finished.width);
            for (target, source) in targets.zip(sources) {
                target[part.clone()].copy_from_slice(&source[part.clone()]);
            }
        }
    }

    fn predict(&mut self, row: usize, column: usize, vector: crate::records::Vector) {
        let [luma, cb, cr] = &self.predictors;
        let [luma_target, cb_target, cr_target] = &mut self.working.planes;
        luma.predict::<16>(luma_target, column * 16, row * 16, vector);
        let vector = motion::chroma(vector);
        cb.predict::<8>(cb_target, column * 8, row * 8, vector);
        cr.predict::<8>(cr_target, column * 8, row * 8, vector);
    }

    fn add_residual(&mut self, row: usize, column: usize, macroblock: &Macroblock) {
        for block in 0..BLOCKS {
            if macroblock.has_pattern(block) {
                let levels = self.take_levels(macroblock, block);
                let residual = self.transform.invert(&Block::of_levels(macroblock.quantizer, levels));
                for (samples, residual) in block_rows(self.working, row, column, block).zip(&residual) {
                    *samples = array::from_fn(|place| (i16::from(samples[place]) + residual[place]).clamp(0, 255) as u8);
                }
            }
        }
    }

    fn rebuild_intra(&mut self, row: usize, column: usize, macroblock: &Macroblock) {
        for block in 0..BLOCKS {
            let levels = self.take_levels(macroblock, block);
            let results = self.transform.invert(&Block::of_dc_and_levels(macroblock.dc[block], macroblock.quantizer, levels));
            for (samples, results) in block_rows(self.working, row, column, block).zip(&results) {
                *samples = results.map(|result| result.clamp(0, 255) as u8);
            }
        }
    }

    fn take_levels(&mut self, macroblock: &Macroblock, block: usize) -> &'a [Coefficient] {
        let (levels, rest) = self.coefficients.split_at(usize::from(macroblock.coefficients[block]));
        self.coefficients = rest;
        levels
    }

    fn age(&mut self, row: usize, columns: Range<usize>, kind: MacroblockType) {
        let per_row = self.working.planes[0].width / SIDES[0];
        let cells = row * per_row + columns.start..row * per_row + columns.end;
        for (working, &finished) in self.working.ages[cells.clone()].iter_mut().zip(&self.finished.ages[cells]) {
            *working = if kind == MacroblockType::Intra { 0 } else { aged(finished) };
        }
    }
}

/// The eight rows of eight samples of a block.
fn block_rows(picture: &mut Picture, row: usize, column: usize, block: usize) -> impl Iterator<Item = &mut [u8; BLOCK_SIDE]> {
    let (plane, across, down) = match block {
        0..=3 => (0, column * 16 + block % 2 * BLOCK_SIDE, row * 16 + block / 2 * BLOCK_SIDE),
        _ => (block - 3, column * BLOCK_SIDE, row * BLOCK_SIDE),
    };
    let Plane { width, samples } = &mut picture.planes[plane];
    let corner = down * *width + across;
    samples[corner..].chunks_mut(*width).take(BLOCK_SIDE).map(|line| line.first_chunk_mut().expect("a block lies inside its plane"))
}
