//! The deblocking filter, over the 8-sample block edges inside a segment.

use crate::pictures::{Picture, Plane, SIDES};
use std::ops::Range;

const BLOCK_SIDE: usize = 8;

/// Places of an edge that are filtered together, so that the compiler can take them in one instruction.
const LANES: usize = 8;

/// The filter's strength by quantizer. Quantizer 0, which no macroblock has, is the mark of a skipped one: at strength 0 nothing changes.
const STRENGTHS: [u8; 32] = [0, 1, 1, 2, 2, 3, 3, 4, 4, 4, 5, 5, 6, 6, 7, 7, 7, 8, 8, 8, 9, 9, 9, 10, 10, 10, 11, 11, 11, 12, 12, 12];

/// Filters the segment in these macroblock rows. Its macroblocks have these marks: a coded one its quantizer, a skipped one 0.
pub fn deblock(picture: &mut Picture, rows: Range<usize>, columns: usize, marks: &[u8]) {
    if marks.iter().all(|&mark| mark == 0) {
        return;
    }
    for (plane, side) in picture.planes.iter_mut().zip(SIDES) {
        let Plane { width, samples } = plane;
        let segment = &mut samples[rows.start * side * *width..rows.end * side * *width];
        filter_edges_between_rows(segment, *width, side, columns, marks);
        filter_edges_between_columns(segment, *width, side, columns, marks);
    }
}

fn strength(before: u8, after: u8) -> i16 {
    i16::from(STRENGTHS[usize::from(if after == 0 { before } else { after }) % STRENGTHS.len()])
}

/// The four samples lie in a column.
fn filter_edges_between_rows(segment: &mut [u8], width: usize, side: usize, columns: usize, marks: &[u8]) {
    let height = segment.len() / width;
    for edge in (BLOCK_SIDE..height).step_by(BLOCK_SIDE) {
        let before = &marks[(edge - 1) / side * columns..][..columns];
        let after = &marks[edge / side * columns..][..columns];
        let lines = &mut segment[(edge - 2) * width..(edge + 2) * width];
        let (a, rest) = lines.split_at_mut(width);
        let (b, rest) = rest.split_at_mut(width);
        let (c, d) = rest.split_at_mut(width);
        let macroblocks = a.chunks_exact_mut(side).zip(b.chunks_exact_mut(side)).zip(c.chunks_exact_mut(side)).zip(d.chunks_exact_mut(side));
        for ((((a, b), c), d), (&before, &after)) in macroblocks.zip(before.iter().zip(after)) {
            let strength = strength(before, after);
            if strength == 0 {
                continue;
            }
            let blocks = a.chunks_exact_mut(LANES).zip(b.chunks_exact_mut(LANES)).zip(c.chunks_exact_mut(LANES)).zip(d.chunks_exact_mut(LANES));
            for (((a, b), c), d) in blocks {
                let lanes = filter([&*a, &*b, &*c, &*d].map(to_lanes), strength);
                a.copy_from_slice(&lanes[0]);
                b.copy_from_slice(&lanes[1]);
                c.copy_from_slice(&lanes[2]);
                d.copy_from_slice(&lanes[3]);
            }
        }
    }
}

/// The four samples lie in a row.
fn filter_edges_between_columns(segment: &mut [u8], width: usize, side: usize, columns: usize, marks: &[u8]) {
    for (lines, marks) in segment.chunks_exact_mut(side * width).zip(marks.chunks_exact(columns)) {
        for edge in (BLOCK_SIDE..width).step_by(BLOCK_SIDE) {
            let strength = strength(marks[(edge - 1) / side], marks[edge / side]);
            if strength == 0 {
                continue;
            }
            for lines in lines.chunks_exact_mut(LANES * width) {
                let mut lanes = [[0; LANES]; 4];
                for (lane, line) in lines.chunks_exact(width).enumerate() {
                    let samples = &line[edge - 2..edge + 2];
                    for (lanes, &sample) in lanes.iter_mut().zip(samples) {
                        lanes[lane] = sample;
                    }
                }
                let lanes = filter(lanes, strength);
                for (lane, line) in lines.chunks_exact_mut(width).enumerate() {
                    let samples = &mut line[edge - 2..edge + 2];
                    for (sample, lanes) in samples.iter_mut().zip(&lanes) {
                        *sample = lanes[lane];
                    }
                }
            }
        }
    }
}

fn to_lanes(samples: &[u8]) -> [u8; LANES] {
    samples.try_into().expect("an edge is cut into blocks")
}

/// Smooths the step between b and c in each lane, if it is small for the strength. All divisions drop the fraction.
fn filter([a, b, c, d]: [[u8; LANES]; 4], strength: i16) -> [[u8; LANES]; 4] {
    let mut filtered = [[0; LANES]; 4];
    for lane in 0..LANES {
        let [a, b, c, d] = [a[lane], b[lane], c[lane], d[lane]].map(i16::from);
        let step = (a - 4 * b + 4 * c - d) / 8;
        let size = (step.abs() - (2 * (step.abs() - strength)).max(0)).max(0);
        let inner = if step < 0 { -size } else { size };
        let outer = ((a - d) / 4).max(-(size / 2)).min(size / 2);
        filtered[0][lane] = (a - outer) as u8;
        filtered[1][lane] = (b + inner).clamp(0, 255) as u8;
        filtered[2][lane] = (c - inner).clamp(0, 255) as u8;
        filtered[3][lane] = (d + outer) as u8;
    }
    filtered
}

#[cfg(test)]
mod tests {
    use super::*;

    #[test]
    fn figures_of_the_page() {
        let by_quantizer = |samples: [u8; 4], quantizer: usize| {
            filter(samples.map(|sample| [sample; LANES]), i16::from(STRENGTHS[quantizer])).map(|lanes| lanes[LANES - 1])
        };
        assert_eq!(by_quantizer([100, 100, 120, 120], 8), [100, 101, 119, 120]);
        assert_eq!(by_quantizer([100, 100, 120, 120], 12), [102, 105, 115, 118]);
        assert_eq!(by_quantizer([120, 120, 100, 100], 12), [118, 115, 105, 102]);
    }
}
