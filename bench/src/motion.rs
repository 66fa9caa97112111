//! Motion vectors, and prediction from the finished picture.

use crate::pictures::Plane;
use crate::records::Vector;
use std::ops::Range;

/// A component is −32 to 31 half samples.
const COMPONENT_RANGE: i32 = 64;
const LOWEST_COMPONENT: i32 = -32;

/// Room for the samples that predict a luma macroblock with half a step in both directions.
const PATCH_SIDE: usize = 17;

/// The vectors of a segment's macroblocks, in raster order.
#[derive(Default)]
pub struct Vectors {
    columns: usize,
    vectors: Vec<Vector>,
}

impl Vectors {
    /// Begins a segment.
    pub fn begin(&mut self, columns: usize) {
        self.columns = columns;
        self.vectors.clear();
    }

    pub fn push(&mut self, vector: Vector) {
        self.vectors.push(vector);
    }

    /// The predictor of the next macroblock's vector: the median of left, above and above to the right, component by component.
    pub fn predictor(&self) -> Vector {
        let next = self.vectors.len();
        let column = next % self.columns;
        let left = if column == 0 { Vector::default() } else { self.vectors[next - 1] };
        let is_last = column + 1 == self.columns;
        let (above, right) =
            if next < self.columns { (left, left) } else { (self.vectors[next - self.columns], self.vectors[next - self.columns + 1]) };
        let right = if is_last { Vector::default() } else { right };
        Vector {
            horizontal: median(left.horizontal, above.horizontal, right.horizontal),
            vertical: median(left.vertical, above.vertical, right.vertical),
        }
    }

    /// The vector that is the predictor and a difference.
    pub fn resolve(&self, difference: Vector) -> Vector {
        let predictor = self.predictor();
        Vector {
            horizontal: wrap(i32::from(predictor.horizontal) + i32::from(difference.horizontal)),
            vertical: wrap(i32::from(predictor.vertical) + i32::from(difference.vertical)),
        }
    }

    /// The difference that leads from the predictor to a vector.
    pub fn difference_to(&self, vector: Vector) -> Vector {
        let predictor = self.predictor();
        Vector {
            horizontal: wrap(i32::from(vector.horizontal) - i32::from(predictor.horizontal)),
            vertical: wrap(i32::from(vector.vertical) - i32::from(predictor.vertical)),
        }
    }
}

fn median(a: i8, b: i8, c: i8) -> i8 {
    a.min(b).max(a.max(b).min(c))
}

fn wrap(sum: i32) -> i8 {
    ((sum - LOWEST_COMPONENT).rem_euclid(COMPONENT_RANGE) + LOWEST_COMPONENT) as i8
}

/// The vector of both chroma blocks: half of the luma vector, with quarters and three quarters of a sample taken as a half.
pub fn chroma(luma: Vector) -> Vector {
    let component = |luma: i8| {
        let size = luma.unsigned_abs();
        let half = (2 * (size / 4) + u8::from(!size.is_multiple_of(4))) as i8;
        if luma < 0 {
            -half
        } else {
            half
        }
    };
    Vector { horizontal: component(luma.horizontal), vertical: component(luma.vertical) }
}

/// Predicts a square whose upper left corner is at a place, from the rows of the source that belong to the segment.
#[derive(Clone, Copy)]
pub struct Predictor<'a> {
    source: &'a Plane,
    top: usize,
    bottom: usize,
    rounding: u8,
}

impl<'a> Predictor<'a> {
    pub fn new(source: &'a Plane, rows: Range<usize>, rounding: u8) -> Self {
        Predictor { source, top: rows.start, bottom: rows.end, rounding }
    }

    pub fn predict<const SIDE: usize>(&self, target: &mut Plane, across: usize, down: usize, vector: Vector) {
        let half_across = vector.horizontal & 1 == 1;
        let half_down = vector.vertical & 1 == 1;
        let left = across as i32 + i32::from(vector.horizontal >> 1);
        let top = down as i32 + i32::from(vector.vertical >> 1);
        let width = SIDE + usize::from(half_across);
        let height = SIDE + usize::from(half_down);
        let target = (&mut target.samples[down * self.source.width + across..], self.source.width);
        if self.contains(left, top, width, height) {
            let source = (&self.source.samples[top as usize * self.source.width + left as usize..], self.source.width);
            interpolate::<SIDE>(target, source, half_across, half_down, self.rounding);
        } else {
            let patch = self.clamped_patch(left, top, width, height);
            interpolate::<SIDE>(target, (&patch, PATCH_SIDE), half_across, half_down, self.rounding);
        }
    }

    fn contains(&self, left: i32, top: i32, width: usize, height: usize) -> bool {
        left >= 0 && left as usize + width <= self.source.width && top >= self.top as i32 && top as usize + height <= self.bottom
    }

    /// The samples of a rectangle, in which the segment's outermost samples go on beyond its borders.
    fn clamped_patch(&self, left: i32, top: i32, width: usize, height: usize) -> [u8; PATCH_SIDE * PATCH_SIDE] {
        let mut patch = [0; PATCH_SIDE * PATCH_SIDE];
        for (row, line) in patch.chunks_exact_mut(PATCH_SIDE).take(height).enumerate() {
            let down = (top + row as i32).clamp(self.top as i32, self.bottom as i32 - 1) as usize;
            let source = &self.source.samples[down * self.source.width..][..self.source.width];
            for (column, sample) in line[..width].iter_mut().enumerate() {
                *sample = source[(left + column as i32).clamp(0, source.len() as i32 - 1) as usize];
            }
        }
        patch
    }
}

/// Copies a square, or takes it from between its source's samples. Source and target each start at its corner and have rows of a width of their own.
fn interpolate<const SIDE: usize>(
    (target, target_width): (&mut [u8], usize),
    (source, source_width): (&[u8], usize),
    half_across: bool,
    half_down: bool,
    rounding: u8,
) {
    let targets = target.chunks_mut(target_width).take(SIDE);
    let sources = source.chunks(source_width);
    let of_two = u16::from(1 - rounding);
    let of_four = u16::from(2 - rounding);
    match (half_across, half_down) {
        (false, false) => {
            for (target, a) in targets.zip(sources) {
                target[..SIDE].copy_from_slice(&a[..SIDE]);
            }
        }
        (true, false) => {
            for (target, a) in targets.zip(sources) {
                average_two::<SIDE>(target, a, &a[1..], of_two);
            }
        }
        (false, true) => {
            let below = source[source_width..].chunks(source_width);
            for (target, (a, c)) in targets.zip(sources.zip(below)) {
                average_two::<SIDE>(target, a, c, of_two);
            }
        }
        (true, true) => {
            let below = source[source_width..].chunks(source_width);
            for (target, (a, c)) in targets.zip(sources.zip(below)) {
                average_four::<SIDE>(target, [a, &a[1..], c, &c[1..]], of_four);
            }
        }
    }
}

fn average_two<const SIDE: usize>(target: &mut [u8], a: &[u8], b: &[u8], rounding: u16) {
    for ((target, &a), &b) in target[..SIDE].iter_mut().zip(&a[..SIDE]).zip(&b[..SIDE]) {
        *target = ((u16::from(a) + u16::from(b) + rounding) >> 1) as u8;
    }
}

fn average_four<const SIDE: usize>(target: &mut [u8], [a, b, c, d]: [&[u8]; 4], rounding: u16) {
    let sources = a[..SIDE].iter().zip(&b[..SIDE]).zip(&c[..SIDE]).zip(&d[..SIDE]);
    for (target, (((&a, &b), &c), &d)) in target[..SIDE].iter_mut().zip(sources) {
        *target = ((u16::from(a) + u16::from(b) + u16::from(c) + u16::from(d) + rounding) >> 2) as u8;
    }
}

#[cfg(test)]
mod tests {
    use super::*;

    #[test]
    fn figures_of_the_page() {
        assert_eq!(wrap(30 + 5), -29);
        assert_eq!(wrap(31 + 1), -32);
        let horizontal = |luma| chroma(Vector { horizontal: luma, vertical: 0 }).horizontal;
        assert_eq!((horizontal(3), horizontal(-5), horizontal(-32)), (1, -3, -16));
        assert_eq!(median(3, 1, 2), 2);
        assert_eq!(median(1, 3, 3), 3);
        assert_eq!(median(-1, -5, 4), -1);
    }
}
