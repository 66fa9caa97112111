//! A reel: the calls, the questions each is put, and the two pictures.

use crate::answers::{Answer, Beginning, Calls, Refusal};
use crate::pictures::{aged, is_sound, segment_count, segment_rows, Format, Picture, Store, GREY, NEVER, SIDES};
use crate::rebuild::{Manner, Rebuilder};
use crate::records::{Counts, PictureKind, Records};
use crate::transform::Transform;
use std::mem;

/// So many pictures may be opened.
pub const PICTURE_LIMIT: u32 = 60_000;

pub struct Reel {
    format: Format,
    transform: Transform,
    /// How many pictures were opened.
    opened: u32,
    finished: Picture,
    /// The layout of the finished picture, if there is one.
    finished_layout: Option<u32>,
    working: Picture,
    open: Option<OpenPicture>,
    records: Records,
    rebuilder: Rebuilder,
}

/// How the picture that is open was opened, and which segments were accepted.
#[derive(Clone, Copy)]
struct OpenPicture {
    kind: PictureKind,
    rounding: u8,
    layout: u32,
    accepted: u32,
}

impl Reel {
    /// A resting reel whose planes and ages are 0. It keeps samples in one way, whatever the store.
    pub fn new(beginning: Beginning) -> Result<Self, Answer> {
        let format = Format::from_number(beginning.format).ok_or(Refusal::of_picture(1))?;
        Store::from_number(beginning.store).ok_or(Answer::unknown_choice())?;
        let transform = Transform::from_number(beginning.transform).ok_or(Answer::unknown_choice())?;
        Ok(Reel {
            format,
            transform,
            opened: 0,
            finished: Picture::new(format),
            finished_layout: None,
            working: Picture::new(format),
            open: None,
            records: Records::default(),
            rebuilder: Rebuilder::default(),
        })
    }

    pub fn format(&self) -> Format {
        self.format
    }

    /// The finished picture; before the first closing all of it is 0.
    pub fn finished(&self) -> &Picture {
        &self.finished
    }

    /// The records of the delivery that was read last.
    pub fn records(&self) -> &Records {
        &self.records
    }

    fn begin_picture(&self, kind: u32, rounding: u32, layout: u32) -> Result<OpenPicture, Refusal> {
        if self.opened >= PICTURE_LIMIT {
            return Err(Refusal::of_picture(3));
        }
        let kind = match (kind, rounding) {
            (0, 0) => PictureKind::Intra,
            (1, 0 | 1) => PictureKind::Inter,
            _ => return Err(Refusal::of_picture(4)),
        };
        match (kind, self.finished_layout) {
            (PictureKind::Inter, None) => return Err(Refusal::of_picture(5)),
            (PictureKind::Inter, Some(finished)) if layout != finished => return Err(Refusal::of_picture(6)),
            (PictureKind::Intra, _) if !is_sound(layout, self.format.rows()) => return Err(Refusal::of_picture(6)),
            _ => {}
        }
        Ok(OpenPicture { kind, rounding: rounding as u8, layout, accepted: 0 })
    }

    /// Reads the delivery whole before anything is written, as a refused one changes nothing.
    fn accept(&mut self, open: OpenPicture, segment: u32, bytes: &[u8]) -> Result<Counts, Refusal> {
        if segment >= segment_count(open.layout) {
            return Err(Refusal::of_picture(7));
        }
        if open.accepted >> segment & 1 == 1 {
            return Err(Refusal::of_picture(8));
        }
        let rows = segment_rows(open.layout, self.format.rows(), segment);
        let counts = self.records.read(open.kind, rows.len() * self.format.columns(), bytes)?;
        let manner = Manner { transform: self.transform, rounding: open.rounding };
        self.rebuilder.rebuild(manner, &self.records, rows, &self.finished, &mut self.working);
        Ok(counts)
    }

    /// Shows the finished picture where the open one has nothing, or grey where that is INTRA.
    fn fill(&mut self, open: OpenPicture, segment: u32) {
        let rows = segment_rows(open.layout, self.format.rows(), segment);
        for ((working, finished), side) in self.working.planes.iter_mut().zip(&self.finished.planes).zip(SIDES) {
            let samples = rows.start * side * working.width..rows.end * side * working.width;
            match open.kind {
                PictureKind::Intra => working.samples[samples].fill(GREY),
                PictureKind::Inter => working.samples[samples.clone()].copy_from_slice(&finished.samples[samples]),
            }
        }
        let cells = rows.start * self.format.columns()..rows.end * self.format.columns();
        for (working, &finished) in self.working.ages[cells.clone()].iter_mut().zip(&self.finished.ages[cells]) {
            *working = match open.kind {
                PictureKind::Intra => NEVER,
                PictureKind::Inter => aged(finished),
            };
        }
    }

    fn finished_sample(&self, plane: u32, across: u32, down: u32) -> Result<u64, Refusal> {
        self.finished_layout.ok_or(Refusal::of_picture(5))?;
        let plane = self.finished.planes.get(plane as usize).ok_or(Refusal::of_picture(18))?;
        if across as usize >= plane.width || down as usize >= plane.height() {
            return Err(Refusal::of_picture(18));
        }
        Ok(plane.samples[down as usize * plane.width + across as usize].into())
    }

    fn finished_age(&self, column: u32, row: u32) -> Result<u64, Refusal> {
        self.finished_layout.ok_or(Refusal::of_picture(5))?;
        if column as usize >= self.format.columns() || row as usize >= self.format.rows() {
            return Err(Refusal::of_picture(18));
        }
        Ok(self.finished.ages[row as usize * self.format.columns() + column as usize].into())
    }
}

impl Calls for Reel {
    fn ask_for_new(&mut self, beginning: Beginning) -> Answer {
        Reel::new(beginning).err().expect("one of the numbers names nothing")
    }

    fn open(&mut self, kind: u32, rounding: u32, layout: u32) -> Answer {
        if self.open.is_some() {
            return Answer::out_of_turn();
        }
        match self.begin_picture(kind, rounding, layout) {
            Ok(open) => {
                self.opened += 1;
                self.open = Some(open);
                Answer::accepted(segment_count(layout).into(), 0)
            }
            Err(refusal) => refusal.into(),
        }
    }

    fn deliver(&mut self, segment: u32, bytes: &[u8]) -> Answer {
        let Some(open) = self.open else {
            return Answer::out_of_turn();
        };
        match self.accept(open, segment, bytes) {
            Ok(counts) => {
                self.open = Some(OpenPicture { accepted: open.accepted | 1 << segment, ..open });
                Answer::accepted(counts.words as u64, counts.intra as u64)
            }
            Err(refusal) => refusal.into(),
        }
    }

    fn close(&mut self) -> Answer {
        let Some(open) = self.open.take() else {
            return Answer::out_of_turn();
        };
        for segment in 0..segment_count(open.layout) {
            if open.accepted >> segment & 1 == 0 {
                self.fill(open, segment);
            }
        }
        mem::swap(&mut self.finished, &mut self.working);
        self.finished_layout = Some(open.layout);
        Answer::accepted(open.accepted.into(), 0)
    }

    fn sample(&mut self, plane: u32, across: u32, down: u32) -> Answer {
        self.finished_sample(plane, across, down).into()
    }

    fn age(&mut self, column: u32, row: u32) -> Answer {
        self.finished_age(column, row).into()
    }

    fn copy_plane(&mut self, plane: u32, samples: &mut [u8]) -> usize {
        self.finished.planes.get(plane as usize).map_or(0, |plane| copy_if_room(&plane.samples, samples))
    }

    fn copy_ages(&mut self, ages: &mut [u8]) -> usize {
        copy_if_room(&self.finished.ages, ages)
    }
}

fn copy_if_room(source: &[u8], target: &mut [u8]) -> usize {
    if let Some(target) = target.get_mut(..source.len()) {
        target.copy_from_slice(source);
    }
    source.len()
}

#[cfg(test)]
mod tests {
    use super::*;

    fn answer(format: u32, store: u32, transform: u32) -> Option<Answer> {
        Reel::new(Beginning { format, store, transform }).err()
    }

    #[test]
    fn new_reels() {
        for (store, transform) in [(0, 0), (0, 1), (1, 0), (1, 1)] {
            assert_eq!(answer(1, store, transform), None);
        }
        for (store, transform) in [(2, 0), (0, 2), (256, 1), (1, u32::MAX), (7, 7)] {
            assert_eq!(answer(3, store, transform), Some(Answer { outcome: 4, ..Answer::default() }));
        }
        // The format is asked first.
        for (store, transform) in [(0, 0), (2, 0), (0, 2), (7, 7)] {
            assert_eq!(answer(4, store, transform), Some(Refusal::of_picture(1).into()));
        }
    }
}
