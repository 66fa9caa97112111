//! Random lists of calls, each made from its seed.

use crate::answers::Beginning;
use crate::damage::damage;
use crate::pictures::{is_sound, segment_count, segment_rows, Format};
use crate::random::Random;
use crate::records::PictureKind;
use crate::reel::PICTURE_LIMIT;
use crate::writer::{draw_mix, to_bytes, write_delivery, Codes, Levels, Mix, Quantizers, Runs, VectorMix};

/// `New` asks for a new reel in the place of this one, by numbers of which one at least names nothing, so that this reel stays. `DeliverNull` delivers no
/// bytes, by a null pointer.
#[derive(Clone, Debug)]
pub enum Call {
    New(Beginning),
    Open { kind: u32, rounding: u32, layout: u32 },
    Deliver { segment: u32, bytes: Vec<u8> },
    DeliverNull { segment: u32 },
    Close,
    Sample { plane: u32, across: u32, down: u32 },
    Age { column: u32, row: u32 },
}

impl Call {
    /// Is it about a sample or an age?
    pub fn is_question(&self) -> bool {
        matches!(self, Call::Sample { .. } | Call::Age { .. })
    }
}

/// The calls of one reel.
#[derive(Clone, Debug)]
pub struct List {
    /// What is asked for before the reel: in each, one of the numbers at least names nothing.
    pub unknown: Vec<Beginning>,
    pub format: u32,
    pub calls: Vec<Call>,
}

/// How a list is drawn. Chances are of a hundred.
struct Temper {
    pictures: usize,
    /// That a picture after the first is INTRA.
    intra: u32,
    /// That a segment is not delivered.
    missing: u32,
    /// That a damaged delivery comes before a segment's.
    damaged: u32,
    /// That a call which is out of turn, refused or a question comes in between.
    stray: u32,
    /// That a picture's mix is drawn anew.
    new_mix: u32,
}

/// The list of a seed. One in ten asks first for reels that there are not.
pub fn list(seed: u64) -> List {
    let mut random = Random::new(seed);
    let unknown = if random.once_in(10) { random.between(1, 6) } else { 0 };
    let unknown = (0..unknown).map(|_| draw_unknown(&mut random)).collect();
    List { unknown, ..draw_list(random) }
}

/// The calls of pictures that a reel may have shown before a list; the first of them is INTRA, and all are closed.
pub fn pictures_before(seed: u64, format: u32) -> Vec<Call> {
    let mut random = Random::new(seed);
    let pictures = random.between(1, 3) as usize;
    tempered_list(random, format, Temper { pictures, intra: 25, missing: 20, damaged: 0, stray: 0, new_mix: 80 }).calls
}

/// Numbers for a new reel, of which one, two or all three name nothing.
fn draw_unknown(random: &mut Random) -> Beginning {
    const NO_FORMATS: [u32; 8] = [0, 4, 5, 255, 256, 257, u32::MAX, u32::MAX - 2];
    const NO_CHOICES: [u32; 9] = [2, 3, 4, 255, 256, 257, 65_536, 1 << 31, u32::MAX];
    let wrong = random.between(1, 7);
    Beginning {
        format: if wrong & 1 == 1 { random.pick(&NO_FORMATS) } else { random.pick(&[1, 2, 3]) },
        store: if wrong & 2 == 2 { random.pick(&NO_CHOICES) } else { random.pick(&[0, 1]) },
        transform: if wrong & 4 == 4 { random.pick(&NO_CHOICES) } else { random.pick(&[0, 1]) },
    }
}

fn draw_list(mut random: Random) -> List {
    if random.once_in(500) {
        return long_list(random);
    }
    let format = 1 + random.weighted(&[33, 6, 1]) as u32;
    match random.weighted(&[35, 35, 25, 5]) {
        0 => {
            let pictures = random.between(3, 8) as usize;
            tempered_list(random, format, Temper { pictures, intra: 5, missing: 5, damaged: 5, stray: 3, new_mix: 50 })
        }
        1 => {
            let pictures = random.between(1, 4) as usize;
            tempered_list(random, format, Temper { pictures, intra: 25, missing: 20, damaged: 25, stray: 15, new_mix: 80 })
        }
        2 => {
            let pictures = random.between(1, 3) as usize;
            tempered_list(random, format, Temper { pictures, intra: 30, missing: 10, damaged: 75, stray: 10, new_mix: 80 })
        }
        _ => wild_list(random, format),
    }
}

/// One more opening than a reel takes: pictures without deliveries, and at last what follows on the limit.
pub fn list_to_the_limit() -> List {
    let grey = Call::Open { kind: 0, rounding: 0, layout: 1 };
    let mut calls: Vec<Call> = (0..PICTURE_LIMIT).flat_map(|_| [grey.clone(), Call::Close]).collect();
    calls.extend([grey, Call::Open { kind: 7, rounding: 0, layout: 0 }, Call::Close, Call::Sample { plane: 0, across: 0, down: 0 }]);
    List { unknown: Vec::new(), format: 1, calls }
}

fn tempered_list(random: Random, format: u32, temper: Temper) -> List {
    let mut builder = Builder::new(random, format);
    for picture in 0..temper.pictures {
        if builder.random.percent(temper.new_mix) {
            builder.mix = draw_mix(&mut builder.random);
        }
        let is_intra = picture == 0 || builder.random.percent(temper.intra);
        builder.stray(temper.stray);
        builder.open(is_intra);
        for segment in builder.shuffled_segments() {
            builder.deliver_segment(segment, &temper);
        }
        builder.stray(temper.stray);
        builder.close();
    }
    builder.ask();
    builder.end()
}

/// Pictures until the ages reach their end: skipped, missing, and once in a while with an INTRA macroblock.
fn long_list(random: Random) -> List {
    let mut builder = Builder::new(random, 1);
    builder.open(true);
    for segment in builder.shuffled_segments() {
        if builder.random.percent(90) {
            builder.deliver(segment);
        }
    }
    builder.close();
    builder.mix = Mix {
        types: [1, 0, 0],
        quantizers: Quantizers::Any,
        vectors: VectorMix::Near,
        coded: 10,
        runs: Runs::Few,
        levels: Levels::Small,
        codes: Codes::Smooth,
    };
    for _ in 0..builder.random.between(252, 290) {
        builder.mix.types = if builder.random.once_in(25) { [200, 3, 2] } else { [1, 0, 0] };
        builder.open(false);
        for segment in builder.shuffled_segments() {
            if builder.random.percent(30) {
                builder.deliver(segment);
            }
        }
        builder.close();
        builder.ask();
    }
    builder.end()
}

/// Calls of any kind in any order.
fn wild_list(random: Random, format: u32) -> List {
    let mut builder = Builder::new(random, format);
    for _ in 0..builder.random.between(5, 60) {
        match builder.random.below(7) {
            0 => builder.open_anything(),
            1 => {
                let is_intra = builder.random.percent(50);
                builder.open(is_intra);
            }
            2 => builder.deliver_anything(),
            3 => {
                let segments = builder.shuffled_segments();
                if let Some(&segment) = segments.first() {
                    builder.deliver(segment);
                }
            }
            4 => builder.close(),
            5 => builder.ask_for_new(),
            _ => builder.ask(),
        }
    }
    builder.end()
}

/// Draws calls, and follows what a reel makes of them so far that most can be meant to be accepted.
struct Builder {
    random: Random,
    number: u32,
    format: Format,
    mix: Mix,
    calls: Vec<Call>,
    finished_layout: Option<u32>,
    open: Option<(PictureKind, u32)>,
}

impl Builder {
    fn new(mut random: Random, number: u32) -> Self {
        let format = Format::from_number(number).expect("lists are drawn for the formats there are");
        let mix = draw_mix(&mut random);
        Builder { random, number, format, mix, calls: Vec::new(), finished_layout: None, open: None }
    }

    fn end(self) -> List {
        List { unknown: Vec::new(), format: self.number, calls: self.calls }
    }

    fn ask_for_new(&mut self) {
        let unknown = draw_unknown(&mut self.random);
        self.calls.push(Call::New(unknown));
    }

    /// Opens an INTRA picture in a sound layout, or an INTER one in the finished picture's.
    fn open(&mut self, is_intra: bool) {
        match self.finished_layout {
            Some(layout) if !is_intra => {
                let rounding = self.random.below(2) as u32;
                self.push_open(1, rounding, layout);
            }
            _ => {
                let layout = self.draw_sound_layout();
                self.push_open(0, 0, layout);
            }
        }
    }

    fn open_anything(&mut self) {
        let kind = self.random.pick(&[0, 0, 0, 1, 1, 1, 2, 255, 256, u32::MAX]);
        let rounding = self.random.pick(&[0, 0, 0, 1, 1, 2, u32::MAX]);
        let layout = match self.random.below(4) {
            0 => self.draw_sound_layout(),
            1 => self.draw_unsound_layout(),
            _ => self.finished_layout.unwrap_or(1),
        };
        self.push_open(kind, rounding, layout);
    }

    fn push_open(&mut self, kind: u32, rounding: u32, layout: u32) {
        self.calls.push(Call::Open { kind, rounding, layout });
        if self.open.is_some() {
            return;
        }
        match (kind, rounding) {
            (0, 0) if is_sound(layout, self.format.rows()) => self.open = Some((PictureKind::Intra, layout)),
            (1, 0 | 1) if self.finished_layout == Some(layout) => self.open = Some((PictureKind::Inter, layout)),
            _ => {}
        }
    }

    fn draw_sound_layout(&mut self) -> u32 {
        let all = (1 << self.format.rows()) - 1;
        let bits = self.random.draw() as u32;
        match self.random.below(6) {
            0 | 1 => 1,
            2 => all,
            3 => bits & all | 1,
            _ => bits & self.random.draw() as u32 & all | 1,
        }
    }

    fn draw_unsound_layout(&mut self) -> u32 {
        let rows = self.format.rows();
        let sound = self.draw_sound_layout();
        match self.random.below(5) {
            0 => 0,
            1 => sound & !1,
            2 => sound | 1 << rows,
            3 => sound | 1 << self.random.between(rows as i32, 31),
            _ => self.random.draw() as u32,
        }
    }

    /// The numbers of the open picture's segments.
    fn shuffled_segments(&mut self) -> Vec<u32> {
        let count = self.open.map_or(0, |(_, layout)| segment_count(layout));
        let mut segments: Vec<u32> = (0..count).collect();
        if self.random.percent(50) {
            for index in (1..segments.len()).rev() {
                segments.swap(index, self.random.below(index + 1));
            }
        }
        segments
    }

    /// A valid delivery's words, for a segment of the open picture, or for a row where there is no such segment.
    fn draw_words(&mut self, segment: u32) -> (PictureKind, Vec<u32>) {
        let (kind, layout) = self.open.unwrap_or((PictureKind::Intra, 1));
        let rows = if segment < segment_count(layout) { segment_rows(layout, self.format.rows(), segment).len() } else { 1 };
        (kind, write_delivery(&mut self.random, kind, self.format.columns(), rows, &self.mix))
    }

    fn deliver(&mut self, segment: u32) {
        let (_, words) = self.draw_words(segment);
        self.push_delivery(segment, to_bytes(&words));
    }

    /// In half of the cases no bytes are given by a null pointer.
    fn push_delivery(&mut self, segment: u32, bytes: Vec<u8>) {
        let is_null = bytes.is_empty() && self.random.percent(50);
        self.calls.push(if is_null { Call::DeliverNull { segment } } else { Call::Deliver { segment, bytes } });
    }

    fn deliver_damaged(&mut self, segment: u32) {
        let (kind, words) = self.draw_words(segment);
        let bytes = damage(&mut self.random, kind, &words);
        self.push_delivery(segment, bytes);
    }

    fn deliver_segment(&mut self, segment: u32, temper: &Temper) {
        while self.random.percent(temper.damaged) {
            self.deliver_damaged(segment);
        }
        if !self.random.percent(temper.missing) {
            self.deliver(segment);
        }
        self.stray(temper.stray);
    }

    /// Any segment number, and bytes that are valid, damaged, or meant for another picture or segment.
    fn deliver_anything(&mut self) {
        let count = self.open.map_or(1, |(_, layout)| segment_count(layout));
        let segment = match self.random.below(8) {
            0 => count,
            1 => self.random.pick(&[31, 32, 33, 64, 256, u32::MAX]),
            _ => self.random.below(count as usize) as u32,
        };
        match self.random.below(4) {
            0 => self.deliver(segment),
            1 => self.deliver_damaged(segment),
            2 => self.push_delivery(segment, Vec::new()),
            _ => {
                let kind = self.random.pick(&[PictureKind::Intra, PictureKind::Inter]);
                let rows = self.random.between(1, self.format.rows() as i32) as usize;
                let words = write_delivery(&mut self.random, kind, self.format.columns(), rows, &self.mix);
                self.push_delivery(segment, to_bytes(&words));
            }
        }
    }

    fn close(&mut self) {
        self.calls.push(Call::Close);
        if let Some((_, layout)) = self.open.take() {
            self.finished_layout = Some(layout);
        }
    }

    /// A call in between that a well-behaved caller would not make, or a question.
    fn stray(&mut self, chance: u32) {
        while self.random.percent(chance) {
            match self.random.below(9) {
                0 | 1 => self.stray_opening(),
                2 | 3 => self.deliver_anything(),
                4 if self.open.is_none() => self.close(),
                5 => self.ask_for_new(),
                _ => self.ask(),
            }
        }
    }

    /// One that is out of turn or refused, or an INTER picture in a layout that may be another than the finished picture's.
    fn stray_opening(&mut self) {
        let sound = self.draw_sound_layout();
        let unsound = self.draw_unsound_layout();
        let one_bit_off = self.finished_layout.unwrap_or(1) ^ 1 << self.random.below(32);
        let (kind, rounding, layout) = self.random.pick(&[
            (0, 0, unsound),
            (0, 0, unsound),
            (1, 0, sound),
            (1, 1, one_bit_off),
            (1, 0, one_bit_off),
            (2, 0, sound),
            (0, 1, sound),
            (1, 2, sound),
            (u32::MAX, u32::MAX, 0),
        ]);
        self.push_open(kind, rounding, layout);
    }

    /// A question about a sample or an age, inside or outside.
    fn ask(&mut self) {
        let (columns, rows) = (self.format.columns() as u32, self.format.rows() as u32);
        let call = if self.random.percent(50) {
            let plane = self.random.pick(&[0, 0, 1, 1, 2, 2, 2, 3, u32::MAX]);
            let side = if plane == 0 { 16 } else { 8 };
            Call::Sample { plane, across: self.draw_place(columns * side), down: self.draw_place(rows * side) }
        } else {
            Call::Age { column: self.draw_place(columns), row: self.draw_place(rows) }
        };
        self.calls.push(call);
    }

    fn draw_place(&mut self, size: u32) -> u32 {
        match self.random.below(12) {
            0 => size,
            1 => size - 1,
            2 => self.random.pick(&[0, size + 1, 65_536, 1 << 31, u32::MAX]),
            _ => self.random.below(size as usize) as u32,
        }
    }
}
