//! What a call is answered, and the calls themselves, so that two decoders can be put the same questions.

use crate::pictures::Store;
use crate::transform::Transform;

/// Outcomes of a call.
pub const ACCEPTED: u32 = 0;
pub const REFUSED: u32 = 1;
pub const OUT_OF_TURN: u32 = 2;
pub const NO_MEMORY: u32 = 3;
pub const UNKNOWN_CHOICE: u32 = 4;

/// Block 6 stands for "no block is due".
pub const NO_BLOCK: u32 = 6;

/// Which part of a delivery a refusal concerns.
#[derive(Clone, Copy, Debug, PartialEq, Eq)]
pub enum Layer {
    Picture = 0,
    Words = 1,
    Macroblock = 2,
    Block = 3,
    Segment = 4,
}

impl Layer {
    pub fn name(number: u32) -> &'static str {
        ["picture", "words", "macroblock", "block", "segment"].get(number as usize).copied().unwrap_or("?")
    }
}

/// The question that was answered no, and where.
#[derive(Clone, Copy, Debug, PartialEq, Eq)]
pub struct Refusal {
    pub number: u32,
    pub layer: Layer,
    pub word: usize,
    pub macroblock: usize,
    pub block: u32,
}

impl Refusal {
    /// A refusal that concerns no place in a delivery.
    pub fn of_picture(number: u32) -> Self {
        Refusal { number, layer: Layer::Picture, word: 0, macroblock: 0, block: NO_BLOCK }
    }
}

/// An answer, laid out as `desktern_answer` is. Fields that the outcome does not name are 0.
#[repr(C)]
#[derive(Clone, Copy, Debug, Default, PartialEq, Eq)]
pub struct Answer {
    pub outcome: u32,
    pub number: u32,
    pub layer: u32,
    pub block: u32,
    pub word: u64,
    pub macroblock: u64,
    pub first: u64,
    pub second: u64,
}

impl Answer {
    pub fn accepted(first: u64, second: u64) -> Self {
        Answer { outcome: ACCEPTED, first, second, ..Answer::default() }
    }

    pub fn out_of_turn() -> Self {
        Answer { outcome: OUT_OF_TURN, ..Answer::default() }
    }

    /// Asked for a new reel by a number that names no store or no transform.
    pub fn unknown_choice() -> Self {
        Answer { outcome: UNKNOWN_CHOICE, ..Answer::default() }
    }

    pub fn is_accepted(&self) -> bool {
        self.outcome == ACCEPTED
    }
}

impl From<Refusal> for Answer {
    fn from(refusal: Refusal) -> Self {
        Answer {
            outcome: REFUSED,
            number: refusal.number,
            layer: refusal.layer as u32,
            block: refusal.block,
            word: refusal.word as u64,
            macroblock: refusal.macroblock as u64,
            ..Answer::default()
        }
    }
}

impl From<Result<u64, Refusal>> for Answer {
    fn from(result: Result<u64, Refusal>) -> Self {
        match result {
            Ok(value) => Answer::accepted(value, 0),
            Err(refusal) => refusal.into(),
        }
    }
}

/// The numbers by which a new reel is asked for. Each may name nothing.
#[derive(Clone, Copy, Debug, PartialEq, Eq)]
pub struct Beginning {
    pub format: u32,
    pub store: u32,
    pub transform: u32,
}

impl Beginning {
    pub fn of(format: u32, store: Store, transform: Transform) -> Self {
        Beginning { format, store: store as u32, transform: transform as u32 }
    }
}

/// The calls of a reel.
pub trait Calls {
    /// Asks for a new reel in the place of this one, by numbers of which one at least names nothing: there is none, and this one stays.
    fn ask_for_new(&mut self, beginning: Beginning) -> Answer;

    fn open(&mut self, kind: u32, rounding: u32, layout: u32) -> Answer;
    fn deliver(&mut self, segment: u32, bytes: &[u8]) -> Answer;

    /// Delivers no bytes, by a null pointer where bytes go by pointers.
    fn deliver_null(&mut self, segment: u32) -> Answer {
        self.deliver(segment, &[])
    }

    fn close(&mut self) -> Answer;
    fn sample(&mut self, plane: u32, across: u32, down: u32) -> Answer;
    fn age(&mut self, column: u32, row: u32) -> Answer;

    /// Copies a plane of the finished picture and gives its number of samples; copies nothing where there is too little room.
    fn copy_plane(&mut self, plane: u32, samples: &mut [u8]) -> usize;

    /// Copies the ages of the finished picture in the same way.
    fn copy_ages(&mut self, ages: &mut [u8]) -> usize;
}
