//! Plays a script: reads its lines, makes the calls and prints the answers.

use crate::answers::{Answer, Beginning, Calls, Layer, ACCEPTED, REFUSED};
use crate::pictures::{Format, Store, PLANES};
use crate::records::{Macroblock, MacroblockType, PictureKind, Records};
use crate::transform::Transform;
use std::fmt::Write;

/// Makes a reel, or refuses.
pub type Maker<'a> = &'a dyn Fn(Beginning) -> Result<Box<dyn Calls>, Answer>;

const NUMBER_WANTED: &str = "a decimal number below 4294967296 is due";
const MACROBLOCKS_WANTED: &str = "the number of macroblocks is a decimal number below 4294967296";
const BYTES_WANTED: &str = "bytes are pairs of hexadecimal digits, or - for none";

/// A line of a script that says something.
#[derive(Debug)]
enum Line {
    Store(Store),
    Transform(Transform),
    New(u32),
    Open(u32, u32, u32),
    Deliver(u32, Vec<u8>),
    Close,
    Sample(u32, u32, u32),
    Age(u32, u32),
    Ages,
    Records(PictureKind, u32, Vec<u8>),
}

/// Plays a whole script and gives what it prints.
pub fn play(script: &[u8], maker: Maker) -> String {
    let mut player = Player { maker, store: Store::Bytes, transform: Transform::TwoPass, reel: None, printed: String::new(), calls: 0, refused: 0 };
    for (index, line) in script.split(|&byte| byte == b'\n').enumerate() {
        match parse(line) {
            Ok(Some(line)) => player.make(line),
            Ok(None) => {}
            Err(wrong) => player.print(format_args!("error {}: {wrong}", index + 1)),
        }
    }
    player.end()
}

fn parse(line: &[u8]) -> Result<Option<Line>, &'static str> {
    let mut fields = Fields::of(line);
    let Some(name) = fields.next() else {
        return Ok(None);
    };
    let line = match name {
        b"store" => Line::Store(match fields.next() {
            Some(b"bytes") => Store::Bytes,
            Some(b"tiles") => Store::Tiles,
            _ => return Err("the store is bytes or tiles"),
        }),
        b"transform" => Line::Transform(match fields.next() {
            Some(b"two-pass") => Transform::TwoPass,
            Some(b"direct") => Transform::Direct,
            _ => return Err("the transform is two-pass or direct"),
        }),
        b"new" => Line::New(fields.number()?),
        b"open" => Line::Open(fields.number()?, fields.number()?, fields.number()?),
        b"deliver" => Line::Deliver(fields.number()?, fields.bytes()?),
        b"close" => Line::Close,
        b"sample" => Line::Sample(fields.number()?, fields.number()?, fields.number()?),
        b"age" => Line::Age(fields.number()?, fields.number()?),
        b"ages" => Line::Ages,
        b"records" => Line::Records(fields.kind()?, fields.macroblocks()?, fields.bytes()?),
        _ => return Err("no such call"),
    };
    match fields.next() {
        None => Ok(Some(line)),
        Some(_) => Err("too many fields"),
    }
}

/// The fields of a line, without its comment.
struct Fields<'a> {
    left: &'a [u8],
}

impl<'a> Fields<'a> {
    fn of(line: &'a [u8]) -> Self {
        let end = line.iter().position(|&byte| byte == b'#').unwrap_or(line.len());
        Fields { left: &line[..end] }
    }

    fn next(&mut self) -> Option<&'a [u8]> {
        let is_space = |byte: &u8| matches!(byte, b' ' | b'\t' | b'\r');
        let start = self.left.iter().position(|byte| !is_space(byte))?;
        let field = &self.left[start..];
        let (field, rest) = field.split_at(field.iter().position(is_space).unwrap_or(field.len()));
        self.left = rest;
        Some(field)
    }

    fn number(&mut self) -> Result<u32, &'static str> {
        self.decimal().ok_or(NUMBER_WANTED)
    }

    fn macroblocks(&mut self) -> Result<u32, &'static str> {
        self.decimal().ok_or(MACROBLOCKS_WANTED)
    }

    fn decimal(&mut self) -> Option<u32> {
        self.next()?.iter().try_fold(0u32, |number, digit| {
            let digit = digit.is_ascii_digit().then(|| u32::from(digit - b'0'))?;
            number.checked_mul(10)?.checked_add(digit)
        })
    }

    fn kind(&mut self) -> Result<PictureKind, &'static str> {
        match self.next() {
            Some(b"0") => Ok(PictureKind::Intra),
            Some(b"1") => Ok(PictureKind::Inter),
            _ => Err("the kind is 0 (INTRA) or 1 (INTER)"),
        }
    }

    fn bytes(&mut self) -> Result<Vec<u8>, &'static str> {
        let field = self.next().ok_or(BYTES_WANTED)?;
        if field == b"-" {
            return Ok(Vec::new());
        }
        if field.len() % 2 != 0 {
            return Err(BYTES_WANTED);
        }
        let digit = |byte: u8| char::from(byte).to_digit(16).ok_or(BYTES_WANTED);
        field.chunks_exact(2).map(|pair| Ok((digit(pair[0])? << 4 | digit(pair[1])?) as u8)).collect()
    }
}

struct Player<'a> {
    maker: Maker<'a>,
    store: Store,
    transform: Transform,
    reel: Option<Played>,
    printed: String,
    calls: usize,
    refused: usize,
}

struct Played {
    calls: Box<dyn Calls>,
    format: Format,
}

impl Player<'_> {
    fn print(&mut self, line: std::fmt::Arguments) {
        // Writing to a string does not fail.
        let _ = writeln!(self.printed, "{line}");
    }

    fn make(&mut self, line: Line) {
        match line {
            Line::Store(store) => return self.store = store,
            Line::Transform(transform) => return self.transform = transform,
            Line::New(format) => self.begin(format),
            Line::Open(kind, rounding, layout) => self.call("open", |reel| reel.calls.open(kind, rounding, layout)),
            Line::Deliver(segment, bytes) => self.deliver(segment, &bytes),
            Line::Close => self.close(),
            Line::Sample(plane, across, down) => self.call("sample", |reel| reel.calls.sample(plane, across, down)),
            Line::Age(column, row) => self.call("age", |reel| reel.calls.age(column, row)),
            Line::Ages => self.ages(),
            Line::Records(kind, macroblocks, bytes) => self.records(kind, macroblocks as usize, &bytes),
        }
        self.calls += 1;
    }

    fn begin(&mut self, number: u32) {
        match (self.maker)(Beginning::of(number, self.store, self.transform)) {
            Ok(calls) => {
                self.close_if_open();
                let format = Format::from_number(number).expect("a reel is of one of the formats");
                self.reel = Some(Played { calls, format });
                self.print(format_args!("new ok"));
            }
            Err(answer) => self.refuse("new", &answer),
        }
    }

    fn end(mut self) -> String {
        self.close_if_open();
        let (calls, refused) = (self.calls, self.refused);
        self.print(format_args!("done {calls} calls, {refused} refused"));
        self.printed
    }

    /// Makes a call whose answer is one number.
    fn call(&mut self, name: &str, call: impl FnOnce(&mut Played) -> Answer) {
        let answer = self.reel.as_mut().map_or(Answer::out_of_turn(), call);
        if answer.outcome == ACCEPTED {
            self.print(format_args!("{name} ok {}", answer.first));
        } else {
            self.refuse(name, &answer);
        }
    }

    fn deliver(&mut self, segment: u32, bytes: &[u8]) {
        let answer = self.reel.as_mut().map_or(Answer::out_of_turn(), |reel| reel.calls.deliver(segment, bytes));
        if answer.outcome == ACCEPTED {
            self.print(format_args!("deliver ok {} {}", answer.first, answer.second));
        } else {
            self.refuse("deliver", &answer);
        }
    }

    fn close(&mut self) {
        let answer = self.reel.as_mut().map_or(Answer::out_of_turn(), |reel| reel.calls.close());
        if answer.outcome == ACCEPTED {
            self.print_closed(answer.first);
        } else {
            self.refuse("close", &answer);
        }
    }

    /// Before a reel is let go. Whether a picture is open its own answer tells.
    fn close_if_open(&mut self) {
        if let Some(answer) = self.reel.as_mut().map(|reel| reel.calls.close()) {
            if answer.outcome == ACCEPTED {
                self.print_closed(answer.first);
            }
        }
    }

    fn print_closed(&mut self, marks: u64) {
        self.print(format_args!("close ok {marks}"));
        let Some(Played { calls, format }) = &mut self.reel else {
            return;
        };
        let mut line = String::from("picture");
        for plane in 0..PLANES {
            let mut samples = vec![0; format.samples(plane)];
            calls.copy_plane(plane as u32, &mut samples);
            let _ = write!(line, " {:08x}", sum(&samples));
        }
        let sum_of_ages = sum(&ages_of(calls.as_mut(), *format));
        self.print(format_args!("{line} ages {sum_of_ages:08x}"));
    }

    fn ages(&mut self) {
        let Some(Played { calls, format }) = &mut self.reel else {
            return self.refuse("ages", &Answer::out_of_turn());
        };
        let answer = calls.age(0, 0);
        if answer.outcome != ACCEPTED {
            return self.refuse("ages", &answer);
        }
        let ages = ages_of(calls.as_mut(), *format);
        let columns = format.columns();
        self.print(format_args!("ages ok"));
        for row in ages.chunks_exact(columns) {
            let row: Vec<String> = row.iter().map(u8::to_string).collect();
            self.print(format_args!("{}", row.join(" ")));
        }
    }

    fn records(&mut self, kind: PictureKind, macroblocks: usize, bytes: &[u8]) {
        let mut records = Records::default();
        match records.read(kind, macroblocks, bytes) {
            Ok(counts) => {
                for (index, macroblock) in records.macroblocks.iter().enumerate() {
                    self.print(format_args!("macroblock {index} {}", told(macroblock)));
                }
                self.print(format_args!("records ok {} {}", counts.words, counts.intra));
            }
            Err(refusal) => self.refuse("records", &refusal.into()),
        }
    }

    /// Prints any answer but an accepted one.
    fn refuse(&mut self, name: &str, answer: &Answer) {
        let &Answer { outcome, number, layer, word, macroblock, block, .. } = answer;
        if outcome == REFUSED {
            self.refused += 1;
            self.print(format_args!("{name} no {number} {} {word} {macroblock} {block}", Layer::name(layer)));
        } else {
            self.print(format_args!("{name} out-of-turn"));
        }
    }
}

fn ages_of(calls: &mut dyn Calls, format: Format) -> Vec<u8> {
    let mut ages = vec![0; format.macroblocks()];
    calls.copy_ages(&mut ages);
    ages
}

fn told(macroblock: &Macroblock) -> String {
    let Macroblock { kind, quantizer, pattern, difference, dc, coefficients } = macroblock;
    let count: usize = coefficients.iter().map(|&count| usize::from(count)).sum();
    match kind {
        MacroblockType::Skipped => "skipped".into(),
        MacroblockType::Inter => {
            format!("INTER quantizer {quantizer} pattern {pattern:06b} vector {} {} coefficients {count}", difference.horizontal, difference.vertical)
        }
        MacroblockType::Intra => {
            let codes = dc.map(|code| code.to_string()).join(" ");
            format!("INTRA quantizer {quantizer} pattern {pattern:06b} dc {codes} coefficients {count}")
        }
    }
}

/// Combines each byte by exclusive or and multiplies.
fn sum(bytes: &[u8]) -> u32 {
    bytes.iter().fold(2_166_136_261, |sum, &byte| (sum ^ u32::from(byte)).wrapping_mul(16_777_619))
}
