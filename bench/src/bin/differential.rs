//! Makes random lists of calls on the plain decoder and on the proved library, and stops at the first difference.
//!
//! On new reels of both stores and transforms it compares every answer whole, and all planes and ages after each closing; and it sees that all is shown as
//! before after each call that is not accepted, and after some of the others. The transforms are to differ in the values of samples alone. Reels that have
//! shown other pictures before are to go on as new ones do.
//!
//! `differential [LISTS] [FIRST_SEED]`

use desktern_bench::answers::{Answer, Beginning, Calls, Refusal, ACCEPTED, OUT_OF_TURN, REFUSED, UNKNOWN_CHOICE};
use desktern_bench::library::LibraryReel;
use desktern_bench::lists::{self, Call, List};
use desktern_bench::motion::Vectors;
use desktern_bench::pictures::{Picture, Store, OLDEST, PLANES};
use desktern_bench::random::Random;
use desktern_bench::records::{MacroblockType, Records, Vector, BLOCKS};
use desktern_bench::reel::Reel;
use desktern_bench::transform::Transform;
use std::env;
use std::process::ExitCode;
use std::time::Instant;

const LISTS: u64 = 20_000;
const STORES: [Store; 2] = [Store::Bytes, Store::Tiles];
const TRANSFORMS: [Transform; 2] = [Transform::TwoPass, Transform::Direct];

/// One in so many lists is made on used reels too.
const USED: u64 = 4;

/// So often it is seen that an accepted call other than a closing leaves what is shown; that a call which is not accepted does, always.
const UNCHANGED: usize = 4;

/// What a buffer holds before a call, so that what is written shows.
const UNTOUCHED: u8 = 77;

fn main() -> ExitCode {
    let mut numbers = env::args().skip(1).map(|argument| argument.parse::<u64>());
    let (Ok(lists), Ok(first)) = (numbers.next().unwrap_or(Ok(LISTS)), numbers.next().unwrap_or(Ok(1))) else {
        eprintln!("differential [LISTS] [FIRST_SEED]");
        return ExitCode::FAILURE;
    };
    let start = Instant::now();
    let mut counts = Counts::default();
    for seed in first..first + lists {
        if let Err(difference) = compare_seed(seed, &mut counts) {
            println!("seed {seed}: {difference}");
            return ExitCode::FAILURE;
        }
        if (seed - first + 1) % 2_000 == 0 {
            eprintln!("{} lists in {:.0} s", seed - first + 1, start.elapsed().as_secs_f64());
        }
    }
    if let Err(difference) = compare(&lists::list_to_the_limit(), &mut counts) {
        println!("the list to the limit of pictures: {difference}");
        return ExitCode::FAILURE;
    }
    counts.print();
    println!("no difference, in {:.0} s", start.elapsed().as_secs_f64());
    ExitCode::SUCCESS
}

fn compare_seed(seed: u64, counts: &mut Counts) -> Result<(), String> {
    let list = lists::list(seed);
    let made = compare(&list, counts)?;
    if seed.is_multiple_of(USED) {
        compare_used(&list, &made, Used { store: Store::Tiles, transform: Transform::Direct, seed: !seed }, counts)?;
        compare_used(&list, &made, Used { store: Store::Bytes, transform: Transform::TwoPass, seed: !seed - 1 }, counts)?;
    }
    Ok(())
}

/// What came of a list on new reels of one transform: the answers to its calls, and what is shown after the last.
struct Made {
    transform: Transform,
    answers: Vec<Answer>,
    shown: Picture,
}

/// Makes a list's calls on new reels of each store and transform.
fn compare(list: &List, counts: &mut Counts) -> Result<[Made; TRANSFORMS.len()], String> {
    counts.lists += 1;
    for &beginning in &list.unknown {
        compare_unknown(beginning, counts)?;
    }
    let made = [compare_transform(list, Transform::TwoPass, counts)?, compare_transform(list, Transform::Direct, counts)?];
    let [two_pass, direct] = &made;
    for (index, call) in list.calls.iter().enumerate() {
        let (one, other) = (&two_pass.answers[index], &direct.answers[index]);
        if !are_alike(call, one, other) {
            return Err(format!("call {index}: {}\ntwo-pass {one:?}\ndirect   {other:?}", told(call)));
        }
    }
    if two_pass.shown.ages != direct.shown.ages {
        return Err(format!("ages: two-pass {:?}, direct {:?}", two_pass.shown.ages, direct.shown.ages));
    }
    Ok(made)
}

/// Asks for a reel by numbers that name none.
fn compare_unknown(beginning: Beginning, counts: &mut Counts) -> Result<(), String> {
    let (plain, proved) = (Reel::new(beginning).err(), LibraryReel::new(beginning).err());
    match plain {
        Some(answer) if plain == proved => {
            counts.count_answer(&answer);
            Ok(())
        }
        _ => Err(format!("{}\nplain   {plain:?}\nlibrary {proved:?}", told(&Call::New(beginning)))),
    }
}

/// Makes a list's calls on new reels of one transform: the plain decoder's, and the library's with each store.
fn compare_transform(list: &List, transform: Transform, counts: &mut Counts) -> Result<Made, String> {
    let mut compared = Compared::new(list, transform)?;
    compared.compare_copies(counts).map_err(|difference| format!("{transform:?}, before all calls: {difference}"))?;
    let mut answers = Vec::with_capacity(list.calls.len());
    for (index, call) in list.calls.iter().enumerate() {
        let answer = compared.call(call, counts).map_err(|difference| format!("{transform:?}, call {index}: {difference}"))?;
        if transform == Transform::TwoPass {
            counts.count_call(call, &answer, &compared.plain);
        }
        answers.push(answer);
    }
    compared.compare_buffers().map_err(|difference| format!("{transform:?}, after all calls: {difference}"))?;
    Ok(Made { transform, answers, shown: compared.shown })
}

/// Are the answers of two reels to one call the same, but for the value of a sample, which the transforms may round differently?
fn are_alike(call: &Call, one: &Answer, other: &Answer) -> bool {
    match call {
        Call::Sample { .. } if one.is_accepted() && other.is_accepted() => Answer { first: 0, ..*one } == Answer { first: 0, ..*other },
        _ => one == other,
    }
}

/// A reel of the library that has shown some pictures, so that its memory holds other things than a new reel's.
struct Used {
    store: Store,
    transform: Transform,
    /// That its pictures are drawn from.
    seed: u64,
}

/// Makes a list's calls from its first accepted opening on, which is INTRA, on a used reel. It is to answer and show what the new reels did: all, where the
/// transform is the same, and all but samples, where it is the other. Questions before the first closing tell of the pictures before.
fn compare_used(list: &List, made: &[Made; TRANSFORMS.len()], used: Used, counts: &mut Counts) -> Result<(), String> {
    let Used { store, transform, seed } = used;
    let is_begun = |(call, answer): (&Call, &Answer)| matches!(call, Call::Open { .. }) && answer.is_accepted();
    let Some(start) = list.calls.iter().zip(&made[0].answers).position(is_begun) else {
        return Ok(());
    };
    let mut reel = LibraryReel::new(Beginning::of(list.format, store, transform)).map_err(|answer| format!("no used reel: {answer:?}"))?;
    lists::pictures_before(seed, list.format).iter().for_each(|call| {
        make(&mut reel, call);
    });
    let mut is_closed = false;
    for (index, call) in list.calls.iter().enumerate().skip(start) {
        let answer = make(&mut reel, call);
        counts.used_calls += 1;
        if !is_closed && call.is_question() {
            continue;
        }
        for made in made {
            let new = &made.answers[index];
            if answer != *new && (made.transform == transform || !are_alike(call, &answer, new)) {
                let (call, other) = (told(call), made.transform);
                return Err(format!("call {index}: {call}\nused reel, {store:?}, {transform:?} {answer:?}\nnew reels, {other:?} {new:?}"));
            }
        }
        is_closed |= matches!(call, Call::Close) && answer.is_accepted();
    }
    if is_closed {
        let mut shown = made[0].shown.clone();
        copy(&mut reel, &mut shown)?;
        let differs = |made: &Made| shown.ages != made.shown.ages || made.transform == transform && shown != made.shown;
        if made.iter().any(differs) {
            return Err(format!("after all calls a used reel, {store:?}, {transform:?}, shows another picture"));
        }
    }
    counts.used_reels += 1;
    Ok(())
}

/// The plain decoder's reel and the library's, one for each store.
struct Compared {
    plain: Reel,
    libraries: [LibraryReel; STORES.len()],
    /// What all of them show.
    shown: Picture,
    /// Is it a picture that was closed, so that questions are answered?
    is_finished: bool,
    /// Room for what one of them shows.
    copied: Picture,
    /// That places are drawn from, to ask about.
    random: Random,
}

impl Compared {
    fn new(list: &List, transform: Transform) -> Result<Self, String> {
        let plain = Reel::new(Beginning::of(list.format, Store::Bytes, transform));
        let libraries = STORES.map(|store| LibraryReel::new(Beginning::of(list.format, store, transform)));
        // Nothing is done, as the calls after it show.
        LibraryReel::free_null();
        match (plain, libraries) {
            (Ok(plain), [Ok(bytes), Ok(tiles)]) => {
                let shown = plain.finished().clone();
                let random = Random::new(list.calls.len() as u64);
                Ok(Compared { plain, libraries: [bytes, tiles], copied: shown.clone(), shown, is_finished: false, random })
            }
            (plain, [bytes, tiles]) => Err(format!("new {}: plain {:?}, bytes {:?}, tiles {:?}", list.format, plain.err(), bytes.err(), tiles.err())),
        }
    }

    fn call(&mut self, call: &Call, counts: &mut Counts) -> Result<Answer, String> {
        let plain = make(&mut self.plain, call);
        for (library, store) in self.libraries.iter_mut().zip(STORES) {
            let proved = make(library, call);
            if plain != proved {
                return Err(format!("{}\nplain  {plain:?}\nlibrary with {store:?} {proved:?}", told(call)));
            }
        }
        if matches!(call, Call::Close) && plain.is_accepted() {
            self.is_finished = true;
            self.compare_copies(counts)?;
        } else if !plain.is_accepted() || self.random.once_in(UNCHANGED) {
            self.compare_unchanged().map_err(|difference| format!("{}\n{plain:?}\nand then {difference}", told(call)))?;
            counts.unchanged += 1;
        }
        Ok(plain)
    }

    /// Compares all planes and all ages of the finished picture.
    fn compare_copies(&mut self, counts: &mut Counts) -> Result<(), String> {
        self.shown.clone_from(self.plain.finished());
        for (library, store) in self.libraries.iter_mut().zip(STORES) {
            copy(library, &mut self.copied)?;
            for (plane, (plain, proved)) in self.shown.planes.iter().zip(&self.copied.planes).enumerate() {
                if let Some(place) = plain.samples.iter().zip(&proved.samples).position(|(plain, proved)| plain != proved) {
                    let (across, down) = (place % plain.width, place / plain.width);
                    let (plain, proved) = (plain.samples[place], proved.samples[place]);
                    return Err(format!("plane {plane}, {across} across, {down} down: plain {plain}, library with {store:?} {proved}"));
                }
                counts.samples += plain.samples.len() as u64;
            }
            if self.copied.ages != self.shown.ages {
                return Err(format!("ages: plain {:?}, library with {store:?} {:?}", self.shown.ages, self.copied.ages));
            }
            counts.ages += self.shown.ages.len() as u64;
        }
        Ok(())
    }

    /// After any call but an accepted closing all reels show what they showed before it, in copies and by questions.
    fn compare_unchanged(&mut self) -> Result<(), String> {
        if *self.plain.finished() != self.shown {
            return Err("the plain reel shows another picture".into());
        }
        let (questions, expected) = self.draw_questions();
        for (library, store) in self.libraries.iter_mut().zip(STORES) {
            copy(library, &mut self.copied)?;
            if self.copied != self.shown {
                return Err(format!("the library with {store:?} shows another picture"));
            }
            for (question, expected) in questions.iter().zip(expected) {
                let proved = make(library, question);
                if proved != expected {
                    return Err(format!("{}\nexpected {expected:?}\nlibrary with {store:?} {proved:?}", told(question)));
                }
            }
        }
        Ok(())
    }

    /// About a sample and an age inside, with the answers that belong to what is shown.
    fn draw_questions(&mut self) -> ([Call; 2], [Answer; 2]) {
        let format = self.plain.format();
        let number = self.random.below(PLANES);
        let plane = &self.shown.planes[number];
        let (across, down) = (self.random.below(plane.width), self.random.below(plane.height()));
        let (column, row) = (self.random.below(format.columns()), self.random.below(format.rows()));
        let questions =
            [Call::Sample { plane: number as u32, across: across as u32, down: down as u32 }, Call::Age { column: column as u32, row: row as u32 }];
        let shown = [plane.samples[down * plane.width + across], self.shown.ages[row * format.columns() + column]];
        let is_finished = self.is_finished;
        (questions, shown.map(|value| if is_finished { Answer::accepted(value.into(), 0) } else { Refusal::of_picture(5).into() }))
    }

    /// The sizes are told whatever the buffer is. Where it is null or too short, or there is no such plane, nothing is written, and nothing behind
    /// what is copied.
    fn compare_buffers(&mut self) -> Result<(), String> {
        let shown = &self.shown;
        for library in &mut self.libraries {
            for plane in [0, 1, 2, 3, 4, 5, 256, u32::MAX] {
                let samples = shown.planes.get(plane as usize).map_or(&[][..], |plane| &plane.samples);
                compare_buffer(samples, library.plane_size(plane), |buffer| library.copy_plane(plane, buffer))
                    .map_err(|difference| format!("plane {plane} {difference}"))?;
            }
            compare_buffer(&shown.ages, library.ages_size(), |buffer| library.copy_ages(buffer))
                .map_err(|difference| format!("ages {difference}"))?;
        }
        Ok(())
    }
}

/// Copies what is due into buffers of several lengths. Its size was asked for by a null pointer.
fn compare_buffer(due: &[u8], size: usize, mut copy: impl FnMut(&mut [u8]) -> usize) -> Result<(), String> {
    if size != due.len() {
        return Err(format!("are {}, and {size} by a null pointer", due.len()));
    }
    for length in [0, 1, size / 2, size.saturating_sub(1), size, size + 1, size + 100] {
        let mut buffer = vec![UNTOUCHED; length + 1];
        let count = copy(&mut buffer[..length]);
        let (written, behind) = buffer.split_at(if length < size { 0 } else { size });
        if count != size || written != &due[..written.len()] || behind.iter().any(|&byte| byte != UNTOUCHED) {
            return Err(format!("are {size}, and {count} or wrongly copied with room for {length}"));
        }
    }
    Ok(())
}

/// Copies all planes and ages of the finished picture.
fn copy(library: &mut LibraryReel, copied: &mut Picture) -> Result<(), String> {
    for (plane, copied) in (0..).zip(&mut copied.planes) {
        copied.samples.fill(UNTOUCHED);
        let count = library.copy_plane(plane, &mut copied.samples);
        if count != copied.samples.len() {
            return Err(format!("plane {plane} has {count} samples"));
        }
    }
    copied.ages.fill(UNTOUCHED);
    let count = library.copy_ages(&mut copied.ages);
    if count != copied.ages.len() {
        return Err(format!("there are {count} ages"));
    }
    Ok(())
}

fn make(reel: &mut impl Calls, call: &Call) -> Answer {
    match *call {
        Call::New(beginning) => reel.ask_for_new(beginning),
        Call::Open { kind, rounding, layout } => reel.open(kind, rounding, layout),
        Call::Deliver { segment, ref bytes } => reel.deliver(segment, bytes),
        Call::DeliverNull { segment } => reel.deliver_null(segment),
        Call::Close => reel.close(),
        Call::Sample { plane, across, down } => reel.sample(plane, across, down),
        Call::Age { column, row } => reel.age(column, row),
    }
}

/// A call as a script has it.
fn told(call: &Call) -> String {
    match call {
        Call::New(Beginning { format, store, transform }) => format!("new {format} # store {store}, transform {transform}"),
        Call::Open { kind, rounding, layout } => format!("open {kind} {rounding} {layout}"),
        Call::Deliver { segment, bytes } if bytes.is_empty() => format!("deliver {segment} -"),
        Call::Deliver { segment, bytes } => {
            let digits: String = bytes.iter().map(|byte| format!("{byte:02x}")).collect();
            format!("deliver {segment} {digits}")
        }
        Call::DeliverNull { segment } => format!("deliver {segment} - # null"),
        Call::Close => "close".into(),
        Call::Sample { plane, across, down } => format!("sample {plane} {across} {down}"),
        Call::Age { column, row } => format!("age {column} {row}"),
    }
}

/// What was met. Calls and macroblocks are counted once for all reels that were given them.
#[derive(Default)]
struct Counts {
    lists: u64,
    calls: u64,
    accepted: [u64; 5],
    refused: [u64; 19],
    out_of_turn: u64,
    unknown_choices: u64,
    deliveries_by_null: u64,
    /// Calls after which what is shown was compared with what was shown before, counted for each transform.
    unchanged: u64,
    used_reels: u64,
    used_calls: u64,
    pictures: u64,
    pictures_by_age: Met<256>,
    samples: u64,
    ages: u64,
    macroblocks: [u64; 3],
    quantizers: Met<32>,
    patterns: Met<64>,
    vectors: Met<4096>,
    codes: Met<256>,
    levels: Met<256>,
    positions: Met<64>,
}

/// How often each of some numbers was met.
struct Met<const N: usize>([u64; N]);

impl<const N: usize> Default for Met<N> {
    fn default() -> Self {
        Met([0; N])
    }
}

impl<const N: usize> Met<N> {
    fn count(&mut self, number: usize) {
        self.0[number] += 1;
    }

    fn kinds(&self) -> usize {
        self.0.iter().filter(|&&count| count > 0).count()
    }
}

impl Counts {
    fn count_answer(&mut self, answer: &Answer) {
        self.calls += 1;
        match answer.outcome {
            ACCEPTED => {}
            REFUSED => self.refused[answer.number as usize] += 1,
            OUT_OF_TURN => self.out_of_turn += 1,
            UNKNOWN_CHOICE => self.unknown_choices += 1,
            outcome => panic!("no decoder answers with outcome {outcome}"),
        }
    }

    fn count_call(&mut self, call: &Call, answer: &Answer, plain: &Reel) {
        self.count_answer(answer);
        self.deliveries_by_null += u64::from(matches!(call, Call::DeliverNull { .. }));
        if answer.is_accepted() {
            self.count_accepted(call, plain);
        }
    }

    fn count_accepted(&mut self, call: &Call, plain: &Reel) {
        match call {
            Call::New(_) | Call::DeliverNull { .. } => panic!("{call:?} is accepted"),
            Call::Open { .. } => self.accepted[0] += 1,
            Call::Deliver { .. } => {
                self.accepted[1] += 1;
                self.count_records(plain.records(), plain.format().columns());
            }
            Call::Close => {
                self.accepted[2] += 1;
                self.pictures += 1;
                plain.finished().ages.iter().for_each(|&age| self.pictures_by_age.count(age.into()));
            }
            Call::Sample { .. } => self.accepted[3] += 1,
            Call::Age { .. } => self.accepted[4] += 1,
        }
    }

    fn count_records(&mut self, records: &Records, columns: usize) {
        let mut vectors = Vectors::default();
        vectors.begin(columns);
        for macroblock in &records.macroblocks {
            self.macroblocks[macroblock.kind as usize] += 1;
            let mut vector = Vector::default();
            match macroblock.kind {
                MacroblockType::Skipped => {}
                MacroblockType::Inter => {
                    vector = vectors.resolve(macroblock.difference);
                    let component = |component: i8| (i32::from(component) + 32) as usize;
                    self.vectors.count(component(vector.horizontal) * 64 + component(vector.vertical));
                }
                MacroblockType::Intra => macroblock.dc.iter().for_each(|&code| self.codes.count(code.into())),
            }
            vectors.push(vector);
            self.quantizers.count(macroblock.quantizer.into());
            self.patterns.count(macroblock.pattern.into());
        }
        for coefficient in &records.coefficients {
            self.levels.count(usize::from(coefficient.level as u8));
            self.positions.count(coefficient.position.into());
        }
    }

    fn print(&self) {
        let [opened, delivered, closed, samples, ages] = self.accepted;
        let [skipped, inter, intra] = self.macroblocks;
        println!("lists {}, calls {} (each made on 2 plain reels and 4 of the library)", self.lists, self.calls);
        println!("accepted: {opened} openings, {delivered} deliveries, {closed} closings, {samples} sample questions, {ages} age questions");
        for (number, &count) in self.refused.iter().enumerate().skip(1) {
            println!("refused with {number}: {count}");
        }
        println!("out of turn: {}, unknown choices: {}", self.out_of_turn, self.unknown_choices);
        println!("deliveries by a null pointer: {}", self.deliveries_by_null);
        println!("calls after which all reels were seen to show what they had shown: {} (both transforms together)", self.unchanged);
        println!("used reels of the library: {}, which were given {} calls", self.used_reels, self.used_calls);
        println!("pictures {}, samples compared {}, ages compared {}", self.pictures, self.samples, self.ages);
        println!("macroblocks in accepted deliveries: {skipped} skipped, {inter} INTER, {intra} INTRA, of {BLOCKS} blocks each");
        println!(
            "met: {} of 31 quantizers, {} of 64 patterns, {} of 4,096 vectors, {} of 254 DC codes, {} of 254 levels, {} of 64 positions",
            self.quantizers.kinds() - usize::from(self.quantizers.0[0] > 0),
            self.patterns.kinds(),
            self.vectors.kinds(),
            self.codes.kinds(),
            self.levels.kinds(),
            self.positions.kinds()
        );
        let oldest = self.pictures_by_age.0[usize::from(OLDEST)];
        println!("macroblocks of finished pictures of age 250: {oldest}, of all ages: {} kinds", self.pictures_by_age.kinds());
    }
}
