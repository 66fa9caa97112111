//! Measures the plain decoder and the proved library on the same deliveries, and prints macroblocks per second and their ratio.

use desktern_bench::answers::{Answer, Beginning, Calls, ACCEPTED, REFUSED};
use desktern_bench::library::LibraryReel;
use desktern_bench::pictures::{Format, Store};
use desktern_bench::random::Random;
use desktern_bench::records::PictureKind;
use desktern_bench::reel::{Reel, PICTURE_LIMIT};
use desktern_bench::transform::Transform;
use desktern_bench::writer::{to_bytes, write_delivery, Codes, Levels, Mix, Quantizers, Runs, VectorMix};
use std::hint::black_box;
use std::time::Duration;

/// Other programs run beside this one, so that the best of some rounds is taken.
const ROUNDS: usize = 5;
const ROUND: Duration = Duration::from_millis(100);

/// Different pictures, or deliveries, that are timed together.
const BATCH: usize = 8;

/// How often a batch is timed after one INTRA picture, where its pictures do not change what they are predicted from.
const REPEATS: usize = 50;

const FORMATS: [(u32, &str); 3] = [(1, "sub-QCIF"), (2, "QCIF"), (3, "CIF")];
const TRANSFORMS: [(Transform, &str); 2] = [(Transform::TwoPass, "two-pass"), (Transform::Direct, "direct")];

const TEXTURED: Mix = Mix {
    types: [0, 1, 0],
    quantizers: Quantizers::Always(8),
    vectors: VectorMix::Half,
    coded: 60,
    runs: Runs::Few,
    levels: Levels::Small,
    codes: Codes::Smooth,
};
const MOVED: Mix = Mix { vectors: VectorMix::Whole, coded: 0, ..TEXTURED };
const SKIPPED: Mix = Mix { types: [1, 0, 0], ..TEXTURED };

type MakeWork = fn(Drawer) -> Work;

/// Each picture is opened, delivered and closed.
const PICTURES: [(&str, MakeWork); 4] = [
    ("INTRA", |drawer| drawer.intra_pictures()),
    ("INTER, half-sample vectors, coefficients", |drawer| drawer.inter_pictures(&TEXTURED)),
    ("INTER, whole-sample vectors, no coefficients", |drawer| drawer.inter_pictures(&MOVED)),
    ("all skipped", |drawer| drawer.inter_pictures(&SKIPPED).repeated()),
];

/// In these the transform has no part.
const PARTS: [(&str, MakeWork); 4] = [
    ("INTRA, opened and closed alone", |drawer| drawer.intra_pictures().undelivered()),
    ("INTER, opened and closed alone", |drawer| drawer.inter_pictures(&TEXTURED).undelivered().repeated()),
    ("INTRA delivery, refused at its last word", |drawer| drawer.intra_pictures().damaged().repeated()),
    ("INTER delivery, refused at its last word", |drawer| drawer.inter_pictures(&Mix { coded: 100, ..TEXTURED }).damaged().repeated()),
];

fn main() {
    println!("Millions of macroblocks per second, and the library's speed as a part of the plain decoder's.\n");
    println!("| pictures | transform | format | plain | library, bytes | ratio | library, tiles | ratio |");
    println!("|---|---|---|---:|---:|---:|---:|---:|");
    for (name, make) in PICTURES {
        for (transform, transform_name) in TRANSFORMS {
            for (number, format) in FORMATS {
                measure(&format!("| {name} | {transform_name} | {format} |"), number, transform, &make(Drawer::new(number)));
            }
        }
    }
    for (name, make) in PARTS {
        for (number, format) in FORMATS {
            measure(&format!("| {name} | | {format} |"), number, Transform::TwoPass, &make(Drawer::new(number)));
        }
    }
}

enum Step {
    Open {
        kind: u32,
        rounding: u32,
    },
    Deliver(Vec<u8>),
    /// A delivery that is refused.
    DeliverDamaged(Vec<u8>),
    Close,
}

impl Step {
    fn is_open(&self) -> bool {
        matches!(self, Step::Open { .. })
    }

    fn is_delivery(&self) -> bool {
        matches!(self, Step::Deliver(_) | Step::DeliverDamaged(_))
    }
}

/// Steps that are timed so many times, between others that are not.
struct Work {
    before: Vec<Step>,
    timed: Vec<Step>,
    repeats: usize,
    after: Vec<Step>,
}

impl Work {
    fn repeated(self) -> Self {
        Work { repeats: REPEATS, ..self }
    }

    fn undelivered(mut self) -> Self {
        self.timed.retain(|step| !step.is_delivery());
        self
    }

    /// The deliveries alone, in one picture that is open all the time.
    fn damaged(mut self) -> Self {
        let opening = self.timed.iter().position(Step::is_open).expect("the pictures are opened");
        self.before.push(self.timed.swap_remove(opening));
        self.timed = self.timed.into_iter().filter_map(damage).collect();
        self.after.push(Step::Close);
        self
    }

    fn openings(&self) -> usize {
        let count = |steps: &[Step]| steps.iter().filter(|step| step.is_open()).count();
        count(&self.before) + count(&self.timed) * self.repeats + count(&self.after)
    }
}

/// The last word is a coefficient of level 0 or a DC of code 0.
fn damage(step: Step) -> Option<Step> {
    let Step::Deliver(mut delivery) = step else {
        return None;
    };
    *delivery.last_mut()? = 0;
    Some(Step::DeliverDamaged(delivery))
}

/// Draws the deliveries of pictures of one segment.
struct Drawer {
    random: Random,
    format: Format,
}

impl Drawer {
    fn new(format: u32) -> Self {
        Drawer { random: Random::new(2), format: format_of(format) }
    }

    fn intra_pictures(mut self) -> Work {
        let timed = (0..BATCH).flat_map(|_| self.picture(PictureKind::Intra, 0, &TEXTURED)).collect();
        Work { before: Vec::new(), timed, repeats: 1, after: Vec::new() }
    }

    /// A fresh INTRA picture comes before each batch, as coefficients would add up to black and white.
    fn inter_pictures(mut self, mix: &Mix) -> Work {
        let before = self.picture(PictureKind::Intra, 0, &TEXTURED).into();
        let timed = (0..BATCH as u32).flat_map(|index| self.picture(PictureKind::Inter, index % 2, mix)).collect();
        Work { before, timed, repeats: 1, after: Vec::new() }
    }

    fn picture(&mut self, kind: PictureKind, rounding: u32, mix: &Mix) -> [Step; 3] {
        let words = write_delivery(&mut self.random, kind, self.format.columns(), self.format.rows(), mix);
        [Step::Open { kind: kind as u32, rounding }, Step::Deliver(to_bytes(&words)), Step::Close]
    }
}

fn format_of(number: u32) -> Format {
    Format::from_number(number).expect("the formats measured are formats")
}

/// Prints a row of the table.
fn measure(heading: &str, format: u32, transform: Transform, work: &Work) {
    let plain = || Reel::new(Beginning::of(format, Store::Bytes, transform)).expect("the format is one");
    let library = |store| move || LibraryReel::new(Beginning::of(format, store, transform)).expect("the format is one");
    let macroblocks = (BATCH * format_of(format).macroblocks()) as f64;
    let mut best = [0.0f64; 3];
    for _ in 0..ROUNDS {
        let speeds =
            [batches_per_second(plain, work), batches_per_second(library(Store::Bytes), work), batches_per_second(library(Store::Tiles), work)];
        for (best, speed) in best.iter_mut().zip(speeds) {
            *best = best.max(speed * macroblocks / 1e6);
        }
    }
    let [plain, bytes, tiles] = best;
    println!("{heading} {plain:.2} | {bytes:.3} | {:.3} | {tiles:.3} | {:.3} |", bytes / plain, tiles / plain);
}

/// Takes the steps again and again for one round.
fn batches_per_second<R: Calls>(make_reel: impl Fn() -> R, work: &Work) -> f64 {
    let mut spent = Duration::ZERO;
    let mut batches = 0;
    while spent < ROUND {
        let mut reel = make_reel();
        // A reel takes so many pictures and no more.
        for _ in 0..PICTURE_LIMIT as usize / work.openings() {
            work.before.iter().for_each(|step| take(&mut reel, step));
            let start = processor_time();
            for step in (0..work.repeats).flat_map(|_| &work.timed) {
                take(&mut reel, step);
            }
            spent += processor_time() - start;
            work.after.iter().for_each(|step| take(&mut reel, step));
            batches += work.repeats;
            if spent >= ROUND {
                break;
            }
        }
        check(reel.age(0, 0), ACCEPTED);
    }
    batches as f64 / spent.as_secs_f64()
}

fn take(reel: &mut impl Calls, step: &Step) {
    match step {
        Step::Open { kind, rounding } => check(reel.open(*kind, *rounding, 1), ACCEPTED),
        Step::Deliver(bytes) => check(reel.deliver(0, black_box(bytes)), ACCEPTED),
        Step::DeliverDamaged(bytes) => check(reel.deliver(0, black_box(bytes)), REFUSED),
        Step::Close => check(reel.close(), ACCEPTED),
    }
}

fn check(answer: Answer, outcome: u32) {
    assert_eq!(answer.outcome, outcome, "{answer:?}");
}

/// The time that this thread had a processor, which programs beside it do not lengthen by taking turns with it.
fn processor_time() -> Duration {
    #[repr(C)]
    struct Time {
        seconds: i64,
        nanoseconds: i64,
    }

    extern "C" {
        fn clock_gettime(clock: i32, time: *mut Time) -> i32;
    }

    /// Linux's number for the calling thread's processor time.
    const THREAD_PROCESSOR_TIME: i32 = 3;

    let mut time = Time { seconds: 0, nanoseconds: 0 };
    // SAFETY: the pointer is to a time laid out as the C library's.
    let result = unsafe { clock_gettime(THREAD_PROCESSOR_TIME, &mut time) };
    assert_eq!(result, 0, "the clock is Linux's");
    Duration::new(time.seconds as u64, time.nanoseconds as u32)
}
