//! Damages deliveries: as a channel does, and at exactly one field.

use crate::random::Random;
use crate::records::PictureKind;
use crate::writer::to_bytes;

const HEAD: u32 = 1;
const VECTOR: u32 = 2;
const DC: u32 = 3;
const COEFFICIENT: u32 = 4;

const BLOCK_BITS: u32 = 7 << 25;
const LAST_BIT: u32 = 1 << 18;

/// Damages a valid delivery, in most cases so that it is refused.
pub fn damage(random: &mut Random, kind: PictureKind, words: &[u32]) -> Vec<u8> {
    let mut words = words.to_vec();
    match random.below(20) {
        0 => flip_bits(random, &mut words, 1),
        1 => {
            let bits = random.between(2, 6);
            flip_bits(random, &mut words, bits);
        }
        2 => drop_word(random, &mut words),
        3 => double_word(random, &mut words),
        4 => swap_words(random, &mut words),
        5 => return cut(random, &words),
        6 => return add_bytes(random, &words),
        7 => add_words(random, &mut words),
        8 => change(random, &mut words, &[HEAD, VECTOR, DC, COEFFICIENT], |random, word| word & !(15 << 28) | (random.below(16) as u32) << 28),
        9 => change(random, &mut words, &[HEAD, VECTOR, DC, COEFFICIENT], set_unnamed_bit),
        10 => change(random, &mut words, &[DC, COEFFICIENT], |random, word| word & !BLOCK_BITS | (random.below(8) as u32) << 25),
        11 | 12 => change(random, &mut words, &[HEAD], |random, word| forbid_head(random, kind, word)),
        13 => change(random, &mut words, &[DC], |random, word| word & !255 | random.pick(&[0, 128])),
        14 => change(random, &mut words, &[COEFFICIENT], |random, word| word & !255 | random.pick(&[0, 128])),
        15 => change(random, &mut words, &[COEFFICIENT], |random, word| word | (random.pick(&[63, 63, 62, 48, 32]) << 19)),
        16 => change(random, &mut words, &[COEFFICIENT], |_, word| word ^ LAST_BIT),
        17 => {
            if let Some(word) = words.last_mut() {
                *word ^= 1 << random.below(32);
            }
        }
        18 => words = draw_words(random),
        _ => words.clear(),
    }
    to_bytes(&words)
}

fn flip_bits(random: &mut Random, words: &mut [u32], bits: i32) {
    if words.is_empty() {
        return;
    }
    for _ in 0..bits {
        words[random.below(words.len())] ^= 1 << random.below(32);
    }
}

fn drop_word(random: &mut Random, words: &mut Vec<u32>) {
    if !words.is_empty() {
        words.remove(random.below(words.len()));
    }
}

fn double_word(random: &mut Random, words: &mut Vec<u32>) {
    if !words.is_empty() {
        let index = random.below(words.len());
        words.insert(index, words[index]);
    }
}

fn swap_words(random: &mut Random, words: &mut [u32]) {
    if words.len() < 2 {
        return;
    }
    let one = random.below(words.len() - 1);
    let other = if random.percent(50) { one + 1 } else { random.below(words.len()) };
    words.swap(one, other);
}

/// Cuts the bytes anywhere.
fn cut(random: &mut Random, words: &[u32]) -> Vec<u8> {
    let mut bytes = to_bytes(words);
    let whole_words = random.percent(50);
    let length = random.below(bytes.len() + 1);
    bytes.truncate(if whole_words { length / 4 * 4 } else { length });
    bytes
}

fn add_bytes(random: &mut Random, words: &[u32]) -> Vec<u8> {
    let mut bytes = to_bytes(words);
    for _ in 0..random.between(1, 7) {
        bytes.push(random.draw() as u8);
    }
    bytes
}

fn add_words(random: &mut Random, words: &mut Vec<u32>) {
    for _ in 0..random.between(1, 3) {
        let anything = random.draw() as u32;
        words.push(random.pick(&[HEAD << 28, HEAD << 28 | 2 << 26 | 1 << 21, 0, anything]));
    }
}

/// Changes one word of one of these kinds, or any word where there is none of them.
fn change(random: &mut Random, words: &mut [u32], kinds: &[u32], change: impl FnOnce(&mut Random, u32) -> u32) {
    let places: Vec<usize> = (0..words.len()).filter(|&index| kinds.contains(&(words[index] >> 28))).collect();
    if places.is_empty() {
        return flip_bits(random, words, 1);
    }
    let place = places[random.below(places.len())];
    words[place] = change(random, words[place]);
}

fn set_unnamed_bit(random: &mut Random, word: u32) -> u32 {
    let bit = match word >> 28 {
        HEAD => random.between(0, 14),
        VECTOR => random.between(12, 27),
        DC => random.between(8, 24),
        _ => random.between(8, 17),
    };
    word | 1 << bit
}

fn forbid_head(random: &mut Random, kind: PictureKind, word: u32) -> u32 {
    const TYPE: u32 = 3 << 26;
    const QUANTIZER: u32 = 31 << 21;
    const PATTERN: u32 = 63 << 15;
    let is_skipped = word & TYPE == 0;
    match random.below(4) {
        0 => word | TYPE,
        1 if kind == PictureKind::Intra => word & !TYPE | random.pick(&[0, 1 << 26]),
        2 if kind == PictureKind::Intra => word & !(TYPE | QUANTIZER | PATTERN),
        _ if is_skipped && random.percent(50) => word | (random.between(1, 31) as u32) << 21,
        _ if is_skipped => word | (random.between(1, 63) as u32) << 15,
        _ => word & !QUANTIZER,
    }
}

/// Words of the right kinds in a random order, with random fields.
fn draw_words(random: &mut Random) -> Vec<u32> {
    let count = random.below(60);
    (0..count)
        .map(|_| {
            let kind = random.pick(&[HEAD, HEAD, VECTOR, DC, COEFFICIENT, COEFFICIENT]);
            let named = [0x0fff_8000, 0x0000_0fff, 0x0e00_00ff, 0x0ffc_00ff][kind as usize - 1];
            kind << 28 | random.draw() as u32 & named
        })
        .collect()
}
