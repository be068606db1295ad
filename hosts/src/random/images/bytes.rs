//! Damage to an image's bytes, above all to its contents, and contents with other bodies than they tell of.

use super::super::Random;

/// Damage that leaves the length as it is.
const IN_PLACE: [fn(&mut Random, &mut [u8]); 8] = [
    flip_anywhere,
    flip_in_contents,
    contents_off_by_one,
    contents_huge,
    length_off_by_one,
    sums_that_wrap,
    sums_that_wrap_back,
    bytes_of_words_reversed,
];

const OF_LENGTH: [fn(&mut Random, &mut Vec<u8>); 6] = [
    cut_anywhere,
    append,
    cut_a_little,
    cut_into_contents,
    odd_marks,
    gap_before_a_body,
];

/// The words of the contents that hold lengths: of heap, roots, marks and order.
const LENGTHS: [usize; 4] = [3, 5, 7, 9];

/// Damage of one sort. Bytes without whole contents, left by damage before this, are only cut or longer.
pub fn damage(random: &mut Random, bytes: &mut Vec<u8>) {
    if bytes.len() < 40 {
        random.pick(&OF_LENGTH[..2])(random, bytes);
    } else if random.percent(55) {
        random.pick(&IN_PLACE)(random, bytes);
    } else {
        random.pick(&OF_LENGTH)(random, bytes);
    }
}

fn word(bytes: &[u8], number: usize) -> u32 {
    let at = 4 * number;
    u32::from_le_bytes([bytes[at], bytes[at + 1], bytes[at + 2], bytes[at + 3]])
}

fn set_word(bytes: &mut [u8], number: usize, word: u32) {
    bytes[4 * number..4 * number + 4].copy_from_slice(&word.to_le_bytes());
}

/// Each start from the one before it, wrapping, so that only a sum or a length is wrong.
fn set_starts(bytes: &mut [u8]) {
    for length in [3, 5, 7] {
        let end = word(bytes, length - 1).wrapping_add(word(bytes, length));
        set_word(bytes, length + 1, end);
    }
}

fn flip_anywhere(random: &mut Random, bytes: &mut [u8]) {
    let at = random.below(bytes.len());
    bytes[at] ^= 1 << random.below(8);
}

fn flip_in_contents(random: &mut Random, bytes: &mut [u8]) {
    bytes[random.below(40)] ^= 1 << random.below(8);
}

fn cut_anywhere(random: &mut Random, bytes: &mut Vec<u8>) {
    bytes.truncate(random.between(0, bytes.len()));
}

/// By less than a word, by a word, or by a little more.
fn cut_a_little(random: &mut Random, bytes: &mut Vec<u8>) {
    bytes.truncate(bytes.len() - random.between(1, 9));
}

fn cut_into_contents(random: &mut Random, bytes: &mut Vec<u8>) {
    bytes.truncate(random.between(0, 41));
}

fn append(random: &mut Random, bytes: &mut Vec<u8>) {
    let filler = random.pick(&[0, 1, 255]);
    let more = random.pick(&[1, 2, 3, 4, 4, 5, 8, 40]);
    bytes.resize(bytes.len() + more, filler);
}

fn contents_off_by_one(random: &mut Random, bytes: &mut [u8]) {
    let number = random.below(10);
    let old = word(bytes, number);
    let new = random.pick(&[old.wrapping_add(1), old.wrapping_sub(1)]);
    set_word(bytes, number, new);
}

/// Any huge word, or one that agrees with the right one but for a high bit.
fn contents_huge(random: &mut Random, bytes: &mut [u8]) {
    let number = random.below(10);
    let old = word(bytes, number);
    let new = random.pick(&[
        u32::MAX,
        u32::MAX - 9,
        1 << 31,
        1 << 30,
        old.wrapping_add(1 << 31),
        old.wrapping_add(1 << 30),
        old.wrapping_add(1 << 16),
    ]);
    set_word(bytes, number, new);
}

/// The contents stay of the right shape, but for an odd length of marks; the bodies no longer fit.
fn length_off_by_one(random: &mut Random, bytes: &mut [u8]) {
    let number = random.pick(&LENGTHS);
    let old = word(bytes, number);
    let new = random.pick(&[old.wrapping_add(1), old.saturating_sub(1), old.wrapping_add(2)]);
    set_word(bytes, number, new);
    set_starts(bytes);
}

/// A body so long that the next one starts below it again.
fn sums_that_wrap(random: &mut Random, bytes: &mut [u8]) {
    let number = random.pick(&LENGTHS);
    let start = word(bytes, number - 1);
    let until_wrap = start.wrapping_neg();
    let lengths = [
        u32::MAX,
        u32::MAX - 1,
        until_wrap,
        until_wrap.wrapping_sub(1),
        until_wrap.wrapping_add(10),
    ];
    let length = random.pick(&lengths);
    set_word(bytes, number, length);
    set_starts(bytes);
}

/// Two bodies that together are 2^32 words too long: from there on all starts are the right ones.
fn sums_that_wrap_back(random: &mut Random, bytes: &mut [u8]) {
    let one = random.pick(&[3, 5]);
    let other = random.pick(&[5, 7]);
    let more = random.pick(&[1 << 31, 2, 1 << 16, u32::MAX - 1]);
    let longer = word(bytes, one).wrapping_add(more);
    set_word(bytes, one, longer);
    let shorter = word(bytes, other).wrapping_sub(more);
    set_word(bytes, other, shorter);
    set_starts(bytes);
}

/// Nothing else of the shape is wrong, and often there is a word for it.
fn odd_marks(random: &mut Random, bytes: &mut Vec<u8>) {
    let odd = word(bytes, 7).wrapping_add(1);
    set_word(bytes, 7, odd);
    set_starts(bytes);
    if random.percent(70) {
        bytes.extend([0; 4]);
    }
}

/// A word that belongs to nothing, and starts that leave it out.
fn gap_before_a_body(random: &mut Random, bytes: &mut Vec<u8>) {
    let first = random.pick(&[2, 4, 6, 8]);
    for number in (first..10).step_by(2) {
        let start = word(bytes, number).wrapping_add(1);
        set_word(bytes, number, start);
    }
    bytes.extend([0; 4]);
}

fn bytes_of_words_reversed(_: &mut Random, bytes: &mut [u8]) {
    bytes.chunks_exact_mut(4).for_each(|word| word.reverse());
}

/// Contents with lengths at the limits and beyond, and with no bodies, the right ones or almost.
pub fn contents_alone(random: &mut Random) -> Vec<u8> {
    let mut bytes = any_contents(random);
    let words: u64 = LENGTHS
        .iter()
        .map(|&number| u64::from(word(&bytes, number)))
        .sum();
    if words < 9000 && random.percent(60) {
        bytes.resize(40 + 4 * words as usize, 0);
        if random.percent(30) {
            damage(random, &mut bytes);
        }
    }
    bytes
}

fn any_contents(random: &mut Random) -> Vec<u8> {
    const HEAPS: [u32; 12] = [
        0,
        1,
        63,
        64,
        65,
        128,
        8191,
        8192,
        8193,
        1 << 30,
        1 << 31,
        u32::MAX,
    ];
    let heap = random.pick(&HEAPS);
    let top = random.pick(&[0, heap / 2, heap, heap, heap.wrapping_add(1), u32::MAX]);
    let roots = random.pick(&[0, 0, 1, 64, 64, 65, 1 << 31, u32::MAX - 9]);
    let needed = 2 * heap.div_ceil(64);
    let marks = match random.below(10) {
        0..=6 => needed,
        7 => needed + random.pick(&[1, 2]),
        8 => needed.saturating_sub(random.pick(&[1, 2])),
        _ => random.pick(&[u32::MAX, u32::MAX - 1, 1 << 31]),
    };
    let order = random.pick(&[0, 0, 1, 127, 128, 129, u32::MAX]);
    let mut bytes = vec![0; 40];
    let words = [
        (0, 1),
        (1, top),
        (2, 10),
        (3, heap),
        (5, roots),
        (7, marks),
        (9, order),
    ];
    for (number, word) in words {
        set_word(&mut bytes, number, word);
    }
    set_starts(&mut bytes);
    bytes
}
