//! How inputs are drawn for parameters of given shapes.

use crate::cases::{Random, MINUS_ZERO, NAN, ONE, PALETTE, PLUS_ZERO};
use crate::words::{Parameter, Shape};

const SIGN: u32 = 0x8000_0000;

/// Replaces `words` by the inputs of a case, drawn in one of several modes.
pub fn inputs(random: &mut Random, shapes: &[Shape], words: &mut Vec<u32>) {
    words.clear();
    let count: usize = shapes.iter().map(|shape| shape.count()).sum();
    match random.below(16) {
        0 => words.extend((0..count).map(|_| zero(random))),
        1 => words.extend((0..count).map(|_| pattern(random))),
        2 | 3 => words.extend((0..count).map(|_| random.word())),
        4..=7 => words.extend((0..count).map(|_| tame(random))),
        8..=11 => sound(random, shapes, words),
        _ => mixed(random, shapes, words),
    }
    if random.one_in(8) {
        repeat_word(random, words);
    }
}

/// A zero of either sign, mostly: comparisons take both for one.
fn zero(random: &mut Random) -> u32 {
    let words = [PLUS_ZERO, MINUS_ZERO, PLUS_ZERO, MINUS_ZERO, ONE, NAN];
    words[random.below(words.len() as u32) as usize]
}

/// One of the palette.
pub fn pattern(random: &mut Random) -> u32 {
    PALETTE[random.below(PALETTE.len() as u32) as usize]
}

/// A number of either sign and a size from 2^-12 to 2^12, so that most results are finite. One in
/// four has a short fraction: such numbers cancel and tie exactly now and then.
pub fn tame(random: &mut Random) -> u32 {
    let exponent = 127 - 12 + random.below(24);
    let word = random.word();
    let kept = if random.one_in(4) {
        0x0078_0000
    } else {
        0x007f_ffff
    };
    (word & SIGN) | (exponent << 23) | (word & kept)
}

/// Values such as the functions meet in use: scalars above zero, vectors with components of like
/// size, unit quaternions, and matrices such as those of inertias.
fn sound(random: &mut Random, shapes: &[Shape], words: &mut Vec<u32>) {
    for (i, shape) in shapes.iter().enumerate() {
        if i > 0 && shapes[0] == *shape && random.one_in(4) {
            repeat_value(random, shape.count(), words);
        } else {
            sound_value(random, *shape, words);
        }
    }
}

/// A value of the type, such as the functions meet in use.
pub fn sound_of<T: Parameter>(random: &mut Random) -> T {
    let mut words = Vec::new();
    sound_value(random, T::SHAPE, &mut words);
    T::read(&mut &words[..])
}

fn sound_value(random: &mut Random, shape: Shape, words: &mut Vec<u32>) {
    match shape {
        Shape::Scalar => words.push(tame(random) & !SIGN),
        Shape::Vec2 => vector::<2>(random, words),
        Shape::Vec3 => vector::<3>(random, words),
        Shape::Quat => quat(random, words),
        Shape::Matrix3 => matrix3(random, words),
        Shape::Mat2 => mat2(random, words),
    }
}

/// Each word drawn in a mode of its own.
fn mixed(random: &mut Random, shapes: &[Shape], words: &mut Vec<u32>) {
    sound(random, shapes, words);
    for word in words {
        match random.below(4) {
            0 => *word = pattern(random),
            1 => *word = random.word(),
            2 => *word = tame(random),
            _ => {}
        }
    }
}

/// Makes one word the same as another, its negative or a float next to it: comparisons and
/// differences decide there.
fn repeat_word(random: &mut Random, words: &mut [u32]) {
    let from = random.below(words.len() as u32) as usize;
    let to = random.below(words.len() as u32) as usize;
    words[to] = match random.below(4) {
        0 => words[from] ^ SIGN,
        1 => words[from].wrapping_add(1),
        2 => words[from].wrapping_sub(1),
        _ => words[from],
    };
}

/// Repeats the first value of `count` words, perhaps negated, perhaps with a changed last bit or
/// two in a word.
fn repeat_value(random: &mut Random, count: usize, words: &mut Vec<u32>) {
    let sign = if random.one_in(2) { SIGN } else { 0 };
    let changed = random.below(2 * count as u32) as usize;
    for i in 0..count {
        let change = if i == changed { random.below(4) } else { 0 };
        words.push(words[i] ^ sign ^ change);
    }
}

fn push(value: f64, words: &mut Vec<u32>) {
    words.push((value as f32).to_bits());
}

fn vector<const N: usize>(random: &mut Random, words: &mut Vec<u32>) {
    let size = random.power(-4, 5);
    for _ in 0..N {
        push(size * random.even(), words);
    }
}

/// A rotation: any, or with a small `v` one near to none, or with a small `s` near to a half turn.
fn unit_quat(random: &mut Random) -> [f64; 4] {
    let mut q = [random.even(), random.even(), random.even(), random.even()];
    let shrink = random.power(-16, 0);
    match random.below(4) {
        0 => q[..3].iter_mut().for_each(|x| *x *= shrink),
        1 => q[3] *= shrink,
        _ => {}
    }
    let length = q.iter().fold(0.0, |sum, x| sum + x * x).sqrt();
    if length > 0.0 {
        q.map(|x| x / length)
    } else {
        [0.0, 0.0, 0.0, 1.0]
    }
}

fn quat(random: &mut Random, words: &mut Vec<u32>) {
    for x in unit_quat(random) {
        push(x, words);
    }
}

/// The three principal values and the rotation of an inertia. One in eight has a value of zero, and
/// one in eight is so small that the determinant falls around the threshold.
fn matrix3(random: &mut Random, words: &mut Vec<u32>) {
    let mut values = [0; 3].map(|_| random.power(-6, 7) * (1.5 + 0.5 * random.even()));
    match random.below(8) {
        0 => values[random.below(3) as usize] = 0.0,
        1 => values = [0; 3].map(|_| random.power(-40, -38) * (1.5 + 0.5 * random.even())),
        _ => {}
    }
    let axes = rotation(unit_quat(random));
    for column in 0..3 {
        for row in 0..3 {
            // The smaller index first, so that the matrix is symmetric to the bit.
            let (i, j) = (row.min(column), row.max(column));
            let [a, b, c] = [0, 1, 2].map(|k| values[k] * axes[k][i] * axes[k][j]);
            push(a + b + c, words);
        }
    }
}

fn rotation([x, y, z, s]: [f64; 4]) -> [[f64; 3]; 3] {
    [
        [
            1.0 - 2.0 * (y * y + z * z),
            2.0 * (x * y + z * s),
            2.0 * (x * z - y * s),
        ],
        [
            2.0 * (x * y - z * s),
            1.0 - 2.0 * (x * x + z * z),
            2.0 * (y * z + x * s),
        ],
        [
            2.0 * (x * z + y * s),
            2.0 * (y * z - x * s),
            1.0 - 2.0 * (x * x + y * y),
        ],
    ]
}

/// A symmetric matrix, positive definite but for rounding. One in eight is so small that the
/// determinant falls around the threshold.
fn mat2(random: &mut Random, words: &mut Vec<u32>) {
    let (low, high) = if random.one_in(8) {
        (-60, -57)
    } else {
        (-6, 7)
    };
    let mut side = || random.power(low, high) * (1.5 + 0.5 * random.even());
    let (xx, yy) = (side(), side());
    let xy = random.even() * (xx * yy).sqrt();
    for value in [xx, xy, xy, yy] {
        push(value, words);
    }
}
