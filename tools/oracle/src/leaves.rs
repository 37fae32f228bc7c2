//! Cases for the functions that call no joint: scalars, vectors, quaternions, matrices, softness.

use crate::cases::{List, Random, Step, PALETTE};
use crate::draw;
use crate::edges;
use crate::marks::{invert_matrix, solve2, solve3, Marked};
use crate::math_functions::call_det2 as det2;
use crate::math_functions::*;
use crate::solver::{make_soft, Softness};
use crate::words::{Parameter, Shape, Words};

/// Which combinations of the palette the fixed part has.
#[derive(Clone, Copy, PartialEq)]
enum Combinations {
    /// Every combination.
    All,
    /// For three words: any two of them meet in every combination.
    Pairs,
    /// Every word takes each pattern once, for functions that treat each word on its own.
    Once,
    /// None of them: the words are too many, seeded cases have to do.
    Drawn,
    /// None either, and one seeded case in eight has a determinant at the threshold.
    Aimed,
}
use Combinations::*;

/// A function under test.
pub struct Leaf {
    number: u32,
    name: &'static str,
    parameters: &'static [Shape],
    combinations: Combinations,
    /// How many of the seeded cases it gets in each round.
    turns: u32,
    /// Appends the words of the answer.
    call: fn(&[u32], &mut Vec<u32>),
}

macro_rules! leaf {
    ($number:literal $name:ident($($input:ty),+) -> $output:ty, $combinations:ident, $turns:literal) => {
        Leaf {
            number: $number,
            name: stringify!($name),
            parameters: &[$(<$input as Parameter>::SHAPE),+],
            combinations: $combinations,
            turns: $turns,
            // Arguments are evaluated from left to right, so each takes its own words.
            call: |mut inputs, answer| {
                let output: $output = $name($(<$input as Words>::read(&mut inputs)),+);
                output.write(answer);
            },
        }
    };
}

/// The functions: number, name, types, combinations of the palette, turns. Those that may fall back to
/// zeros are those of `marks`.
const LEAVES: &[Leaf] = &[
    leaf!(0x10 abs_float(f32) -> f32, All, 1),
    leaf!(0x11 min_float(f32, f32) -> f32, All, 1),
    leaf!(0x12 max_float(f32, f32) -> f32, All, 2),
    leaf!(0x13 clamp_float(f32, f32, f32) -> f32, All, 2),
    leaf!(0x14 atan2(f32, f32) -> f32, All, 4),
    leaf!(0x15 sqrt(f32) -> f32, All, 4),
    leaf!(0x20 add(Vec3, Vec3) -> Vec3, Drawn, 2),
    leaf!(0x21 sub(Vec3, Vec3) -> Vec3, Drawn, 2),
    leaf!(0x22 neg(Vec3) -> Vec3, Once, 1),
    leaf!(0x23 dot(Vec3, Vec3) -> f32, Drawn, 3),
    leaf!(0x24 length(Vec3) -> f32, Pairs, 2),
    leaf!(0x25 normalize(Vec3) -> Vec3, Pairs, 3),
    leaf!(0x26 mul_add(Vec3, f32, Vec3) -> Vec3, Drawn, 3),
    leaf!(0x27 mul_sub(Vec3, f32, Vec3) -> Vec3, Drawn, 3),
    leaf!(0x28 mul_sv(f32, Vec3) -> Vec3, Drawn, 2),
    leaf!(0x29 cross(Vec3, Vec3) -> Vec3, Drawn, 3),
    leaf!(0x30 add2(Vec2, Vec2) -> Vec2, Drawn, 2),
    leaf!(0x31 sub2(Vec2, Vec2) -> Vec2, Drawn, 2),
    leaf!(0x32 mul_sv2(f32, Vec2) -> Vec2, Pairs, 2),
    leaf!(0x40 rotate_vector(Quat, Vec3) -> Vec3, Drawn, 3),
    leaf!(0x41 dot_quat(Quat, Quat) -> f32, Drawn, 3),
    leaf!(0x42 mul_quat(Quat, Quat) -> Quat, Drawn, 3),
    leaf!(0x43 inv_mul_quat(Quat, Quat) -> Quat, Drawn, 3),
    leaf!(0x44 conjugate(Quat) -> Quat, Drawn, 1),
    leaf!(0x45 negate_quat(Quat) -> Quat, Drawn, 1),
    leaf!(0x46 get_twist_angle(Quat) -> f32, Drawn, 4),
    leaf!(0x47 delta_quat_to_rotation(Quat, Quat) -> Vec3, Drawn, 4),
    leaf!(0x48 get_swing_angle(Quat) -> f32, Drawn, 4),
    leaf!(0x50 det(Matrix3) -> f32, Aimed, 3),
    leaf!(0x51 mul_mv(Matrix3, Vec3) -> Vec3, Drawn, 3),
    leaf!(0x52 negate_mat3(Matrix3) -> Matrix3, Drawn, 1),
    leaf!(0x53 add_mm(Matrix3, Matrix3) -> Matrix3, Drawn, 1),
    leaf!(0x54 mul_mm(Matrix3, Matrix3) -> Matrix3, Drawn, 2),
    leaf!(0x56 invert_matrix(Matrix3) -> Marked<Matrix3>, Aimed, 4),
    leaf!(0x57 solve3(Matrix3, Vec3) -> Marked<Vec3>, Aimed, 4),
    leaf!(0x58 det2(Mat2) -> f32, Aimed, 2),
    leaf!(0x59 solve2(Mat2, Vec2) -> Marked<Vec2>, Aimed, 4),
    leaf!(0x5a skew(Vec3) -> Matrix3, Once, 1),
    leaf!(0x60 sub_pos(Pos, Pos) -> Vec3, Drawn, 2),
    leaf!(0x70 make_soft(f32, f32, f32) -> Softness, All, 3),
];

fn sqrt(a: f32) -> f32 {
    a.sqrt()
}

impl Leaf {
    /// The function of a name.
    pub fn named(name: &str) -> &'static Leaf {
        let found = LEAVES.iter().find(|leaf| leaf.name == name);
        found.expect("no function of that name")
    }

    /// Asks the Rust and writes the case.
    pub fn case(&self, inputs: &[u32], list: &mut List) -> Step {
        let mut answer = Vec::new();
        self.case_with(inputs, &mut answer, list)
    }

    /// As `case`, with room for the answer that is used again and again.
    fn case_with(&self, inputs: &[u32], answer: &mut Vec<u32>, list: &mut List) -> Step {
        answer.clear();
        (self.call)(inputs, answer);
        list.case(self.number, inputs, answer)
    }

    fn count(&self) -> usize {
        self.parameters.iter().map(|shape| shape.count()).sum()
    }

    /// The combinations of the palette.
    fn palette(&self, list: &mut List) -> Step {
        let words = |indices: &[usize]| -> Vec<u32> {
            let indices = indices.iter().take(self.count());
            indices.map(|i| PALETTE[i % PALETTE.len()]).collect()
        };
        let size = PALETTE.len();
        match self.combinations {
            All => {
                for i in 0..size.pow(self.count() as u32) {
                    self.case(&words(&[i, i / size, i / size / size]), list)?;
                }
            }
            Pairs => {
                for i in 0..size {
                    self.case(&words(&[i, i, i]), list)?;
                }
                // Odd factors make each word a permutation of the palette while another stands.
                for i in 0..size * size {
                    let (first, second) = (i, i / size);
                    let third = 3 * first + 5 * second + 1;
                    self.case(&words(&[first, second, third]), list)?;
                }
            }
            Once => {
                for i in 0..size {
                    self.case(&words(&[i, i + 5, i + 10]), list)?;
                }
            }
            Drawn | Aimed => {}
        }
        Ok(())
    }
}

/// What the leaf of a number answers to the inputs that it takes off the front of `from`.
pub fn again(number: u32, from: &mut &[u32]) -> Option<Vec<u32>> {
    let leaf = LEAVES.iter().find(|leaf| leaf.number == number)?;
    let (inputs, rest) = from.split_at(leaf.count());
    *from = rest;
    let mut answer = Vec::new();
    (leaf.call)(inputs, &mut answer);
    Some(answer)
}

/// Writes the leaf cases of a seed: a fixed part that is the same for all seeds, then seeded cases
/// without end.
pub fn write(seed: u64, list: &mut List) -> Step {
    for leaf in LEAVES {
        leaf.palette(list)?;
    }
    edges::write(list)?;
    seeded(&mut Random::new(seed, 0), list)
}

fn seeded(random: &mut Random, list: &mut List) -> Step {
    let mut inputs = Vec::new();
    let mut answer = Vec::new();
    loop {
        for leaf in LEAVES {
            for _ in 0..leaf.turns {
                draw::inputs(random, leaf.parameters, &mut inputs);
                if leaf.combinations == Aimed && random.one_in(8) {
                    edges::aim(random, leaf.parameters[0], &mut inputs);
                }
                leaf.case_with(&inputs, &mut answer, list)?;
            }
        }
    }
}

/// Writes a case of the square root for each pattern, in order.
pub fn write_all_roots(list: &mut List) -> Step {
    let leaf = Leaf::named("sqrt");
    for word in 0..=u32::MAX {
        list.case(
            leaf.number,
            &[word],
            &[sqrt(f32::from_bits(word)).to_bits()],
        )?;
    }
    Ok(())
}
