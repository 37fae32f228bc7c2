//! Values as the words of a case: floats by their bit patterns, fields in the order of the Rust.

use crate::math_functions::{Mat2, Matrix3, Quat, Vec2, Vec3};
use crate::solver::Softness;

/// A value that is a fixed number of words.
pub trait Words: Sized {
    const COUNT: usize;

    /// Takes the value off the front of `from`.
    fn read(from: &mut &[u32]) -> Self;

    /// Appends the value to `to`.
    fn write(&self, to: &mut Vec<u32>);

    /// Shows each float of the value to `visit`.
    fn visit_floats(&mut self, visit: &mut dyn FnMut(&mut f32));
}

/// The bits of a float, of every NaN the same.
pub fn bits(x: f32) -> u32 {
    if x.is_nan() {
        f32::NAN.to_bits()
    } else {
        x.to_bits()
    }
}

impl Words for f32 {
    const COUNT: usize = 1;

    fn read(from: &mut &[u32]) -> f32 {
        f32::from_bits(u32::read(from))
    }

    fn write(&self, to: &mut Vec<u32>) {
        to.push(self.to_bits());
    }

    fn visit_floats(&mut self, visit: &mut dyn FnMut(&mut f32)) {
        visit(self);
    }
}

impl Words for u32 {
    const COUNT: usize = 1;

    fn read(from: &mut &[u32]) -> u32 {
        let (first, rest) = from.split_first().expect("too few words");
        *from = rest;
        *first
    }

    fn write(&self, to: &mut Vec<u32>) {
        to.push(*self);
    }

    fn visit_floats(&mut self, _: &mut dyn FnMut(&mut f32)) {}
}

impl Words for i32 {
    const COUNT: usize = 1;

    fn read(from: &mut &[u32]) -> i32 {
        u32::read(from) as i32
    }

    fn write(&self, to: &mut Vec<u32>) {
        to.push(*self as u32);
    }

    fn visit_floats(&mut self, _: &mut dyn FnMut(&mut f32)) {}
}

impl Words for bool {
    const COUNT: usize = 1;

    fn read(from: &mut &[u32]) -> bool {
        match u32::read(from) {
            0 => false,
            1 => true,
            _ => panic!("the word is no switch"),
        }
    }

    fn write(&self, to: &mut Vec<u32>) {
        to.push(u32::from(*self));
    }

    fn visit_floats(&mut self, _: &mut dyn FnMut(&mut f32)) {}
}

/// Takes `count` values off the front of `from`.
pub fn read_all<T: Words>(count: u32, from: &mut &[u32]) -> Vec<T> {
    (0..count).map(|_| T::read(from)).collect()
}

/// Appends the values to `to`.
pub fn write_all(values: &[impl Words], to: &mut Vec<u32>) {
    values.iter().for_each(|value| value.write(to));
}

/// Makes a struct the words of its fields, in the order given. Fields that are left out are read
/// from the rest, if one is given, and not written.
macro_rules! record {
    ($name:ident { $($field:ident: $type:ty),+ $(, ..$rest:expr)? }) => {
        impl Words for $name {
            const COUNT: usize = 0 $(+ <$type as Words>::COUNT)+;

            fn read(from: &mut &[u32]) -> $name {
                $name { $($field: <$type as Words>::read(from)),+ $(, ..$rest)? }
            }

            fn write(&self, to: &mut Vec<u32>) {
                $(self.$field.write(to);)+
            }

            fn visit_floats(&mut self, visit: &mut dyn FnMut(&mut f32)) {
                $(self.$field.visit_floats(visit);)+
            }
        }
    };
}
pub(crate) use record;

record!(Vec2 { x: f32, y: f32 });
record!(Vec3 {
    x: f32,
    y: f32,
    z: f32
});
record!(Quat { v: Vec3, s: f32 });
record!(Matrix3 {
    cx: Vec3,
    cy: Vec3,
    cz: Vec3
});
record!(Mat2 { cx: Vec2, cy: Vec2 });
record!(Softness {
    bias_rate: f32,
    mass_scale: f32,
    impulse_scale: f32
});

/// What a parameter is, for those who draw values for it.
#[derive(Clone, Copy, PartialEq)]
pub enum Shape {
    Scalar,
    Vec2,
    Vec3,
    Quat,
    Matrix3,
    Mat2,
}

/// A type that functions take as a parameter.
pub trait Parameter: Words {
    const SHAPE: Shape;
}

impl Parameter for f32 {
    const SHAPE: Shape = Shape::Scalar;
}

impl Parameter for Vec2 {
    const SHAPE: Shape = Shape::Vec2;
}

impl Parameter for Vec3 {
    const SHAPE: Shape = Shape::Vec3;
}

impl Parameter for Quat {
    const SHAPE: Shape = Shape::Quat;
}

impl Parameter for Matrix3 {
    const SHAPE: Shape = Shape::Matrix3;
}

impl Parameter for Mat2 {
    const SHAPE: Shape = Shape::Mat2;
}

impl Shape {
    /// The number of words of the parameter.
    pub const fn count(self) -> usize {
        match self {
            Shape::Scalar => f32::COUNT,
            Shape::Vec2 => Vec2::COUNT,
            Shape::Vec3 => Vec3::COUNT,
            Shape::Quat => Quat::COUNT,
            Shape::Matrix3 => Matrix3::COUNT,
            Shape::Mat2 => Mat2::COUNT,
        }
    }
}
