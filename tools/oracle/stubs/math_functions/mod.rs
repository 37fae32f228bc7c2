//! Stands for math_functions/mod.rs: the published parts, and the validity tests of a part that is
//! named in debug assertions only.

mod internal;
mod quat;
mod scalar;
mod transform;
mod types;
mod vector;

// Included, not declared: `det2` is private to this file, and `call_det2` reaches it from within.
mod matrix {
    include!("matrix.rs");

    pub fn call_det2(m: Mat2) -> f32 {
        det2(m)
    }
}

pub use internal::*;
pub use matrix::*;
pub use quat::*;
pub use scalar::*;
pub use transform::*;
pub use types::*;
pub use vector::*;

pub fn is_valid_float(_: f32) -> bool {
    unimplemented!()
}

pub fn is_valid_vec3(_: Vec3) -> bool {
    unimplemented!()
}

pub fn is_valid_quat(_: Quat) -> bool {
    unimplemented!()
}
