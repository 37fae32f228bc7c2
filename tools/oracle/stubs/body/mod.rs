//! Stands for body/mod.rs: the published types, and the lookup that the joints' accessors name.

mod types;

pub use types::*;

use crate::math_functions::WorldTransform;
use crate::world::World;

pub fn get_body_transform(_: &World, _: i32) -> WorldTransform {
    unimplemented!()
}
