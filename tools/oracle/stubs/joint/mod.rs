//! Stands for joint/mod.rs: the published types and the three kinds, and the lookups that the
//! joints' accessors name.

pub mod revolute;
pub mod spherical;
mod types;
pub mod weld;

pub use types::*;

use crate::id::JointId;
use crate::world::World;

pub fn get_joint_sim_check_type(_: &mut World, _: JointId, _: JointType) -> &mut JointSim {
    unimplemented!()
}

pub fn get_joint_sim_check_type_ref(_: &World, _: JointId, _: JointType) -> &JointSim {
    unimplemented!()
}
