//! Stands for constraint_graph.rs: the colors that solver_set.rs moves contacts and joints out of.

use crate::joint::JointSim;
use crate::world::World;

pub const OVERFLOW_INDEX: i32 = 0;

#[derive(Default)]
pub struct ConstraintGraph {
    pub colors: Vec<GraphColor>,
}

pub struct GraphColor {
    pub body_set: BodySet,
    pub contacts: Vec<ContactSpec>,
    pub convex_contacts: Vec<i32>,
    pub joint_sims: Vec<JointSim>,
}

pub struct ContactSpec {
    pub contact_id: i32,
}

pub struct BodySet;

impl BodySet {
    pub fn clear_bit(&mut self, _: u32) {
        unimplemented!()
    }
}

pub fn add_contact_to_graph(_: &mut World, _: i32) {
    unimplemented!()
}

pub fn add_joint_to_graph(_: &mut World, _: JointSim, _: i32) {
    unimplemented!()
}

pub fn remove_joint_from_graph(_: &mut World, _: i32, _: i32, _: i32, _: i32) {
    unimplemented!()
}
