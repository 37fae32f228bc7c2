//! Stands for world/mod.rs, which needs most of the engine: `bodies`, `solver_sets` and `inv_h` are
//! what the joints read, the other fields and the method are what solver_set.rs names.

use crate::body::Body;
use crate::constraint_graph::ConstraintGraph;
use crate::contact::Contact;
use crate::id::BodyId;
use crate::island::Island;
use crate::joint::Joint;
use crate::solver_set::SolverSet;

#[derive(Default)]
pub struct World {
    pub bodies: Vec<Body>,
    pub solver_sets: Vec<SolverSet>,
    pub inv_h: f32,
    pub solver_set_id_pool: IdPool,
    pub constraint_graph: ConstraintGraph,
    pub joints: Vec<Joint>,
    pub contacts: Vec<Contact>,
    pub islands: Vec<Island>,
    pub body_move_events: Vec<BodyMoveEvent>,
    pub split_island_id: i32,
}

impl World {
    pub fn validate_solver_sets(&self) {
        unimplemented!()
    }
}

#[derive(Default)]
pub struct IdPool;

impl IdPool {
    pub fn alloc_id(&mut self) -> i32 {
        unimplemented!()
    }

    pub fn free_id(&mut self, _: i32) {
        unimplemented!()
    }
}

pub struct BodyMoveEvent {
    pub body_id: BodyId,
    pub fell_asleep: bool,
}
