//! Stands for contact.rs: the contacts that solver_set.rs moves between sets.

pub mod contact_flags {
    pub const TOUCHING: u32 = 0;
    pub const SIM_TOUCHING: u32 = 0;
    pub const SIM_MESH_CONTACT: u32 = 0;
}

pub struct ContactEdge {
    pub body_id: i32,
    pub next_key: i32,
}

pub struct Contact {
    pub set_index: i32,
    pub local_index: i32,
    pub color_index: i32,
    pub island_id: i32,
    pub island_index: i32,
    pub flags: u32,
    pub edges: [ContactEdge; 2],
}

impl Contact {
    pub fn manifold_count(&self) -> usize {
        unimplemented!()
    }
}
