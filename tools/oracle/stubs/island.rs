//! Stands for island.rs: the records that solver_set.rs moves between sets.

#[derive(Debug, Clone, Copy)]
pub struct IslandSim {
    pub island_id: i32,
}

pub struct Island {
    pub set_index: i32,
    pub local_index: i32,
    pub constraint_remove_count: i32,
    pub bodies: Vec<i32>,
    pub contacts: Vec<ContactLink>,
    pub joints: Vec<JointLink>,
}

pub struct ContactLink {
    pub contact_id: i32,
}

pub struct JointLink {
    pub joint_id: i32,
}
