//! Stands for id.rs: the ids that signatures and records name.

#[derive(Debug, Clone, Copy, PartialEq)]
pub struct BodyId {
    pub index1: i32,
    pub generation: u16,
}

#[derive(Debug, Clone, Copy, PartialEq)]
pub struct JointId;

#[derive(Debug, Clone, Copy, PartialEq)]
pub struct ShapeId;

pub const NULL_SHAPE_ID: ShapeId = ShapeId;
