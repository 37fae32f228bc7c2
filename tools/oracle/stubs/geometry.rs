//! Stands for geometry.rs: a record that body/types.rs holds.

#[derive(Debug, Clone, Copy, PartialEq, Default)]
pub struct PlaneResult;
