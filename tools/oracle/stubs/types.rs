//! Stands for types.rs: the kinds of bodies.

#[derive(Debug, Clone, Copy, PartialEq, Eq)]
pub enum BodyType {
    Static,
}
