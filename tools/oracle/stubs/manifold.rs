//! Stands for manifold.rs: the features that math_functions/internal.rs names.

#[derive(Debug, Clone, Copy, PartialEq)]
pub enum TriangleFeature {
    Vertex1,
    Vertex2,
    Vertex3,
    Edge1,
    Edge2,
    Edge3,
    TriangleFace,
}
