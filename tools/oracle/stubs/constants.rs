//! Stands for constants.rs: a bound that solver_set.rs tests in debug assertions only.

pub const GRAPH_COLOR_COUNT: i32 = 0;
