//! Stands for solver/continuous.rs, which solver/mod.rs declares and nothing here calls.
