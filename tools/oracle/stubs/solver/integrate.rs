//! Stands for solver/integrate.rs, which solver/mod.rs declares and nothing here calls.
