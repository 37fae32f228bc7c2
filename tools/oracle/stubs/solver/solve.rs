//! Stands for solver/solve.rs: solver/mod.rs exports its `solve`.

pub fn solve() {
    unimplemented!()
}
