// The published files and the stubs beside them, for each program that is built over them. Most of what
// they hold is not called.
macro_rules! published {
    ($($name:ident)+) => {
        $(#[allow(warnings)] mod $name;)+
    };
}

published! {
    body constants constraint_graph contact core geometry id island joint manifold math_functions
    rapidhash recording solver solver_set types world
}
