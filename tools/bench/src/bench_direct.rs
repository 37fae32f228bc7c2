//! One direct call again and again on gate 1 of a wall, which hangs on gate 0.

use crate::bench_sum::add_gate;
use crate::bench_wall::Wall;
use crate::joint::revolute::{solve_revolute_joint, warm_start_revolute_joint};
use crate::joint::spherical::{solve_spherical_joint, warm_start_spherical_joint};
use crate::joint::weld::{solve_weld_joint, warm_start_weld_joint};

/// The kinds in their order, and of each the warm start, the solve with bias and the solve without.
pub fn run_direct(row: usize, calls: usize) -> u32 {
    let wall = Wall::new(row / 3);
    let context = &wall.context;
    let joint = &mut wall.joints[1].clone();
    let states = &mut wall.states[..3].to_vec();
    let bias = row % 3 == 1;
    for _ in 0..calls {
        match row {
            0 => warm_start_revolute_joint(joint, states),
            1 | 2 => solve_revolute_joint(joint, context, states, bias),
            3 => warm_start_spherical_joint(joint, states),
            4 | 5 => solve_spherical_joint(joint, context, states, bias),
            6 => warm_start_weld_joint(joint, states),
            _ => solve_weld_joint(joint, context, states, bias),
        }
    }
    add_gate(add_gate(0, joint, &states[0]), joint, &states[1])
}
