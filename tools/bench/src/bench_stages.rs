//! One stage of one kind again and again, on the joints of a wall in turn.

use crate::bench_sum::{sum_prepared, sum_wall};
use crate::bench_wall::Wall;
use crate::joint::revolute::{
    prepare_revolute_joint, solve_revolute_joint, warm_start_revolute_joint,
};
use crate::joint::spherical::{
    prepare_spherical_joint, solve_spherical_joint, warm_start_spherical_joint,
};
use crate::joint::weld::{prepare_weld_joint, solve_weld_joint, warm_start_weld_joint};

/// The kinds in their order, and of each the warm start, the solve with bias, the solve without and
/// prepare.
pub fn run_stages(row: usize, calls: usize) -> u32 {
    let mut wall = Wall::new(row / 4);
    let bias = row % 4 == 1;
    let Wall {
        joints,
        states,
        context,
        world,
    } = &mut wall;
    let gates = (0..calls).map(|call| call % 32);
    match row {
        0 => gates.for_each(|k| warm_start_revolute_joint(&mut joints[k], states)),
        1 | 2 => gates.for_each(|k| solve_revolute_joint(&mut joints[k], context, states, bias)),
        3 => gates.for_each(|k| prepare_revolute_joint(world, &mut joints[k], context)),
        4 => gates.for_each(|k| warm_start_spherical_joint(&mut joints[k], states)),
        5 | 6 => gates.for_each(|k| solve_spherical_joint(&mut joints[k], context, states, bias)),
        7 => gates.for_each(|k| prepare_spherical_joint(world, &mut joints[k], context)),
        8 => gates.for_each(|k| warm_start_weld_joint(&mut joints[k], states)),
        9 | 10 => gates.for_each(|k| solve_weld_joint(&mut joints[k], context, states, bias)),
        _ => gates.for_each(|k| prepare_weld_joint(world, &mut joints[k], context)),
    }
    if row % 4 == 3 {
        return sum_prepared(&wall);
    }
    sum_wall(&wall)
}
