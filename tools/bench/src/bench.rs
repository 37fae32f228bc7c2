//! The rows of the bench, worked by the published Rust: `bench ROW REPEATS` prints a checksum, and
//! with fewer arguments each row is worked once. Numbers and checksums are those of the programs
//! crates/bench, crates/bench_stages and crates/bench_direct.

mod bench_direct;
mod bench_stages;
mod bench_sum;
mod bench_wall;
#[allow(dead_code)]
mod records;
#[allow(dead_code)]
mod words;

include!("published.rs");

use bench_direct::run_direct;
use bench_stages::run_stages;
use bench_sum::{add_float, add_word, sum_wall};
use bench_wall::Wall;
use body::BodyState;
use joint::revolute::{solve_revolute_joint, warm_start_revolute_joint};
use joint::spherical::{solve_spherical_joint, warm_start_spherical_joint};
use joint::weld::{solve_weld_joint, warm_start_weld_joint};
use joint::{JointSim, JointUnion};
use math_functions::atan2;
use records::velocity_bits;
use solver::StepContext;

/// A row for each kind of joints and each kind of list, then the two leaves, then one for each kind and
/// each of its stages, then one for each kind and each of its direct calls.
const LISTS: usize = 16;
const STAGES: usize = LISTS + 2;
const DIRECT: usize = STAGES + 12;
const ROWS: usize = DIRECT + 9;

/// How many calls a repeat makes.
const CALLS: usize = 4096;

/// One call of a list, on joints and states in place.
fn call(joint: &mut JointSim, stage: u8, context: &StepContext, states: &mut [BodyState]) {
    match (&joint.union_, stage) {
        (JointUnion::Revolute(_), 0) => warm_start_revolute_joint(joint, states),
        (JointUnion::Revolute(_), _) => solve_revolute_joint(joint, context, states, stage == 1),
        (JointUnion::Spherical(_), 0) => warm_start_spherical_joint(joint, states),
        (JointUnion::Spherical(_), _) => solve_spherical_joint(joint, context, states, stage == 1),
        (JointUnion::Weld(_), 0) => warm_start_weld_joint(joint, states),
        (JointUnion::Weld(_), _) => solve_weld_joint(joint, context, states, stage == 1),
        _ => {}
    }
}

/// The slots in turn; the stages are the list's, or in turn over the rounds.
fn list_of(stages: usize) -> Vec<u8> {
    let stage = |i: usize| if stages < 3 { stages } else { i / 32 % 3 };
    (0..CALLS)
        .flat_map(|i| [(i % 32) as u8, stage(i) as u8])
        .collect()
}

fn run_lists(kind: usize, stages: usize, repeats: usize) -> u32 {
    let list = list_of(stages);
    let mut wall = Wall::new(kind);
    let mut still = 0;
    for _ in 0..repeats {
        let before = velocity_bits(&wall.states);
        for bytes in list.chunks_exact(2) {
            let joint = &mut wall.joints[bytes[0] as usize];
            call(joint, bytes[1], &wall.context, &mut wall.states);
        }
        still += u32::from(before == velocity_bits(&wall.states));
    }
    add_word(sum_wall(&wall), still)
}

fn roots(calls: usize) -> u32 {
    let (mut x, mut total) = (0.5f32, 0.0f32);
    for _ in 0..calls {
        total += x.sqrt();
        x += 0.5;
    }
    add_float(0, total)
}

fn arctangents(calls: usize) -> u32 {
    let (mut x, mut y, mut total) = (1.0f32, 0.0f32, 0.0f32);
    for _ in 0..calls {
        total += atan2(y, x);
        (x, y) = (0.8 * x - 0.6 * y, 0.6 * x + 0.8 * y);
    }
    add_float(0, total)
}

fn work(row: usize, repeats: usize) -> u32 {
    match row {
        row if row < LISTS => run_lists(row / 4, row % 4, repeats),
        LISTS => roots(CALLS * repeats),
        row if row < STAGES => arctangents(CALLS * repeats),
        row if row < DIRECT => run_stages(row - STAGES, CALLS * repeats),
        _ => run_direct(row - DIRECT, CALLS * repeats),
    }
}

fn main() {
    let numbers: Vec<usize> = std::env::args()
        .skip(1)
        .filter_map(|word| word.parse().ok())
        .collect();
    match numbers[..] {
        [row, repeats] if row < ROWS => println!("{}", work(row, repeats)),
        _ => (0..ROWS).for_each(|row| println!("{row} {}", work(row, 1))),
    }
}
