//! Cases for the stages of the joints: prepare, warm start and solve of three kinds. Each is the Rust's
//! own, and beside it what C-11 says of the joint's two angles; the marks are those of `marks`.

use crate::body::BodyState;
use crate::cases::{List, Random, Step};
use crate::joint::revolute::*;
use crate::joint::spherical::*;
use crate::joint::weld::*;
use crate::joint::JointUnion;
use crate::marks::{mass_mark, report, Mark, Report};
use crate::math_functions::{get_swing_angle, get_twist_angle, inv_mul_quat};
use crate::records::{self, read_joint, write_joint, Angles, BodyRecord, Joint, Kind, NO_ANGLES};
use crate::scene::{flipped, rotations, Scene};
use crate::solver::StepContext;
use crate::stage_edges;
use crate::words::{read_all, write_all, Words};

/// What is done with a joint in a step, in this order.
#[derive(Clone, Copy, PartialEq)]
pub enum Stage {
    Prepare,
    WarmStart,
    Solve,
}
use Kind::*;
use Stage::*;

/// The functions: number, stage, kind of joint.
const STAGES: [(u32, Stage, Kind); 9] = [
    (0x80, Prepare, Revolute),
    (0x81, Prepare, Spherical),
    (0x82, Prepare, Weld),
    (0x84, WarmStart, Revolute),
    (0x85, WarmStart, Spherical),
    (0x86, WarmStart, Weld),
    (0x88, Solve, Revolute),
    (0x89, Solve, Spherical),
    (0x8a, Solve, Weld),
];

/// Prepares a joint between two bodies, and tells the mark of its mass. No limit row has been worked then.
pub fn prepare(
    kind: Kind,
    joint: &mut Joint,
    context: &StepContext,
    bodies: &[BodyRecord; 2],
) -> Mark {
    let prepare = match kind {
        Revolute => prepare_revolute_joint,
        Spherical => prepare_spherical_joint,
        Weld => prepare_weld_joint,
    };
    let ids = [joint.body_id_a, joint.body_id_b];
    let world = records::world(ids.into_iter().zip(*bodies));
    prepare(&world, joint, context);
    joint.angles = NO_ANGLES;
    mass_mark(joint)
}

/// Warm starts a joint, which keeps its angles.
pub fn warm_start(kind: Kind, joint: &mut Joint, states: &mut [BodyState]) {
    let warm_start = match kind {
        Revolute => warm_start_revolute_joint,
        Spherical => warm_start_spherical_joint,
        Weld => warm_start_weld_joint,
    };
    warm_start(joint, states);
}

/// Solves a joint, which stores the angles of the limit rows that are worked, and tells the marks.
pub fn solve(
    kind: Kind,
    joint: &mut Joint,
    context: &StepContext,
    use_bias: bool,
    states: &mut [BodyState],
) -> Report {
    let solve = match kind {
        Revolute => solve_revolute_joint,
        Spherical => solve_spherical_joint,
        Weld => solve_weld_joint,
    };
    joint.angles = worked_angles(joint, states);
    let report = report(joint, states);
    solve(joint, context, states, use_bias);
    report
}

/// The angle of each limit row that a solve works, and NaN for one that it does not: the Rust's
/// angles of the rotation that the Rust's text forms for the row.
fn worked_angles(joint: &Joint, states: &[BodyState]) -> Angles {
    let mut angles = NO_ANGLES;
    if joint.fixed_rotation {
        return angles;
    }
    match &joint.union_ {
        JointUnion::Revolute(j) => {
            let [rel_q, _] = flipped(joint, states);
            if j.enable_limit {
                angles.twist = get_twist_angle(rel_q);
            }
        }
        JointUnion::Spherical(j) => {
            let [quat_a, quat_b] = rotations(joint, states);
            let rel_q = inv_mul_quat(quat_a, quat_b);
            if j.enable_twist_limit {
                angles.twist = get_twist_angle(rel_q);
            }
            if j.enable_cone_limit {
                angles.swing = get_swing_angle(rel_q);
            }
        }
        _ => {}
    }
    angles
}

/// The words that a stage takes of a scene.
pub fn inputs(stage: Stage, scene: &Scene) -> Vec<u32> {
    let mut words = Vec::new();
    write_joint(&scene.joint, &mut words);
    if stage != WarmStart {
        scene.context.write(&mut words);
    }
    if stage == Prepare {
        write_all(&scene.bodies, &mut words);
        return words;
    }
    if stage == Solve {
        scene.use_bias.write(&mut words);
    }
    words.push(scene.states.len() as u32);
    write_all(&scene.states, &mut words);
    words
}

/// Takes the inputs of a stage off the front of `from` and asks the Rust. The marks come last.
pub fn answer(stage: Stage, kind: Kind, from: &mut &[u32]) -> Vec<u32> {
    let mut joint = read_joint(kind, from);
    let mut states = Vec::new();
    let mut marks = Vec::new();
    match stage {
        Prepare => {
            let context = StepContext::read(from);
            let bodies = [BodyRecord::read(from), BodyRecord::read(from)];
            prepare(kind, &mut joint, &context, &bodies).write(&mut marks);
        }
        WarmStart => {
            states = read_states(from);
            warm_start(kind, &mut joint, &mut states);
        }
        Solve => {
            let context = StepContext::read(from);
            let use_bias = bool::read(from);
            states = read_states(from);
            solve(kind, &mut joint, &context, use_bias, &mut states).write(&mut marks);
        }
    }
    let mut words = Vec::new();
    write_joint(&joint, &mut words);
    write_all(&states, &mut words);
    words.extend(marks);
    words
}

fn read_states(from: &mut &[u32]) -> Vec<BodyState> {
    let count = u32::read(from);
    read_all(count, from)
}

/// Writes the case of a stage in a scene.
pub fn case(stage: Stage, scene: &Scene, list: &mut List) -> Step {
    let row = |(_, s, k): &&(u32, Stage, Kind)| (*s, *k) == (stage, scene.kind);
    let (number, ..) = STAGES.iter().find(row).expect("no such stage");
    list.asked(*number, &inputs(stage, scene), |from| {
        answer(stage, scene.kind, from)
    })
}

/// What the stage of a number answers to the inputs that it takes off the front of `from`.
pub fn again(number: u32, from: &mut &[u32]) -> Option<Vec<u32>> {
    let (_, stage, kind) = STAGES.iter().find(|(n, ..)| *n == number)?;
    Some(answer(*stage, *kind, from))
}

/// Writes the stage cases of a seed: a short fixed part that is the same for all seeds, then seeded
/// cases without end.
pub fn write(seed: u64, list: &mut List) -> Step {
    stage_edges::write(list)?;
    let mut random = Random::new(seed, 1);
    loop {
        for (_, stage, kind) in STAGES {
            case(stage, &Scene::drawn(&mut random, stage, kind), list)?;
        }
    }
}
