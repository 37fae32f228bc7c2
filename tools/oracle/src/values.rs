//! Cases for what a joint of any case is asked by value: its stop code, and the stages, which take two
//! bodies or two states and answer values. Numbers and stop codes are document 01's, the codes as C-11
//! has them since; where a stage is not refused, the Rust answers, on a slice of the two states.

use crate::body::{body_flags::DYNAMIC_FLAG, BodyState, IDENTITY_BODY_STATE};
use crate::cases::{List, Random, Step};
use crate::direct::other_kind;
use crate::draw::pattern;
use crate::joint::JointUnion;
use crate::marks::{Mark, NO_REPORT};
use crate::records::{
    indices, kind_of, limit, limit_count, read_cased_joint, set_indices, write_cased_joint,
    write_joint, Angles, BodyRecord, Joint, Kind, EMPTY, KINDS,
};
use crate::scene::{angle, held_angle, neighbour, positive, Scene};
use crate::solver::StepContext;
use crate::stages::{self, Stage};
use crate::value_edges;
use crate::words::{write_all, Words};
use Kind::*;
use Stage::*;

/// The number of the function that gives the stop code.
const STOP_CODE: u32 = 0xb0;

/// A stage by value: its number, the stage, the kind that is called.
pub type Call = (u32, Stage, Kind);

/// The functions.
pub const CALLS: [Call; 9] = [
    (0xc0, Prepare, Revolute),
    (0xc1, Prepare, Spherical),
    (0xc2, Prepare, Weld),
    (0xc4, WarmStart, Revolute),
    (0xc5, WarmStart, Spherical),
    (0xc6, WarmStart, Weld),
    (0xc8, Solve, Revolute),
    (0xc9, Solve, Spherical),
    (0xca, Solve, Weld),
];

/// Document 01's number of a joint whose case is not the kind called, or not one of the three.
const WRONG_CASE: u32 = 1;

/// Number, place and code: "1 if the lower impulse is above zero, plus 2 for upper, plus 4 for swing.
/// A limit that is off counts nothing; fixed rotation, weld and a refusal give 0." Each "now also wants
/// the lower angle at or above the twist angle, the upper at or below it, the cone at or below the
/// swing. A NaN angle counts as not arrived."
fn stop_code(joint: &Joint) -> [u32; 3] {
    let Angles { twist, swing } = joint.angles;
    let pushes = |on: bool, impulse: f32| on && impulse > 0.0;
    let stops = match &joint.union_ {
        JointUnion::Revolute(j) => [
            pushes(j.enable_limit, j.lower_impulse) && j.lower_angle >= twist,
            pushes(j.enable_limit, j.upper_impulse) && j.upper_angle <= twist,
            false,
        ],
        JointUnion::Spherical(j) => [
            pushes(j.enable_twist_limit, j.lower_twist_impulse) && j.lower_twist_angle >= twist,
            pushes(j.enable_twist_limit, j.upper_twist_impulse) && j.upper_twist_angle <= twist,
            pushes(j.enable_cone_limit, j.swing_impulse) && j.cone_angle <= swing,
        ],
        JointUnion::Weld(_) => [false; 3],
        _ => return [WRONG_CASE, 0, 0],
    };
    let [lower, upper, swing] = stops.map(u32::from);
    let code = if joint.fixed_rotation {
        0
    } else {
        lower + 2 * upper + 4 * swing
    };
    [0, 0, code]
}

/// Writes the case of a joint's stop code.
pub fn stop_case(joint: &Joint, list: &mut List) -> Step {
    let mut inputs = Vec::new();
    write_cased_joint(joint, &mut inputs);
    list.asked(STOP_CODE, &inputs, stop_answer)
}

fn stop_answer(from: &mut &[u32]) -> Vec<u32> {
    stop_code(&read_cased_joint(from)).to_vec()
}

/// Writes the case of a stage by value, on the joint of a scene and its bodies, or two states.
pub fn case(call: Call, scene: &Scene, pair: &[BodyState; 2], list: &mut List) -> Step {
    let (number, stage, _) = call;
    let mut inputs = Vec::new();
    write_cased_joint(&scene.joint, &mut inputs);
    if stage != WarmStart {
        scene.context.write(&mut inputs);
    }
    match stage {
        Prepare => write_all(&scene.bodies, &mut inputs),
        WarmStart => write_all(pair, &mut inputs),
        Solve => {
            scene.use_bias.write(&mut inputs);
            write_all(pair, &mut inputs);
        }
    }
    list.asked(number, &inputs, |from| answer(call, from))
}

/// The states at the joint's indices. A joint that is to be prepared has indices of any kind.
pub fn pair(scene: &Scene) -> [BodyState; 2] {
    indices(&scene.joint).map(|index| match usize::try_from(index) {
        Ok(index) => *scene.states.get(index).unwrap_or(&IDENTITY_BODY_STATE),
        Err(_) => IDENTITY_BODY_STATE,
    })
}

/// Takes the inputs of a stage by value off the front of `from`, and asks the Rust unless it is
/// refused. The marks of a prepare and of a solve come last; a refusal has none.
fn answer((_, stage, called): Call, from: &mut &[u32]) -> Vec<u32> {
    let mut joint = read_cased_joint(from);
    let is_refused = kind_of(&joint) != Some(called);
    let number = if is_refused { WRONG_CASE } else { 0 };
    let context = match stage {
        WarmStart => StepContext::default(),
        _ => StepContext::read(from),
    };
    let mut answer = vec![number, 0];
    if stage == Prepare {
        let bodies = [BodyRecord::read(from), BodyRecord::read(from)];
        let mark = match is_refused {
            true => Mark::None,
            false => stages::prepare(called, &mut joint, &context, &bodies),
        };
        write_joint(&joint, &mut answer);
        mark.write(&mut answer);
        return answer;
    }
    let use_bias = stage == Solve && bool::read(from);
    let mut pair = [BodyState::read(from), BodyState::read(from)];
    let mut report = NO_REPORT;
    if !is_refused {
        on_slice(&mut joint, &mut pair, |joint, states| match stage {
            Solve => report = stages::solve(called, joint, &context, use_bias, states),
            _ => stages::warm_start(called, joint, states),
        });
    }
    write_joint(&joint, &mut answer);
    for state in pair {
        state.linear_velocity.write(&mut answer);
        state.angular_velocity.write(&mut answer);
    }
    if stage == Solve {
        report.write(&mut answer);
    }
    answer
}

/// Works a joint on a slice of two states that are both stored, whatever its indices and the flags.
fn on_slice(
    joint: &mut Joint,
    pair: &mut [BodyState; 2],
    work: impl FnOnce(&mut Joint, &mut [BodyState]),
) {
    let kept = indices(joint);
    set_indices(joint, [0, 1]);
    for state in pair.iter_mut() {
        state.flags = DYNAMIC_FLAG;
    }
    work(joint, pair);
    set_indices(joint, kept);
}

/// What the function of a number answers to the inputs that it takes off the front of `from`.
pub fn again(number: u32, from: &mut &[u32]) -> Option<Vec<u32>> {
    if number == STOP_CODE {
        return Some(stop_answer(from));
    }
    let call = CALLS.into_iter().find(|call| call.0 == number)?;
    Some(answer(call, from))
}

/// Writes the cases by value of a seed: a fixed part that is the same for all seeds, then seeded
/// cases without end.
pub fn write(seed: u64, list: &mut List) -> Step {
    value_edges::write(list)?;
    let mut random = Random::new(seed, 8);
    loop {
        for call in CALLS {
            let (scene, pair) = drawn(&mut random, call);
            case(call, &scene, &pair, list)?;
        }
        for kind in KINDS {
            stop_case(&stopped(&mut random, kind), list)?;
        }
    }
}

/// The scene of a stage, and the states of its joint's bodies: one in four is refused. The indices,
/// which no stage by value reads, are any in half of them.
fn drawn(random: &mut Random, (_, stage, called): Call) -> (Scene, [BodyState; 2]) {
    let is_refused = random.one_in(4);
    let kind = if is_refused {
        other_kind(random, called)
    } else {
        called
    };
    let mut scene = Scene::drawn(random, stage, kind);
    let pair = pair(&scene);
    if random.one_in(2) {
        set_indices(&mut scene.joint, [0; 2].map(|_| random.word() as i32));
    }
    if is_refused && random.one_in(3) {
        scene.joint.union_ = EMPTY;
    }
    (scene, pair)
}

/// A joint whose limits push and are reached, or do not and are not, or have no numbers.
fn stopped(random: &mut Random, kind: Kind) -> Joint {
    let mut joint = Scene::drawn(random, Solve, kind).joint;
    joint.fixed_rotation = random.one_in(8);
    let mut held = || match random.below(4) {
        0 => held_angle(random, &[]),
        _ => angle(random),
    };
    joint.angles = Angles {
        twist: held(),
        swing: held(),
    };
    for n in 0..limit_count(kind) {
        let at = match n {
            0 | 1 => joint.angles.twist,
            _ => joint.angles.swing,
        };
        let enabled = !random.one_in(5);
        let limit = limit(&mut joint, n);
        *limit.enabled = enabled;
        *limit.impulse = stop_impulse(random, *limit.impulse);
        *limit.angle = stop_angle(random, n, at, *limit.angle);
    }
    if random.one_in(16) {
        joint.union_ = EMPTY;
    }
    joint
}

/// An impulse that mostly pushes.
fn stop_impulse(random: &mut Random, kept: f32) -> f32 {
    match random.below(8) {
        0..=4 => positive(random, -6, 3),
        5 => kept,
        _ => f32::from_bits(pattern(random)),
    }
}

/// The angle of a limit of a joint that is at this angle: mostly it is reached, often just so.
fn stop_angle(random: &mut Random, n: usize, at: f32, kept: f32) -> f32 {
    let inward = positive(random, -10, 0);
    // The lower limit is reached from above, the others from below.
    let inward = if n == 0 { inward } else { -inward };
    match random.below(8) {
        0 | 1 => at,
        2 => neighbour(random, at),
        3..=5 => at + inward,
        6 => at - inward,
        _ if random.one_in(2) => kept,
        _ => f32::from_bits(pattern(random)),
    }
}
