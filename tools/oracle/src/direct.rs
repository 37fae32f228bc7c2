//! Cases for the direct calls on lent memory: warm start and solve of a kind, called on a joint of
//! any case. The numbers are document 01's; where a call is not refused, the Rust answers. Each answer has
//! the marks of a solve, which a warm start and a refusal do not have.

use crate::body::BodyState;
use crate::cases::{List, Random, Step};
use crate::core::NULL_INDEX;
use crate::direct_edges;
use crate::joint::JointSim;
use crate::marks::NO_REPORT;
use crate::plain_run::direct_number;
use crate::records::{
    case_word, indices, read_cased_joint, set_indices, write_joint, Kind, EMPTY, KINDS,
};
use crate::scene::{self, choose, Scene};
use crate::solver::StepContext;
use crate::stages::{self, Stage};
use crate::words::{read_all, write_all, Words};
use Kind::*;
use Stage::{Solve, WarmStart};

/// A direct call: its number, its stage, the kind that is called.
pub type Call = (u32, Stage, Kind);

/// The functions.
pub const CALLS: [Call; 6] = [
    (0x90, WarmStart, Revolute),
    (0x91, WarmStart, Spherical),
    (0x92, WarmStart, Weld),
    (0x94, Solve, Revolute),
    (0x95, Solve, Spherical),
    (0x96, Solve, Weld),
];

/// The most states that a case lends.
pub const MOST_STATES: usize = 40;

/// Writes the case of a direct call on the joint and the states of a scene.
pub fn case(call: Call, scene: &Scene, list: &mut List) -> Step {
    let mut inputs = vec![case_word(&scene.joint)];
    inputs.extend(stages::inputs(call.1, scene));
    list.asked(call.0, &inputs, |from| answer(call, from))
}

/// Takes the inputs of a call off the front of `from`, and asks the Rust unless it is refused.
fn answer((_, stage, called): Call, from: &mut &[u32]) -> Vec<u32> {
    let mut stage_inputs = &from[1..];
    let joint = read_cased_joint(from);
    if stage == Solve {
        StepContext::read(from);
        bool::read(from);
    }
    let count = u32::read(from);
    let states: Vec<BodyState> = read_all(count, from);
    let refusal = direct_number(called, &joint, count);
    let mut answer = vec![refusal, 0];
    if refusal == 0 {
        answer.extend(stages::answer(stage, called, &mut stage_inputs));
    } else {
        write_joint(&joint, &mut answer);
        write_all(&states, &mut answer);
    }
    if refusal != 0 || stage == WarmStart {
        NO_REPORT.write(&mut answer);
    }
    answer
}

/// What the call of a number answers to the inputs that it takes off the front of `from`.
pub fn again(number: u32, from: &mut &[u32]) -> Option<Vec<u32>> {
    let call = CALLS.into_iter().find(|call| call.0 == number)?;
    Some(answer(call, from))
}

/// Writes the direct cases of a seed: a fixed part that is the same for all seeds, then seeded cases
/// without end.
pub fn write(seed: u64, list: &mut List) -> Step {
    direct_edges::write(list)?;
    let mut random = Random::new(seed, 3);
    loop {
        for call in CALLS {
            case(call, &drawn(&mut random, call), list)?;
        }
    }
}

/// The scene of a case: one in five is refused, one in six has a long slice.
fn drawn(random: &mut Random, (_, stage, called): Call) -> Scene {
    let is_spoiled = random.one_in(5);
    let kind = if is_spoiled && random.one_in(4) {
        other_kind(random, called)
    } else {
        called
    };
    let mut scene = Scene::drawn(random, stage, kind);
    if random.one_in(6) {
        let most = MOST_STATES as u32;
        let any = 4 + random.below(most - 3);
        let count = choose(random, &[4, 32, 33, most, any, any]);
        lengthen(random, &mut scene, count as usize);
    }
    if is_spoiled && (kind == called || random.one_in(2)) {
        spoil_joint(random, &mut scene.joint, scene.states.len() as i32);
    }
    scene
}

/// Puts the states of a scene anywhere into a slice of `count`, one time in three its last place
/// among them, and the joint's indices with them.
pub fn lengthen(random: &mut Random, scene: &mut Scene, count: usize) {
    let mut places: Vec<usize> = (0..count).collect();
    for i in 0..scene.states.len() {
        let other = i + random.below((count - i) as u32) as usize;
        places.swap(i, other);
    }
    if random.one_in(3) {
        let last = places.iter().position(|place| *place == count - 1);
        places.swap(0, last.expect("no last place"));
    }
    let mut states: Vec<BodyState> = (0..count).map(|_| scene::state(random)).collect();
    for (state, place) in scene.states.iter().zip(&places) {
        states[*place] = *state;
    }
    let moved = indices(&scene.joint).map(|index| match index {
        NULL_INDEX => NULL_INDEX,
        index => places[index as usize] as i32,
    });
    set_indices(&mut scene.joint, moved);
    scene.states = states;
}

pub fn other_kind(random: &mut Random, called: Kind) -> Kind {
    let others: Vec<Kind> = KINDS.into_iter().filter(|kind| *kind != called).collect();
    choose(random, &others)
}

/// Makes a joint one that no call takes where there are `count` bodies.
pub fn spoil_joint(random: &mut Random, joint: &mut JointSim, count: i32) {
    if random.one_in(6) {
        joint.union_ = EMPTY;
        return;
    }
    let below = (random.word() | 0x8000_0000) as i32;
    let above = count + random.below(64) as i32;
    let bad = [-2, i32::MIN, i32::MAX, count, above, below.min(-2)];
    let [a, b] = indices(joint);
    let [bad_a, bad_b] = [0; 2].map(|_| choose(random, &bad));
    let spoiled = choose(random, &[[bad_a, b], [a, bad_b], [bad_a, bad_b]]);
    set_indices(joint, spoiled);
}
