//! How a scene of many joints and a call list for it are drawn.

use crate::aims::Aim;
use crate::body::{body_flags::DYNAMIC_FLAG, BodyState};
use crate::call_lists::visit_scene;
use crate::cases::{Random, MINUS_ZERO, PLUS_ZERO};
use crate::core::NULL_INDEX;
use crate::direct::spoil_joint;
use crate::math_functions::MAT3_ZERO;
use crate::plain_run::{Scene, LIST_BYTES, PLACES};
use crate::records::{
    kind_of, visit_fields, visit_impulses, BodyRecord, Joint, Kind, JOINT_TYPES, KINDS,
};
use crate::scene::{self, any_nan, changed, changer, choose, vector, WILD};
use crate::solver::StepContext;
use crate::words::Words;

/// The most calls of a list.
const CALLS: u32 = LIST_BYTES as u32 / 2;

/// The kind of a joint and the indices of its bodies.
pub type Link = (Kind, [i32; 2]);

/// A scene such as a solver meets: a body for each of the flags, a prepared joint for each link.
pub fn tame(random: &mut Random, flags: &[u32], links: &[Link]) -> Scene {
    let context = scene::context(random);
    let states: Vec<BodyState> = flags
        .iter()
        .map(|&flags| BodyState {
            flags,
            ..scene::state(random)
        })
        .collect();
    let bodies: Vec<BodyRecord> = (0..)
        .zip(flags)
        .map(|(index, flags)| body(random, index, *flags))
        .collect();
    let joints = links
        .iter()
        .map(|link| joint(random, *link, context, &states, &bodies))
        .collect();
    Scene {
        joint_count: links.len() as u32,
        body_count: flags.len() as u32,
        context,
        joints,
        states,
    }
}

/// A body near to the others. What is not dynamic mostly has no inverse mass.
fn body(random: &mut Random, index: i32, flags: u32) -> BodyRecord {
    let mut mass = scene::masses(random)[0];
    if flags & DYNAMIC_FLAG == 0 && !random.one_in(4) {
        mass = (0.0, MAT3_ZERO);
    }
    BodyRecord {
        center: vector(random, -2, 2),
        ..scene::body(random, index, mass)
    }
}

/// A joint that fits its bodies. At index -1 is a body that no other joint has.
fn joint(
    random: &mut Random,
    (kind, indices): Link,
    context: StepContext,
    states: &[BodyState],
    bodies: &[BodyRecord],
) -> Joint {
    let bodies = indices.map(|index| match index {
        NULL_INDEX => body(random, index, 0),
        _ => bodies[index as usize],
    });
    scene::Scene::between(random, kind, context, states, bodies, indices).joint
}

/// A scene and a list that it accepts.
pub fn accepted(random: &mut Random) -> (Scene, Vec<u8>) {
    let mut scene = drawn(random);
    let callable = |slot: &u8| scene.call_number(*slot, 0) == 0;
    let slots: Vec<u8> = (0..PLACES as u8).filter(callable).collect();
    let mut calls = calls(random, &slots);
    if random.one_in(4) {
        clear_impulses(random, &mut scene);
        clear_velocities(random, &mut scene);
        if random.one_in(2) {
            calls.chunks_exact_mut(2).for_each(|call| call[1] = 0);
        }
    }
    (scene, calls)
}

/// Makes impulses zeros, so that a warm start changes no more than the sign of a zero.
fn clear_impulses(random: &mut Random, scene: &mut Scene) {
    for joint in &mut scene.joints {
        let zero = choose(random, &[0.0, -0.0]);
        visit_impulses(joint, &mut |x| *x = zero);
    }
}

/// Makes velocity components zeros and NaNs: all, or some of them.
fn clear_velocities(random: &mut Random, scene: &mut Scene) {
    let rate = choose(random, &[1, 4, 32]);
    for state in &mut scene.states {
        let mut change = changer(random, rate, zero_or_nan);
        state.linear_velocity.visit_floats(&mut change);
        state.angular_velocity.visit_floats(&mut change);
    }
}

/// A zero of either sign, or a NaN of any payload.
fn zero_or_nan(random: &mut Random, _: f32) -> f32 {
    let nan = any_nan(random).to_bits();
    f32::from_bits(choose(random, &[PLUS_ZERO, MINUS_ZERO, MINUS_ZERO, nan]))
}

/// A scene in one of several modes. Most are tame.
fn drawn(random: &mut Random) -> Scene {
    let (flags, links) = outline(random);
    let mut scene = tame(random, &flags, &links);
    match random.below(16) {
        0..=8 => {}
        9..=11 => aim_joints(random, &mut scene),
        12 | 13 => visit_scene(&mut scene, &mut changer(random, 256, changed)),
        _ => {
            let wild = choose(random, &WILD);
            change_integers(random, &mut scene);
            if random.one_in(2) {
                visit_scene(&mut scene, &mut changer(random, 1, wild));
            } else if let Some(joint) = one_of(random, &mut scene.joints) {
                visit_fields(joint, &mut changer(random, 1, wild));
            }
        }
    }
    if random.one_in(8) {
        vary_counts(random, &mut scene);
    }
    if random.one_in(8) {
        let bodies = scene.body_count as i32;
        if let Some(joint) = one_of(random, &mut scene.joints) {
            spoil_joint(random, joint, bodies);
        }
    }
    scene
}

/// Brings about half of the joints to places where their solves decide.
fn aim_joints(random: &mut Random, scene: &mut Scene) {
    for joint in &mut scene.joints {
        let kind = kind_of(joint).expect("a joint of a kind");
        if random.one_in(2) {
            let aim = choose(random, Aim::all(kind));
            aim.take(random, joint, &scene.states);
        }
    }
}

/// The flags of the bodies, and the links of the joints: any, or a chain.
fn outline(random: &mut Random) -> (Vec<u32>, Vec<Link>) {
    let joints = size(random);
    let bodies = if random.one_in(4) {
        size(random)
    } else {
        (1 + joints / 2 + random.below(joints + 1)).min(PLACES)
    };
    let chain = random.one_in(2);
    let mut link = |k: u32| {
        let drawn = scene::indices(random, bodies);
        let chained = [k as i32 - 1, k as i32];
        let indices = if chain && k < bodies { chained } else { drawn };
        (choose(random, &KINDS), indices)
    };
    let links = (0..joints).map(&mut link).collect();
    (flags(random, bodies), links)
}

/// The flags of bodies of which about a quarter are not dynamic; now and then none is.
fn flags(random: &mut Random, count: u32) -> Vec<u32> {
    if random.one_in(32) {
        return vec![0; count as usize];
    }
    let mut flags = || match random.below(8) {
        0 => 0,
        1 => random.word() & !DYNAMIC_FLAG,
        2 => random.word() | DYNAMIC_FLAG,
        _ => DYNAMIC_FLAG,
    };
    (0..count).map(|_| flags()).collect()
}

/// How many joints or bodies there are: mostly few, so that cases stay small.
fn size(random: &mut Random) -> u32 {
    let most = choose(random, &[2, 4, 8, 16, 32]);
    match random.below(32) {
        0 => 0,
        1 => PLACES,
        _ => 1 + random.below(most),
    }
}

fn one_of<'a, T>(random: &mut Random, items: &'a mut [T]) -> Option<&'a mut T> {
    let count = items.len() as u32;
    items.get_mut(random.below(count) as usize)
}

/// Makes the integers that no stage reads anything.
fn change_integers(random: &mut Random, scene: &mut Scene) {
    scene.context.sub_step_count = random.word() as i32;
    for joint in &mut scene.joints {
        joint.type_ = choose(random, &JOINT_TYPES);
        [joint.body_id_a, joint.body_id_b] = [0; 2].map(|_| random.word() as i32);
    }
}

/// Counts more or fewer joints or bodies than are given.
fn vary_counts(random: &mut Random, scene: &mut Scene) {
    let [joints, bodies] = [scene.joint_count, scene.body_count];
    match random.below(4) {
        0 => scene.joint_count = random.below(joints + 1),
        1 => scene.joint_count = PLACES - random.below(PLACES + 1 - joints),
        2 => scene.body_count = random.below(bodies + 1),
        _ => scene.body_count = PLACES - random.below(PLACES + 1 - bodies),
    }
}

/// A list of calls of these slots: steps as a solver takes them, joint by joint, or any.
fn calls(random: &mut Random, slots: &[u8]) -> Vec<u8> {
    if slots.is_empty() {
        return Vec::new();
    }
    let length = length(random) as usize;
    let round: Vec<[u8; 2]> = match random.below(4) {
        0 | 1 => [0, 1, 2]
            .into_iter()
            .flat_map(|stage| slots.iter().map(move |slot| [*slot, stage]))
            .collect(),
        2 => slots
            .iter()
            .flat_map(|slot| [0, 1, 1, 2].map(|stage| [*slot, stage]))
            .collect(),
        _ => {
            let stages = [0, 1, 1, 1, 2, 2];
            let mut call = || [choose(random, slots), choose(random, &stages)];
            (0..length).map(|_| call()).collect()
        }
    };
    round.into_iter().cycle().take(length).flatten().collect()
}

/// How many calls a list has: mostly few, one time in 60 above 2,000, one time in 100 all 4,096.
fn length(random: &mut Random) -> u32 {
    match random.below(600) {
        0..=5 => CALLS,
        6..=9 => 2001 + random.below(CALLS - 2001),
        10..=12 => 257 + random.below(2001 - 257),
        13..=24 => 0,
        _ => {
            let most = 2 << random.below(7);
            1 + random.below(most)
        }
    }
}

/// Brings one of the causes into a scene or its list.
pub fn spoil(random: &mut Random, scene: &mut Scene, calls: &mut Vec<u8>) {
    let way = if calls.is_empty() {
        random.below(4)
    } else {
        random.below(12)
    };
    match way {
        0 => calls.push(random.word() as u8),
        1 if !calls.is_empty() => calls.truncate(calls.len() - 1),
        2 if random.one_in(4) => calls.resize(LIST_BYTES + 1 + random.below(8) as usize, 0),
        1..=3 => spoil_counts(random, scene),
        _ => spoil_call(random, scene, calls),
    }
}

fn spoil_counts(random: &mut Random, scene: &mut Scene) {
    let large = random.word() | 64;
    let count = choose(random, &[33, 33, 64, 256, u32::MAX, large]);
    match random.below(4) {
        0 => scene.joint_count = count,
        1 | 2 => scene.body_count = count,
        _ => [scene.joint_count, scene.body_count] = [count; 2],
    }
}

/// Spoils one call of a list, or the joint that it calls.
fn spoil_call(random: &mut Random, scene: &mut Scene, calls: &mut [u8]) {
    let slot = 2 * random.below(calls.len() as u32 / 2) as usize;
    let stage = slot + 1;
    let joint = &mut scene.joints[usize::from(calls[slot])];
    let bodies = scene.body_count as i32;
    match random.below(8) {
        0 => calls[stage] = 3,
        1 => calls[stage] = 3 + random.below(253) as u8,
        2 => {
            calls[slot] = scene.joint_count as u8;
            calls[stage] += random.below(4) as u8;
        }
        3 => calls[slot] = (scene.joint_count + random.below(256 - scene.joint_count)) as u8,
        _ => spoil_joint(random, joint, bodies),
    }
}
