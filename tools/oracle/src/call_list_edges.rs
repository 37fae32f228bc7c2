//! The fixed cases at document 01's edges of a run: counts, lengths, indices, slots, stages, several
//! causes at once, shared bodies, what still means; and what `aims` brings joints to.

use crate::aims::Aim;
use crate::body::body_flags::DYNAMIC_FLAG;
use crate::call_list_scenes::{tame, Link};
use crate::call_lists::case;
use crate::cases::{List, Random, Step};
use crate::core::NULL_INDEX;
use crate::direct_edges::{deciding_indices, FLAGS};
use crate::joint::JointSim;
use crate::math_functions::{Vec3, MAT3_IDENTITY, MAT3_ZERO, VEC3_ZERO};
use crate::plain_run::{unused_joint, Scene, LIST_BYTES};
use crate::records::{indices, set_indices, Joint, Kind, EMPTY, KINDS};
use Kind::{Revolute, Spherical, Weld};

/// All stages of slot 0, in their order.
const STEP: [u8; 6] = [0, 0, 0, 1, 0, 2];

/// Writes all of them. What a case does not set is drawn, the same for all seeds.
pub fn write(list: &mut List) -> Step {
    let random = &mut Random::new(0, 6);
    counts(random, list)?;
    uncounted(random, list)?;
    lengths(random, list)?;
    one_index(random, list)?;
    slots_and_stages(random, list)?;
    several_causes(random, list)?;
    last_calls(random, list)?;
    shared_bodies(random, list)?;
    flags(random, list)?;
    empty_lists(random, list)?;
    still(random, list)?;
    whole(random, list)?;
    aims(random, list)
}

/// A scene of dynamic bodies that move, with these joints.
fn moving(random: &mut Random, bodies: usize, links: &[Link]) -> Scene {
    let moves = |joint: &Joint| {
        let masses = [joint.inv_mass_a, joint.inv_mass_b];
        let mut sides = indices(joint).into_iter().zip(masses);
        sides.all(|(index, inv_mass)| index == NULL_INDEX || inv_mass > 0.0)
    };
    loop {
        let scene = tame(random, &vec![DYNAMIC_FLAG; bodies], links);
        if scene.joints.iter().all(moves) {
            return scene;
        }
    }
}

/// A joint of a kind between two bodies.
fn pair(random: &mut Random, kind: Kind) -> Scene {
    moving(random, 2, &[(kind, [0, 1])])
}

/// The calls repeated to a list of so many bytes.
fn repeated(calls: &[u8], length: usize) -> Vec<u8> {
    calls.iter().copied().cycle().take(length).collect()
}

/// Counts at 32 and above, also with lists that have a cause of their own.
fn counts(random: &mut Random, list: &mut List) -> Step {
    let max = u32::MAX;
    let both = [[32, 32], [32, 33], [33, 32], [33, 33], [max, max]];
    let joints = [32, 33, 257, 1 << 31, max].map(|count| [count, 2]);
    let bodies = [32, 33, 258, 1 << 31, max].map(|count| [1, count]);
    for [joint_count, body_count] in both.into_iter().chain(joints).chain(bodies) {
        let mut scene = pair(random, Revolute);
        [scene.joint_count, scene.body_count] = [joint_count, body_count];
        case(&scene, &STEP, list)?;
    }
    for calls in [&[][..], &[0], &[40, 3], &[0; LIST_BYTES + 2]] {
        let mut scene = pair(random, Weld);
        scene.body_count = 33;
        case(&scene, calls, list)?;
    }
    Ok(())
}

/// Places that are given and not counted, or counted and not given.
fn uncounted(random: &mut Random, list: &mut List) -> Step {
    for [joint_count, body_count] in [[0, 2], [1, 0], [1, 1], [0, 0]] {
        let mut scene = pair(random, Spherical);
        [scene.joint_count, scene.body_count] = [joint_count, body_count];
        case(&scene, &STEP, list)?;
    }
    for indices in [[31, 1], [0, 31], [2, 31]] {
        let mut scene = pair(random, Weld);
        scene.body_count = 32;
        set_indices(&mut scene.joints[0], indices);
        case(&scene, &STEP, list)?;
    }
    for slot in [1, 31, 32] {
        let mut scene = pair(random, Revolute);
        scene.joint_count = 32;
        case(&scene, &[0, 1, slot, 1], list)?;
    }
    Ok(())
}

/// Lists of odd lengths, and lists at the largest length and above.
fn lengths(random: &mut Random, list: &mut List) -> Step {
    for kind in KINDS {
        let scene = pair(random, kind);
        case(&scene, &repeated(&STEP, LIST_BYTES), list)?;
    }
    for length in [1, 3, LIST_BYTES - 1, LIST_BYTES + 1, LIST_BYTES + 2] {
        let scene = pair(random, Weld);
        case(&scene, &repeated(&STEP, length), list)?;
        if length <= 3 {
            case(&scene, &repeated(&[9], length), list)?;
        }
    }
    Ok(())
}

/// Each of the deciding indices at each side of a joint that is called second.
fn one_index(random: &mut Random, list: &mut List) -> Step {
    for kind in KINDS {
        for side in 0..2 {
            for index in deciding_indices(2) {
                let mut scene = moving(random, 2, &[(Weld, [NULL_INDEX, 0]), (kind, [0, 1])]);
                let mut indices = [0; 2];
                indices[side] = index;
                set_indices(&mut scene.joints[1], indices);
                case(&scene, &[0, 1, 1, 0, 1, 1, 1, 2], list)?;
            }
        }
    }
    Ok(())
}

/// Stages and slots at their ends, in a scene with two joints of which the second is called first.
fn slots_and_stages(random: &mut Random, list: &mut List) -> Step {
    let links = [(Spherical, [0, 1]), (Revolute, [1, NULL_INDEX])];
    for call in [[0, 2], [0, 3], [0, 255], [1, 2], [2, 0], [32, 0], [255, 0]] {
        let scene = moving(random, 2, &links);
        case(&scene, &[1, 0, call[0], call[1], 1, 1], list)?;
    }
    Ok(())
}

/// Joints for which no call is refused in slot 0, and in slots 1 to 4 a call gets 1, 2, 3, and 2
/// before 3.
fn spoiled(random: &mut Random) -> Scene {
    let links = [Weld, Revolute, Weld, Revolute, Weld].map(|kind| (kind, [0, 1]));
    let mut scene = moving(random, 2, &links);
    scene.joints[1].union_ = EMPTY;
    set_indices(&mut scene.joints[2], [-2, 1]);
    set_indices(&mut scene.joints[3], [0, 2]);
    set_indices(&mut scene.joints[4], [2, -2]);
    scene
}

/// Several causes in one call, in two calls, and in joints that are not listed.
fn several_causes(random: &mut Random, list: &mut List) -> Step {
    let lists: [&[u8]; 16] = [
        &[5, 3],
        &[1, 3],
        &[2, 3],
        &[3, 3],
        &[4, 1],
        &[1, 0],
        &[0, 0, 3, 0, 5, 0],
        &[0, 0, 5, 0, 3, 0],
        &[0, 0, 1, 0, 2, 0],
        &[0, 0, 2, 0, 1, 0],
        &[0, 3, 5, 0],
        &[5, 0, 0, 3],
        &[0, 1, 0, 2, 0, 3, 4, 0],
        &[0, 0],
        &[0, 1, 0, 2],
        &[],
    ];
    for calls in lists {
        case(&spoiled(random), calls, list)?;
    }
    Ok(())
}

/// A long list whose last call is refused, by each cause.
fn last_calls(random: &mut Random, list: &mut List) -> Step {
    for call in [[5, 0], [0, 3], [1, 0], [2, 0], [3, 0]] {
        let mut calls = repeated(&STEP, LIST_BYTES - 2);
        calls.extend(call);
        case(&spoiled(random), &calls, list)?;
    }
    Ok(())
}

/// One dynamic body at both indices, and two joints with a body in common, in both orders.
fn shared_bodies(random: &mut Random, list: &mut List) -> Step {
    for kind in KINDS {
        let scene = moving(random, 2, &[(kind, [1, 1])]);
        case(&scene, &STEP, list)?;
    }
    for kinds in [[Revolute, Weld], [Spherical, Revolute], [Weld, Spherical]] {
        for flags in [DYNAMIC_FLAG, 0] {
            let mut scene = moving(random, 3, &[(kinds[0], [0, 1]), (kinds[1], [1, 2])]);
            scene.states[1].flags = flags;
            case(&scene, &[0, 0, 0, 1, 1, 0, 1, 1], list)?;
            case(&scene, &[1, 0, 1, 1, 0, 0, 0, 1], list)?;
        }
    }
    Ok(())
}

fn flags(random: &mut Random, list: &mut List) -> Step {
    for flags in FLAGS {
        for side in 0..2 {
            let mut scene = pair(random, Spherical);
            scene.states[side].flags = flags;
            case(&scene, &STEP, list)?;
        }
    }
    Ok(())
}

/// The empty list: still, whatever the velocities.
fn empty_lists(random: &mut Random, list: &mut List) -> Step {
    for value in [1.0, -0.0, f32::INFINITY, f32::NAN, signalling_nan()] {
        let mut scene = pair(random, Weld);
        scene.states[1].angular_velocity.z = value;
        case(&scene, &[], list)?;
    }
    let mut scene = pair(random, Weld);
    scene.states[0].delta_position.x = f32::NAN;
    scene.states[1].linear_velocity.x = f32::NAN;
    scene.body_count = 1;
    case(&scene, &[], list)?;
    case(&moving(random, 0, &[]), &[], list)?;
    case(
        &moving(random, 0, &[(Revolute, [NULL_INDEX; 2])]),
        &STEP,
        list,
    )
}

/// A NaN of which any arithmetic makes one with another pattern.
fn signalling_nan() -> f32 {
    f32::from_bits(0x7f80_0001)
}

/// Gives a weld joint masses of 1, no inertia and the same impulse along each axis.
fn set_impulse(joint: &mut JointSim, impulse: f32) {
    [joint.inv_mass_a, joint.inv_mass_b] = [1.0; 2];
    [joint.inv_i_a, joint.inv_i_b] = [MAT3_ZERO; 2];
    let record = joint.weld_mut();
    record.angular_impulse = VEC3_ZERO;
    record.linear_impulse = along_all(impulse);
}

fn along_all(x: f32) -> Vec3 {
    Vec3 { x, y: x, z: x }
}

/// Warm starts that change a velocity, and that change none: by less than shows, there and back, a NaN
/// to another NaN, zeros of one sign. Some change no more than the sign of a zero; a last one turns the
/// body about an axis and no more.
fn still(random: &mut Random, list: &mut List) -> Step {
    for [velocity, first, second] in [
        [1.0, 1.0, 0.0],
        [1.0, 0.0, 0.0],
        [1.0, f32::EPSILON / 8.0, -f32::EPSILON / 4.0],
        [-0.0, 0.0, 0.0],
        [-0.0, -0.0, -0.0],
        [-0.0, 1.0, -1.0],
        [0.0, -0.0, -0.0],
        [1.0, 2.0, -2.0],
        [f32::INFINITY, 1.0, 1.0],
        [f32::INFINITY, f32::NEG_INFINITY, 0.0],
        [f32::NAN, 0.0, 0.0],
        [signalling_nan(), 1.0, 2.0],
    ] {
        let mut scene = moving(random, 1, &[(Weld, [NULL_INDEX, 0]); 2]);
        set_impulse(&mut scene.joints[0], first);
        set_impulse(&mut scene.joints[1], second);
        scene.states[0].linear_velocity = along_all(velocity);
        case(&scene, &[0, 0, 1, 0], list)?;
    }
    let mut scene = moving(random, 1, &[(Weld, [NULL_INDEX, 0])]);
    set_impulse(&mut scene.joints[0], 0.0);
    scene.joints[0].inv_i_b = MAT3_IDENTITY;
    scene.joints[0].weld_mut().angular_impulse = along_all(1.0);
    case(&scene, &[0, 0], list)
}

/// All places in use, and an unused joint that is given.
fn whole(random: &mut Random, list: &mut List) -> Step {
    let link = |k: usize| (KINDS[k % 3], [k as i32 - 1, k as i32]);
    let links: Vec<Link> = (0..32).map(link).collect();
    let mut scene = moving(random, 32, &links);
    let calls: Vec<u8> = [0, 1, 2]
        .into_iter()
        .flat_map(|stage| (0..32).flat_map(move |slot| [slot, stage]))
        .collect();
    case(&scene, &calls, list)?;
    scene.joints.truncate(1);
    scene.joints.push(unused_joint());
    scene.joint_count = 2;
    case(&scene, &STEP, list)?;
    case(&scene, &[0, 0, 1, 0], list)
}

/// Lists of joints that are brought to the rare places: one solve, with bias or without as it shows
/// there, and some more.
fn aims(random: &mut Random, list: &mut List) -> Step {
    for kind in KINDS {
        for aim in Aim::all(kind) {
            let stage = if aim.bias() == Some(false) { 2 } else { 1 };
            for calls in [&[0, stage][..], &[0, 0, 0, stage, 0, 1, 0, stage]] {
                let mut scene = pair(random, kind);
                aim.take(random, &mut scene.joints[0], &scene.states);
                case(&scene, calls, list)?;
            }
        }
    }
    Ok(())
}
