//! The fixed cases at document 01's edges of the direct calls: cases of the joint, indices, counts
//! of bodies, flags, long slices; what `aims` brings joints to; and what the marks go by.

use crate::aims::Aim;
use crate::body::body_flags::DYNAMIC_FLAG;
use crate::cases::{List, Random, Step};
use crate::core::NULL_INDEX;
use crate::direct::{case, lengthen, other_kind, Call, CALLS, MOST_STATES};
use crate::mark_edges::{pairs_of_rows, set_rows};
use crate::records::{joint_type, set_indices, EMPTY, KINDS};
use crate::scene::Scene;
use crate::stage_edges::two_bodies;
use crate::stages::Stage;

/// Flags that are not dynamic, the first three, and flags that are.
pub const FLAGS: [u32; 4] = [0, 0x2000, 0xffff_efff, 0xffff_ffff];

/// Writes all of them. What a case does not set is drawn, the same for all seeds.
pub fn write(list: &mut List) -> Step {
    let random = &mut Random::new(0, 4);
    for call in CALLS {
        one_index(random, call, list)?;
        two_indices(random, call, list)?;
        joint_cases(random, call, list)?;
        no_bodies(random, call, list)?;
        flags(random, call, list)?;
        long_slices(random, call, list)?;
        aims(random, call, list)?;
    }
    // Drawn apart, so that the cases before them stay what they are.
    let random = &mut Random::new(0, 13);
    for call in CALLS {
        marks(random, call, list)?;
    }
    Ok(())
}

/// A scene of two dynamic bodies that move, the joint of the kind called between them.
fn moving(random: &mut Random, (_, stage, called): Call) -> Scene {
    loop {
        let mut scene = two_bodies(random, stage, called);
        if scene.joint.inv_mass_a > 0.0 && scene.joint.inv_mass_b > 0.0 {
            scene.states.truncate(2);
            set_indices(&mut scene.joint, [0, 1]);
            return scene;
        }
    }
}

/// The indices that decide, for `count` bodies.
pub fn deciding_indices(count: i32) -> [i32; 6] {
    [NULL_INDEX, -2, i32::MIN, i32::MAX, count - 1, count]
}

fn one_index(random: &mut Random, call: Call, list: &mut List) -> Step {
    for side in 0..2 {
        for index in deciding_indices(2) {
            let mut indices = [0; 2];
            indices[side] = index;
            let mut scene = moving(random, call);
            set_indices(&mut scene.joint, indices);
            case(call, &scene, list)?;
        }
    }
    Ok(())
}

/// Both indices bad, both none, and one dynamic body at both.
fn two_indices(random: &mut Random, call: Call, list: &mut List) -> Step {
    let bad = [[-2, -2], [2, 2], [i32::MIN, i32::MAX], [i32::MAX, -2]];
    for indices in bad.into_iter().chain([[NULL_INDEX; 2], [0; 2], [1; 2]]) {
        let mut scene = moving(random, call);
        set_indices(&mut scene.joint, indices);
        case(call, &scene, list)?;
    }
    Ok(())
}

/// Joints of the other cases, with good and with bad indices; and a type that is not the kind's,
/// which decides nothing.
fn joint_cases(random: &mut Random, call: Call, list: &mut List) -> Step {
    let (number, stage, called) = call;
    for kind in KINDS.into_iter().filter(|kind| *kind != called) {
        for indices in [[0, 1], [-2, 3]] {
            let mut scene = moving(random, (number, stage, kind));
            set_indices(&mut scene.joint, indices);
            case(call, &scene, list)?;
        }
    }
    for count in [2, 0] {
        let mut scene = moving(random, call);
        scene.joint.union_ = EMPTY;
        scene.states.truncate(count);
        case(call, &scene, list)?;
    }
    let mut scene = moving(random, call);
    scene.joint.type_ = joint_type(other_kind(random, called));
    case(call, &scene, list)
}

fn no_bodies(random: &mut Random, call: Call, list: &mut List) -> Step {
    for indices in [[NULL_INDEX; 2], [0, NULL_INDEX], [NULL_INDEX, 0]] {
        let mut scene = moving(random, call);
        scene.states.clear();
        set_indices(&mut scene.joint, indices);
        case(call, &scene, list)?;
    }
    Ok(())
}

fn flags(random: &mut Random, call: Call, list: &mut List) -> Step {
    for flags in FLAGS {
        for [a, b] in [[flags, DYNAMIC_FLAG], [DYNAMIC_FLAG, flags], [flags; 2]] {
            let mut scene = moving(random, call);
            scene.states[0].flags = a;
            scene.states[1].flags = b;
            case(call, &scene, list)?;
        }
    }
    Ok(())
}

/// Slices longer than a scene's, with indices at their ends and beyond.
fn long_slices(random: &mut Random, call: Call, list: &mut List) -> Step {
    let most = MOST_STATES as i32;
    let far = i32::MAX;
    for (count, indices) in [
        (4, [3, 1]),
        (32, [31, 32]),
        (33, [32, 0]),
        (most, [0, most - 1]),
        (most, [most - 1, most - 1]),
        (most, [most, 1]),
        (most, [1, far]),
    ] {
        let mut scene = moving(random, call);
        lengthen(random, &mut scene, count as usize);
        set_indices(&mut scene.joint, indices);
        case(call, &scene, list)?;
    }
    Ok(())
}

/// Solves of joints that are brought to the rare places.
fn aims(random: &mut Random, call: Call, list: &mut List) -> Step {
    let (_, stage, called) = call;
    if stage != Stage::Solve {
        return Ok(());
    }
    for aim in Aim::all(called) {
        for _ in 0..2 {
            let mut scene = moving(random, call);
            scene.aim(random, *aim);
            case(call, &scene, list)?;
        }
    }
    Ok(())
}

/// Solves, the rows with each determinant that their marks go by, rotation fixed and not.
fn marks(random: &mut Random, call: Call, list: &mut List) -> Step {
    let (_, stage, _) = call;
    if stage != Stage::Solve {
        return Ok(());
    }
    for rows in pairs_of_rows() {
        for fixed_rotation in [false, true] {
            let mut scene = moving(random, call);
            set_rows(&mut scene, rows);
            scene.joint.fixed_rotation = fixed_rotation;
            case(call, &scene, list)?;
        }
    }
    Ok(())
}
