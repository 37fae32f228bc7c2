//! The fixed cases by value at document 01's edges: cases of the joint, indices and flags that no
//! stage by value reads, impulses about zero, determinants at the threshold; C-11's angles at those of
//! the limits; what `aims` brings joints to; and what the marks go by.

use crate::aims::Aim;
use crate::cases::{
    List, Random, Step, INFINITY, LEAST, MINUS_INFINITY, MINUS_LEAST, MINUS_ONE, MINUS_ZERO, NAN,
    ONE, PLUS_ZERO, THRESHOLD,
};
use crate::direct::other_kind;
use crate::direct_edges::FLAGS;
use crate::edges;
use crate::mark_edges::{determinants as mark_determinants, pairs_of_rows, set_rows, sum_of};
use crate::math_functions::{Matrix3, Vec3};
use crate::records::{
    joint_type, limit, limit_count, set_indices, Angles, Joint, Kind, EMPTY, KINDS,
};
use crate::stage_edges::two_bodies;
use crate::stages::Stage;
use crate::values::{case, pair, stop_case, Call, CALLS};

const SWITCH: [bool; 2] = [false, true];

/// Writes all of them. What a case does not set is drawn, the same for all seeds.
pub fn write(list: &mut List) -> Step {
    let random = &mut Random::new(0, 9);
    for kind in KINDS {
        stops(random, kind, list)?;
    }
    for call in CALLS {
        joint_cases(random, call, list)?;
        unread(random, call, list)?;
        aims(random, call, list)?;
        determinants(random, call, list)?;
    }
    // Drawn apart, so that the cases before them stay what they are.
    let random = &mut Random::new(0, 11);
    for kind in KINDS {
        arrivals(random, kind, list)?;
    }
    switches(random, list)?;
    for call in CALLS {
        not_symmetric(random, call, list)?;
    }
    let random = &mut Random::new(0, 14);
    for call in CALLS {
        match call.1 {
            Stage::Prepare => mass_marks(random, call, list)?,
            Stage::WarmStart => {}
            Stage::Solve => row_marks(random, call, list)?,
        }
    }
    Ok(())
}

/// A joint of the kind whose limits all push and are all reached. No angle does for another: with twist
/// and swing exchanged, or with those of two limits, something is not reached.
fn pushing(random: &mut Random, kind: Kind) -> Joint {
    let mut joint = two_bodies(random, Stage::Solve, kind).joint;
    joint.fixed_rotation = false;
    joint.angles = Angles {
        twist: 0.25,
        swing: 1.5,
    };
    for (n, angle) in (0..limit_count(kind)).zip([0.5, -0.5, 1.0]) {
        let limit = limit(&mut joint, n);
        *limit.enabled = true;
        *limit.impulse = 1.0;
        *limit.angle = angle;
    }
    joint
}

/// Impulses about zero.
const IMPULSES: [u32; 9] = [
    PLUS_ZERO,
    MINUS_ZERO,
    LEAST,
    MINUS_LEAST,
    ONE,
    MINUS_ONE,
    INFINITY,
    MINUS_INFINITY,
    NAN,
];

/// The angle of a limit and that of the joint: the same, floats next to each other, zeros of both signs,
/// infinities, and no numbers.
const ARRIVALS: [[u32; 2]; 20] = [
    [ONE, ONE],
    [ONE, ONE - 1],
    [ONE, ONE + 1],
    [MINUS_ONE, MINUS_ONE],
    [MINUS_ONE, MINUS_ONE - 1],
    [MINUS_ONE, MINUS_ONE + 1],
    [PLUS_ZERO, MINUS_ZERO],
    [MINUS_ZERO, PLUS_ZERO],
    [MINUS_ZERO, LEAST],
    [PLUS_ZERO, MINUS_LEAST],
    [INFINITY, INFINITY],
    [MINUS_INFINITY, MINUS_INFINITY],
    [ONE, INFINITY],
    [ONE, MINUS_INFINITY],
    [INFINITY, ONE],
    [MINUS_INFINITY, ONE],
    [ONE, NAN],
    [ONE, OTHER_NAN],
    [NAN, ONE],
    [NAN, NAN],
];

/// A NaN with the sign and a payload, which signals.
const OTHER_NAN: u32 = 0xff80_0001;

/// Stop codes: each limit at the joint's angle and about it, alone and beside others.
fn arrivals(random: &mut Random, kind: Kind, list: &mut List) -> Step {
    let count = limit_count(kind);
    for n in 0..count {
        for others in [0.0, 1.0] {
            for [at, angle] in ARRIVALS.map(|pair| pair.map(f32::from_bits)) {
                let mut joint = pushing(random, kind);
                for other in 0..count {
                    *limit(&mut joint, other).impulse = others;
                }
                let stop = limit(&mut joint, n);
                [*stop.impulse, *stop.angle] = [1.0, at];
                match n {
                    0 | 1 => joint.angles.twist = angle,
                    _ => joint.angles.swing = angle,
                }
                stop_case(&joint, list)?;
            }
        }
    }
    Ok(())
}

/// Stop codes: one of spherical's switches on and the other off; and each angle alone a number.
fn switches(random: &mut Random, list: &mut List) -> Step {
    for (twist, cone) in [(true, false), (false, true)] {
        let mut joint = pushing(random, Kind::Spherical);
        *limit(&mut joint, 0).enabled = twist;
        *limit(&mut joint, 2).enabled = cone;
        stop_case(&joint, list)?;
        joint = pushing(random, Kind::Spherical);
        let Angles { twist: t, swing: s } = joint.angles;
        joint.angles = Angles {
            twist: if twist { t } else { f32::NAN },
            swing: if cone { s } else { f32::NAN },
        };
        stop_case(&joint, list)?;
    }
    Ok(())
}

/// Stop codes: each impulse about zero, alone and beside others; each limit off; rotation fixed; a
/// type that is not the kind's; the empty case.
fn stops(random: &mut Random, kind: Kind, list: &mut List) -> Step {
    let count = limit_count(kind);
    for n in 0..count {
        for others in [0.0, 1.0] {
            for impulse in IMPULSES.map(f32::from_bits) {
                let mut joint = pushing(random, kind);
                for other in 0..count {
                    *limit(&mut joint, other).impulse = others;
                }
                *limit(&mut joint, n).impulse = impulse;
                stop_case(&joint, list)?;
            }
        }
        let mut joint = pushing(random, kind);
        *limit(&mut joint, n).enabled = false;
        stop_case(&joint, list)?;
    }
    for fixed_rotation in SWITCH {
        let mut joint = pushing(random, kind);
        joint.fixed_rotation = fixed_rotation;
        joint.type_ = joint_type(other_kind(random, kind));
        stop_case(&joint, list)?;
        joint.union_ = EMPTY;
        stop_case(&joint, list)?;
    }
    Ok(())
}

/// Joints of all cases, and a type that is not the kind's, which decides nothing.
fn joint_cases(random: &mut Random, call: Call, list: &mut List) -> Step {
    let (_, stage, called) = call;
    for kind in KINDS {
        let mut scene = two_bodies(random, stage, kind);
        let pair = pair(&scene);
        case(call, &scene, &pair, list)?;
        scene.joint.type_ = joint_type(called);
        if kind == called {
            scene.joint.type_ = joint_type(other_kind(random, called));
        }
        case(call, &scene, &pair, list)?;
    }
    let mut scene = two_bodies(random, stage, called);
    let pair = pair(&scene);
    scene.joint.union_ = EMPTY;
    case(call, &scene, &pair, list)
}

/// Indices that a direct call refuses, and flags: a stage by value reads neither.
fn unread(random: &mut Random, call: Call, list: &mut List) -> Step {
    let (_, stage, called) = call;
    let indices = [[-2, i32::MAX], [i32::MIN, -1], [32, 33], [1, 1]];
    for (indices, flags) in indices.into_iter().zip(FLAGS) {
        let mut scene = two_bodies(random, stage, called);
        for state in &mut scene.states {
            state.flags = flags;
        }
        let pair = pair(&scene);
        set_indices(&mut scene.joint, indices);
        case(call, &scene, &pair, list)?;
    }
    Ok(())
}

/// Solves of joints that are brought to the rare places.
fn aims(random: &mut Random, call: Call, list: &mut List) -> Step {
    let (_, stage, called) = call;
    if stage != Stage::Solve {
        return Ok(());
    }
    for aim in Aim::all(called) {
        let mut scene = two_bodies(random, stage, called);
        scene.aim(random, *aim);
        case(call, &scene, &pair(&scene), list)?;
    }
    Ok(())
}

/// A matrix that differs from its transpose at each place, and so does its inverse.
const NOT_SYMMETRIC: Matrix3 = Matrix3 {
    cx: Vec3 {
        x: 4.0,
        y: 1.0,
        z: 2.0,
    },
    cy: Vec3 {
        x: -1.0,
        y: 8.0,
        z: 3.0,
    },
    cz: Vec3 {
        x: 1.0,
        y: -2.0,
        z: 6.0,
    },
};

/// Prepare, the sum of the inverse inertias not symmetric: who exchanges places of the inverse shows.
fn not_symmetric(random: &mut Random, call: Call, list: &mut List) -> Step {
    let (_, stage, called) = call;
    if stage != Stage::Prepare {
        return Ok(());
    }
    let mut scene = two_bodies(random, stage, called);
    scene.set_inertia(random, NOT_SYMMETRIC);
    case(call, &scene, &pair(&scene), list)
}

/// Prepare, the sum of the inverse inertias with a determinant at the threshold.
fn determinants(random: &mut Random, call: Call, list: &mut List) -> Step {
    let (_, stage, called) = call;
    if stage != Stage::Prepare {
        return Ok(());
    }
    let threshold = f32::from_bits(THRESHOLD);
    for sum in edges::with_determinant(threshold).into_iter().step_by(4) {
        let mut scene = two_bodies(random, stage, called);
        scene.set_inertia(random, sum);
        case(call, &scene, &pair(&scene), list)?;
    }
    Ok(())
}

/// Prepare, the sum of the inverse inertias with each determinant that its mark goes by.
fn mass_marks(random: &mut Random, call: Call, list: &mut List) -> Step {
    for determinant in mark_determinants() {
        let mut scene = two_bodies(random, call.1, call.2);
        scene.set_inertia(random, sum_of(determinant));
        case(call, &scene, &pair(&scene), list)?;
    }
    Ok(())
}

/// Solves, the rows with each determinant that their marks go by, rotation fixed and not.
fn row_marks(random: &mut Random, call: Call, list: &mut List) -> Step {
    for rows in pairs_of_rows() {
        for fixed_rotation in SWITCH {
            let mut scene = two_bodies(random, call.1, call.2);
            set_rows(&mut scene, rows);
            scene.joint.fixed_rotation = fixed_rotation;
            case(call, &scene, &pair(&scene), list)?;
        }
    }
    Ok(())
}
