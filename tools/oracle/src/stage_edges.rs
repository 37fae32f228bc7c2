//! The fixed cases at the places where the stages decide: determinants at the threshold, the hertz
//! of no spring, axes along each other, the polarity of quaternions, angles at their limits, what
//! `aims` brings joints to, and what the marks go by.

use crate::aims::Aim;
use crate::body::body_flags::DYNAMIC_FLAG;
use crate::cases::{List, Random, Step};
use crate::edges;
use crate::mark_edges::{determinants as mark_determinants, pairs_of_rows, set_rows, sum_of};
use crate::math_functions::{
    get_swing_angle, get_twist_angle, Quat, Vec3, QUAT_IDENTITY, VEC3_AXIS_Z,
};
use crate::records::{limit, limit_count, one_body, sides, Kind, KINDS};
use crate::scene::{Scene, HALF_TURN_X, HALF_TURN_Y};
use crate::solver_set::AWAKE_SET;
use crate::stages::{case, Stage};

const SWITCH: [bool; 2] = [false, true];

/// Writes all of them. What a case does not set is drawn, the same for all seeds.
pub fn write(list: &mut List) -> Step {
    let random = &mut Random::new(0, 2);
    for kind in KINDS {
        determinants(random, kind, list)?;
        hertz(random, kind, list)?;
        polarities(random, kind, list)?;
    }
    axes(random, list)?;
    limits(random, list)?;
    aims(random, list)?;
    // Drawn apart, so that the cases before them stay what they are.
    let random = &mut Random::new(0, 12);
    for kind in KINDS {
        mass_marks(random, kind, list)?;
        row_marks(random, kind, list)?;
    }
    Ok(())
}

/// A tame scene of two bodies: two different ones, and for solve both awake and dynamic.
pub fn two_bodies(random: &mut Random, stage: Stage, kind: Kind) -> Scene {
    loop {
        let scene = Scene::tame(random, stage, kind);
        let moved = scene.bodies.iter().all(|body| body.set_index == AWAKE_SET)
            && scene
                .states
                .iter()
                .all(|state| state.flags & DYNAMIC_FLAG != 0);
        if !one_body(&scene.joint, &scene.bodies) && (moved || stage == Stage::Prepare) {
            return scene;
        }
    }
}

/// Prepare, the sum of the inverse inertias with determinants at the threshold and without inverse.
fn determinants(random: &mut Random, kind: Kind, list: &mut List) -> Step {
    let mut sums = Vec::new();
    for target in edges::signed_targets() {
        let matrices = edges::with_determinant(target);
        sums.extend([matrices[0], matrices[matrices.len() - 1]]);
    }
    sums.extend(edges::without_inverse());
    for sum in sums {
        let mut scene = two_bodies(random, Stage::Prepare, kind);
        scene.set_inertia(random, sum);
        case(Stage::Prepare, &scene, list)?;
    }
    Ok(())
}

/// Prepare with springs and without, warm starting and not.
fn hertz(random: &mut Random, kind: Kind, list: &mut List) -> Step {
    for hertz in [[0.0, 4.0], [-0.0, 0.0], [f32::NAN, -0.0], [4.0, f32::NAN]] {
        for warm in SWITCH {
            let mut scene = two_bodies(random, Stage::Prepare, kind);
            scene.set_hertz(hertz);
            scene.context.enable_warm_starting = warm;
            case(Stage::Prepare, &scene, list)?;
        }
    }
    Ok(())
}

/// Prepare of spherical joints whose axes are the same or opposite.
fn axes(random: &mut Random, list: &mut List) -> Step {
    let half_twist = Quat {
        v: VEC3_AXIS_Z,
        s: 0.0,
    };
    for turned in [QUAT_IDENTITY, half_twist, HALF_TURN_X, HALF_TURN_Y] {
        for cone in SWITCH {
            for twist in SWITCH {
                let mut scene = two_bodies(random, Stage::Prepare, Kind::Spherical);
                for body in &mut scene.bodies {
                    body.rotation = QUAT_IDENTITY;
                }
                scene.joint.local_frame_a.q = QUAT_IDENTITY;
                scene.joint.local_frame_b.q = turned;
                let record = scene.joint.spherical_mut();
                record.enable_cone_limit = cone;
                record.enable_twist_limit = twist;
                case(Stage::Prepare, &scene, list)?;
            }
        }
    }
    Ok(())
}

/// Solve with the frames about a half turn apart, the limits on: the sign of the angle is decided there.
fn polarities(random: &mut Random, kind: Kind, list: &mut List) -> Step {
    for [x, y, z] in [[0.6, -0.8, 0.0], [0.0, 0.0, 1.0]] {
        for s in [0.0, -0.0, f32::MIN_POSITIVE, -f32::MIN_POSITIVE] {
            let mut scene = two_bodies(random, Stage::Solve, kind);
            scene.use_bias = true;
            scene.joint.fixed_rotation = false;
            turn_limits_on(&mut scene);
            for state in &mut scene.states {
                state.delta_rotation = QUAT_IDENTITY;
            }
            let [(_, frame_a), (_, frame_b)] = sides(&mut scene.joint);
            frame_a.q = QUAT_IDENTITY;
            frame_b.q.v = Vec3 { x, y, z };
            frame_b.q.s = s;
            case(Stage::Solve, &scene, list)?;
        }
    }
    Ok(())
}

/// Solve with one of the angles at its limit, or a little to either side of it.
fn limits(random: &mut Random, list: &mut List) -> Step {
    for kind in KINDS {
        for limit in 0..limit_count(kind) {
            for side in [-f32::EPSILON, 0.0, f32::EPSILON] {
                for use_bias in SWITCH {
                    let mut scene = two_bodies(random, Stage::Solve, kind);
                    scene.use_bias = use_bias;
                    scene.joint.fixed_rotation = false;
                    set_limit(&mut scene, limit, 1.0 + side);
                    case(Stage::Solve, &scene, list)?;
                }
            }
        }
    }
    Ok(())
}

fn turn_limits_on(scene: &mut Scene) {
    for n in 0..limit_count(scene.kind) {
        *limit(&mut scene.joint, n).enabled = true;
    }
}

/// Turns the limits on, and sets one of them to a multiple of the angle. Its impulse is so large
/// that most solves leave some of it, or they would look alike.
fn set_limit(scene: &mut Scene, n: usize, factor: f32) {
    let rotation = scene.relative_rotation();
    let angle = match n {
        0 | 1 => get_twist_angle(rotation),
        _ => get_swing_angle(rotation),
    };
    turn_limits_on(scene);
    let limit = limit(&mut scene.joint, n);
    *limit.angle = factor * angle;
    *limit.impulse = 100.0;
}

/// Solve of joints that are brought to the rare places.
fn aims(random: &mut Random, list: &mut List) -> Step {
    for kind in KINDS {
        for aim in Aim::all(kind) {
            for use_bias in SWITCH {
                let mut scene = two_bodies(random, Stage::Solve, kind);
                scene.use_bias = use_bias;
                scene.aim(random, *aim);
                case(Stage::Solve, &scene, list)?;
            }
        }
    }
    Ok(())
}

/// Prepare, the sum of the inverse inertias with each determinant that its mark goes by.
fn mass_marks(random: &mut Random, kind: Kind, list: &mut List) -> Step {
    for determinant in mark_determinants() {
        let mut scene = two_bodies(random, Stage::Prepare, kind);
        scene.set_inertia(random, sum_of(determinant));
        case(Stage::Prepare, &scene, list)?;
    }
    Ok(())
}

/// Solve, the rows with each determinant that their marks go by, rotation fixed and not.
fn row_marks(random: &mut Random, kind: Kind, list: &mut List) -> Step {
    for rows in pairs_of_rows() {
        for fixed_rotation in SWITCH {
            let mut scene = two_bodies(random, Stage::Solve, kind);
            set_rows(&mut scene, rows);
            scene.joint.fixed_rotation = fixed_rotation;
            case(Stage::Solve, &scene, list)?;
        }
    }
    Ok(())
}
