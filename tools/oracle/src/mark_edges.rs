//! The fixed cases of the marks: masses and rows whose determinants are the threshold, floats beside it,
//! and numbers far from it, with rotation fixed and not.

use crate::edges::{diagonal, power, signed_targets};
use crate::marks::{arms, perp_axes, perp_matrix, point_matrix};
use crate::math_functions::*;
use crate::records::sides;
use crate::scene::Scene;

/// The determinants: the threshold between the floats beside it, of either sign, then zero, 8 and
/// -8, the infinities and a NaN.
pub fn determinants() -> Vec<f32> {
    let infinity = f32::INFINITY;
    let far = [0.0, 8.0, -8.0, infinity, -infinity, f32::NAN];
    signed_targets().chain(far).collect()
}

/// For each determinant of the point row one of the perpendicular row, so that all marks of the one
/// meet all of the other.
pub fn pairs_of_rows() -> Vec<[f32; 2]> {
    let all = determinants();
    let other = |i| all[(i + 3) % all.len()];
    (0..all.len()).map(|i| [all[i], other(i)]).collect()
}

fn is_same(a: f32, b: f32) -> bool {
    a == b || (a.is_nan() && b.is_nan())
}

/// A matrix of this determinant, for the sum of the inverse inertias.
pub fn sum_of(determinant: f32) -> Matrix3 {
    let sum = diagonal(determinant * power(40), power(-15), power(-25));
    assert!(is_same(det(sum), determinant), "the determinant is missed");
    sum
}

/// The turn that takes x to y, y to z and z to x. Nothing rounds where it is used.
const TURN: Quat = Quat {
    v: Vec3 {
        x: 0.5,
        y: 0.5,
        z: 0.5,
    },
    s: 0.5,
};

/// Gives the joint masses with which its rows have these determinants. Both bodies are turned alike, so
/// that the axes of the perpendicular row are y and z. The arm of A comes to lie on y and B has none: the
/// point row sees A's inertia about x alone, which the perpendicular row does not see.
pub fn set_rows(scene: &mut Scene, [point, perp]: [f32; 2]) {
    for state in &mut scene.states {
        state.delta_rotation = TURN;
    }
    let arm = [VEC3_AXIS_X, VEC3_ZERO];
    for ((_, frame), p) in sides(&mut scene.joint).into_iter().zip(arm) {
        let q = QUAT_IDENTITY;
        *frame = Transform { p, q };
    }
    let joint = &mut scene.joint;
    let (mass, inertia) = mass_and_inertia(point);
    [joint.inv_mass_a, joint.inv_mass_b] = [mass, 0.0];
    joint.inv_i_a = diagonal(inertia, 0.0, 0.0);
    joint.inv_i_b = inertia_about(perp);
    let k = point_matrix(joint, arms(joint, &scene.states));
    assert!(is_same(det(k), point), "the determinant is missed");
    let k = perp_matrix(joint, perp_axes(joint, &scene.states));
    assert!(is_same(call_det2(k), perp), "the determinant is missed");
}

/// The mass of A, and its inertia about x. The matrix of the point row is diagonal: the mass twice, and the
/// sum of both.
fn mass_and_inertia(determinant: f32) -> (f32, f32) {
    if determinant.is_finite() {
        (power(-45), determinant * power(90) - power(-45))
    } else if determinant.is_nan() {
        (determinant, 0.0)
    } else {
        (determinant.signum() * power(50), 0.0)
    }
}

/// The inertia of B. The axes of the perpendicular row are of length one half.
fn inertia_about(determinant: f32) -> Matrix3 {
    let far = power(100);
    // A NaN is the difference of two infinities: one in the inertia would reach the point row too.
    let [yy, yz, zz] = if determinant.is_finite() {
        [determinant * power(20), 0.0, power(-20)]
    } else if determinant.is_nan() {
        [far; 3]
    } else {
        [determinant.signum() * far, 0.0, far]
    };
    let mut inertia = diagonal(0.0, 4.0 * yy, 4.0 * zz);
    [inertia.cy.z, inertia.cz.y] = [4.0 * yz; 2];
    inertia
}
