//! The checksums of what the rows leave. Every NaN counts as one.

use crate::bench_wall::Wall;
use crate::body::BodyState;
use crate::joint::{JointSim, JointUnion, RevoluteJoint, SphericalJoint, WeldJoint};
use crate::math_functions::{Matrix3, Transform, Vec3};
use crate::solver::Softness;
use crate::words::bits;

pub fn add_word(sum: u32, word: u32) -> u32 {
    ((u64::from(sum) * 16777619 + u64::from(word)) % 4294967291) as u32
}

pub fn add_float(sum: u32, x: f32) -> u32 {
    add_word(sum, bits(x))
}

fn add_floats(sum: u32, floats: &[f32]) -> u32 {
    floats.iter().fold(sum, |sum, x| add_float(sum, *x))
}

fn add_vec3(sum: u32, v: Vec3) -> u32 {
    add_floats(sum, &[v.x, v.y, v.z])
}

fn add_revolute(sum: u32, j: &RevoluteJoint) -> u32 {
    let sum = add_vec3(sum, j.linear_impulse);
    let sum = add_floats(sum, &[j.perp_impulse.x, j.perp_impulse.y]);
    let sum = add_floats(sum, &[j.spring_impulse, j.motor_impulse]);
    add_floats(sum, &[j.lower_impulse, j.upper_impulse])
}

fn add_spherical(sum: u32, j: &SphericalJoint) -> u32 {
    let sum = add_vec3(sum, j.linear_impulse);
    let sum = add_vec3(add_vec3(sum, j.spring_impulse), j.motor_impulse);
    add_floats(
        sum,
        &[
            j.lower_twist_impulse,
            j.upper_twist_impulse,
            j.swing_impulse,
        ],
    )
}

fn add_impulses(sum: u32, joint: &JointSim) -> u32 {
    match &joint.union_ {
        JointUnion::Revolute(j) => add_revolute(sum, j),
        JointUnion::Spherical(j) => add_spherical(sum, j),
        JointUnion::Weld(j) => add_vec3(add_vec3(sum, j.linear_impulse), j.angular_impulse),
        _ => sum,
    }
}

/// What a stage can change: the impulses of a joint and the velocities of a body.
pub fn add_gate(sum: u32, joint: &JointSim, state: &BodyState) -> u32 {
    let sum = add_vec3(add_impulses(sum, joint), state.linear_velocity);
    add_vec3(sum, state.angular_velocity)
}

pub fn sum_wall(wall: &Wall) -> u32 {
    let gates = wall.joints.iter().zip(&wall.states);
    gates.fold(0, |sum, (joint, state)| add_gate(sum, joint, state))
}

fn add_matrix(sum: u32, m: Matrix3) -> u32 {
    add_vec3(add_vec3(add_vec3(sum, m.cx), m.cy), m.cz)
}

fn add_transform(sum: u32, t: Transform) -> u32 {
    add_float(add_vec3(add_vec3(sum, t.p), t.q.v), t.q.s)
}

fn add_softness(sum: u32, s: Softness) -> u32 {
    add_floats(sum, &[s.bias_rate, s.mass_scale, s.impulse_scale])
}

fn add_prepared_revolute(sum: u32, j: &RevoluteJoint) -> u32 {
    let sum = add_transform(add_transform(sum, j.frame_a), j.frame_b);
    let sum = add_vec3(add_vec3(sum, j.delta_center), j.rotation_axis_z);
    let sum = add_vec3(add_vec3(sum, j.perp_axis_x), j.perp_axis_y);
    add_softness(add_float(sum, j.axial_mass), j.spring_softness)
}

fn add_prepared_spherical(sum: u32, j: &SphericalJoint) -> u32 {
    let sum = add_transform(add_transform(sum, j.frame_a), j.frame_b);
    let sum = add_vec3(add_vec3(sum, j.delta_center), j.swing_axis);
    let sum = add_matrix(add_vec3(sum, j.twist_jacobian), j.rotation_mass);
    let sum = add_floats(sum, &[j.swing_mass, j.twist_mass]);
    add_softness(sum, j.spring_softness)
}

fn add_prepared_weld(sum: u32, j: &WeldJoint) -> u32 {
    let sum = add_transform(add_transform(sum, j.frame_a), j.frame_b);
    let sum = add_matrix(add_vec3(sum, j.delta_center), j.angular_mass);
    add_softness(add_softness(sum, j.linear_spring), j.angular_spring)
}

fn add_prepared(sum: u32, joint: &JointSim) -> u32 {
    let sum = add_floats(sum, &[joint.inv_mass_a, joint.inv_mass_b]);
    let sum = add_matrix(add_matrix(sum, joint.inv_i_a), joint.inv_i_b);
    match &joint.union_ {
        JointUnion::Revolute(j) => add_prepared_revolute(sum, j),
        JointUnion::Spherical(j) => add_prepared_spherical(sum, j),
        JointUnion::Weld(j) => add_prepared_weld(sum, j),
        _ => sum,
    }
}

/// The floats that prepare writes.
pub fn sum_prepared(wall: &Wall) -> u32 {
    wall.joints.iter().fold(0, add_prepared)
}
