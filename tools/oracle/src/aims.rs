//! Joints brought to places where a solve decides and which drawn numbers hardly meet: determinants
//! at the threshold inside the rows, rotations square to a spring's target, gaps and bounds that are
//! no numbers, gaps of zero, and impulses of -0.0.

use crate::body::BodyState;
use crate::cases::Random;
use crate::edges;
use crate::joint::{JointSim, JointUnion, SphericalJoint};
use crate::marks::{arms, perp_axes, perp_matrix, point_matrix};
use crate::math_functions::*;
use crate::records::{limit, sides, Kind};
use crate::scene::{choose, positive, rotations};
use crate::solver::Softness;

/// What a joint is brought to.
#[derive(Clone, Copy)]
pub enum Aim {
    /// The determinant of the point row at the threshold.
    Point,
    /// The determinant of the perpendicular row at the threshold.
    Perpendicular,
    /// A rotation with an s below zero whose dot product with the spring's target is zero.
    SquareTarget,
    /// A rotation with an s below zero whose dot product with the spring's target is a NaN. Either
    /// polarity makes the spring's impulse a NaN.
    NanTarget,
    /// The gap of this limit is a NaN, and its impulse is not zero.
    NanGap(usize),
    /// The bound of the motor is a NaN.
    NanBound,
    /// The motor's impulse has a component that is a NaN, and one that is none.
    NanImpulse,
    /// The impulse of this limit becomes the larger of -0.0 and 0.0.
    ZeroImpulse(usize),
    /// The gap of this limit is zero.
    ZeroGap(usize),
}
use Aim::*;

impl Aim {
    /// All that a joint of the kind can be brought to.
    pub fn all(kind: Kind) -> &'static [Aim] {
        match kind {
            Kind::Revolute => &[
                Point,
                Perpendicular,
                NanGap(0),
                NanGap(1),
                NanBound,
                ZeroImpulse(0),
                ZeroImpulse(1),
                ZeroGap(0),
                ZeroGap(1),
            ],
            Kind::Spherical => &[
                Point,
                SquareTarget,
                NanTarget,
                NanGap(0),
                NanGap(1),
                NanGap(2),
                NanBound,
                NanImpulse,
                ZeroImpulse(0),
                ZeroImpulse(1),
                ZeroImpulse(2),
                ZeroGap(0),
                ZeroGap(1),
                ZeroGap(2),
            ],
            Kind::Weld => &[Point],
        }
    }

    /// Whether it shows in a solve with bias or in one without, if not in both.
    pub fn bias(self) -> Option<bool> {
        match self {
            NanGap(_) => Some(false),
            ZeroImpulse(_) | ZeroGap(_) => Some(true),
            _ => None,
        }
    }

    /// Brings a joint there. Its indices name none or one of the states.
    pub fn take(self, random: &mut Random, joint: &mut JointSim, states: &[BodyState]) {
        joint.fixed_rotation = false;
        match self {
            Point => point(random, joint, states),
            Perpendicular => perpendicular(random, joint, states),
            SquareTarget | NanTarget => {
                let rotation = turned_below(joint, states);
                let target = match self {
                    SquareTarget => square_to(random, rotation),
                    _ => not_square_to(random, rotation),
                };
                spring_to(joint.spherical_mut(), target);
            }
            NanGap(n) => nan_gap(random, joint, n),
            NanBound => nan_bound(joint),
            NanImpulse => nan_impulse(random, joint.spherical_mut()),
            ZeroImpulse(n) => zero_impulse(random, joint, n),
            ZeroGap(n) => zero_gap(random, joint, states, n),
        }
    }
}

/// How often a factor is drawn before a determinant is given up.
const ATTEMPTS: u32 = 400;

/// A factor next to another, by a few of its last bits.
fn next_to(random: &mut Random, factor: f64) -> f32 {
    (factor * (1.0 + random.even() / f64::from(1 << 21))) as f32
}

/// The threshold, mostly; else a float beside it.
fn target(random: &mut Random) -> f32 {
    let [below, at, above] = edges::targets();
    choose(random, &[at, at, at, at, at, below, above])
}

/// Scales the masses until the determinant of the point row is the target as the Rust computes it.
/// Where no factor is found, both arms are zero, and the sum of the masses has that third power.
fn point(random: &mut Random, joint: &mut JointSim, states: &[BodyState]) {
    let arms = arms(joint, states);
    let sign = choose(random, &[1.0, 1.0, 1.0, -1.0]);
    let target = sign * target(random);
    let factor = (f64::from(target) / f64::from(det(point_matrix(joint, arms)))).cbrt();
    for _ in 0..ATTEMPTS {
        let scaled = scaled(random, joint, factor);
        if det(point_matrix(&scaled, arms)) == target {
            *joint = scaled;
            return;
        }
    }
    let unit = sign / (1u64 << 42) as f32;
    [joint.inv_mass_a, joint.inv_mass_b] = [8.0 * unit, 2.0 * unit];
    [joint.inv_i_a, joint.inv_i_b] = [MAT3_ZERO; 2];
    for (_, frame) in sides(joint) {
        frame.p = VEC3_ZERO;
    }
}

/// A joint with its masses multiplied, each by a factor next to this one.
fn scaled(random: &mut Random, joint: &JointSim, factor: f64) -> JointSim {
    JointSim {
        inv_mass_a: next_to(random, factor) * joint.inv_mass_a,
        inv_mass_b: next_to(random, factor) * joint.inv_mass_b,
        inv_i_a: scaled_matrix(random, joint.inv_i_a, factor),
        inv_i_b: scaled_matrix(random, joint.inv_i_b, factor),
        ..*joint
    }
}

/// A matrix multiplied by a factor; the diagonal by factors next to it.
fn scaled_matrix(random: &mut Random, matrix: Matrix3, factor: f64) -> Matrix3 {
    let mut scaled = mul_sm(factor as f32, matrix);
    scaled.cx.x = next_to(random, factor) * matrix.cx.x;
    scaled.cy.y = next_to(random, factor) * matrix.cy.y;
    scaled.cz.z = next_to(random, factor) * matrix.cz.z;
    scaled
}

/// Scales the inertias until the determinant of the perpendicular row is the target.
fn perpendicular(random: &mut Random, joint: &mut JointSim, states: &[BodyState]) {
    let axes = perp_axes(joint, states);
    if det2_of(joint, axes) <= 0.0 {
        joint.inv_i_a = MAT3_IDENTITY;
    }
    let target = target(random);
    let factor = (f64::from(target) / f64::from(det2_of(joint, axes))).sqrt();
    for _ in 0..ATTEMPTS {
        let scaled = JointSim {
            inv_mass_a: joint.inv_mass_a,
            inv_mass_b: joint.inv_mass_b,
            ..scaled(random, joint, factor)
        };
        if det2_of(&scaled, axes) == target {
            *joint = scaled;
            return;
        }
    }
}

/// The determinant of the perpendicular row, as solve computes it.
fn det2_of(joint: &JointSim, axes: [Vec3; 2]) -> f32 {
    call_det2(perp_matrix(joint, axes))
}

/// Negates frame B where that brings the s of the relative rotation below zero, and gives the
/// rotation.
fn turned_below(joint: &mut JointSim, states: &[BodyState]) -> Quat {
    let relative = |joint: &JointSim| {
        let [a, b] = rotations(joint, states);
        inv_mul_quat(a, b)
    };
    if relative(joint).s > 0.0 {
        let [_, (_, frame_b)] = sides(joint);
        frame_b.q = negate_quat(frame_b.q);
    }
    relative(joint)
}

/// A rotation whose dot product with another is exactly zero: the products cancel two by two.
fn square_to(random: &mut Random, Quat { v, s }: Quat) -> Quat {
    let [one, two] = [0; 2].map(|_| choose(random, &[1.0, -1.0]));
    Quat {
        v: Vec3 {
            x: -one * v.y,
            y: one * v.x,
            z: -two * s,
        },
        s: two * v.z,
    }
}

/// A rotation whose dot product with another is a NaN: by a NaN, or by infinities that cancel.
fn not_square_to(random: &mut Random, Quat { v, s }: Quat) -> Quat {
    let mut target = Quat { v, s };
    match random.below(3) {
        0 => target.s = f32::NAN,
        1 => target.v.x = f32::NAN,
        _ => {
            target.v.x = v.x * f32::INFINITY;
            target.s = -s * f32::INFINITY;
        }
    }
    target
}

/// Turns the spring on, with a softness and a mass that are not zero.
fn spring_to(record: &mut SphericalJoint, target: Quat) {
    record.enable_spring = true;
    record.target_rotation = target;
    if record.spring_softness.bias_rate == 0.0 {
        record.spring_softness = Softness {
            bias_rate: 8.0,
            mass_scale: 0.75,
            impulse_scale: 0.25,
        };
    }
    if record.rotation_mass == MAT3_ZERO {
        record.rotation_mass = MAT3_IDENTITY;
    }
}

/// Turns a limit on whose gap is a NaN, by its own angle, or by the joint's.
fn nan_gap(random: &mut Random, joint: &mut JointSim, n: usize) {
    if random.one_in(4) {
        let [_, (_, frame_b)] = sides(joint);
        frame_b.q.s = f32::NAN;
    }
    let impulse = positive(random, 8, 12);
    let limit = limit(joint, n);
    *limit.enabled = true;
    *limit.angle = f32::NAN;
    *limit.impulse = impulse;
}

fn nan_bound(joint: &mut JointSim) {
    match &mut joint.union_ {
        JointUnion::Revolute(record) => {
            record.enable_motor = true;
            record.max_motor_torque = f32::NAN;
        }
        JointUnion::Spherical(record) => {
            record.enable_motor = true;
            record.max_motor_torque = f32::NAN;
        }
        _ => unreachable!("the kind has no motor"),
    }
}

fn nan_impulse(random: &mut Random, record: &mut SphericalJoint) {
    record.enable_motor = true;
    let Vec3 { x, y, z } = &mut record.motor_impulse;
    let mut places = [x, y, z];
    let first = random.below(3) as usize;
    *places[first] = f32::NAN;
    if random.one_in(3) {
        *places[(first + 1) % 3] = f32::NAN;
    }
}

/// Turns a limit on that is passed, has no mass, and an impulse of -0.0, to which -0.0 is added.
fn zero_impulse(random: &mut Random, joint: &mut JointSim, n: usize) {
    let rate = positive(random, 4, 8);
    joint.constraint_softness = Softness {
        bias_rate: choose(random, &[-rate, -rate, -rate, -rate, -rate, 0.0]),
        mass_scale: positive(random, -2, 1),
        impulse_scale: choose(random, &[-0.0, -0.5]),
    };
    let limit = limit(joint, n);
    *limit.enabled = true;
    // Beyond all angles: the lower limit from above, the others from below.
    *limit.angle = if n == 0 { 8.0 } else { -8.0 };
    *limit.impulse = -0.0;
    *limit.mass = 0.0;
}

/// Turns a limit on whose angle is the joint's own.
fn zero_gap(random: &mut Random, joint: &mut JointSim, states: &[BodyState], n: usize) {
    let [a, b] = rotations(joint, states);
    let rotation = inv_mul_quat(a, b);
    let impulse = positive(random, 8, 12);
    let limit = limit(joint, n);
    *limit.enabled = true;
    *limit.angle = match n {
        0 | 1 => get_twist_angle(rotation),
        _ => get_swing_angle(rotation),
    };
    *limit.impulse = impulse;
}
