//! How the inputs of a stage are drawn: a step, two bodies, a joint between them, their states.

use crate::aims::Aim;
use crate::body::{body_flags::DYNAMIC_FLAG, BodyState};
use crate::cases::Random;
use crate::core::NULL_INDEX;
use crate::draw::{pattern, sound_of, tame};
use crate::edges;
use crate::joint::{JointSim, JointUnion, RevoluteJoint, SphericalJoint, WeldJoint};
use crate::math_functions::*;
use crate::records::{
    joint_type, limit, limit_count, one_body, set_indices, sides, visit_fields, Angles, BodyRecord,
    Joint, Kind, JOINT_TYPES, NO_ANGLES,
};
use crate::solver::{make_soft, Softness, StepContext};
use crate::solver_set::AWAKE_SET;
use crate::stages::{self, Stage};
use crate::words::Words;

/// Body ids and places in a set are below this, so that worlds stay small.
const PLACES: u32 = 8;

/// All that a stage of a joint can take.
pub struct Scene {
    pub kind: Kind,
    pub joint: Joint,
    pub context: StepContext,
    pub bodies: [BodyRecord; 2],
    pub states: Vec<BodyState>,
    pub use_bias: bool,
}

impl Scene {
    /// The scene of a case, in one of several modes.
    pub fn drawn(random: &mut Random, stage: Stage, kind: Kind) -> Scene {
        let mut scene = Scene::tame(random, stage, kind);
        match random.below(16) {
            0 | 1 if stage == Stage::Solve => {
                let aim = choose(random, Aim::all(kind));
                scene.aim(random, aim);
            }
            0..=7 => {}
            8..=12 => {
                let rate = 16 << random.below(4);
                scene.change(random, rate, changed);
            }
            _ => {
                let wild = choose(random, &WILD);
                scene.change(random, 1, wild);
                scene.change_integers(random, stage);
            }
        }
        scene.settle();
        scene
    }

    /// A scene such as the stages meet in use, with a few of the rare cases.
    pub fn tame(random: &mut Random, stage: Stage, kind: Kind) -> Scene {
        let context = context(random);
        let (states, indices) = states(random);
        let mut bodies = bodies(random, indices);
        let mut joint = joint(random, kind, context.h);
        hang(random, &mut joint, kind, &mut bodies);
        let mut scene = Scene {
            kind,
            joint,
            context,
            bodies,
            states,
            use_bias: random.one_in(2),
        };
        if stage == Stage::Prepare {
            scene.vary_bodies(random);
        } else {
            scene.settle();
            scene.ready(random, indices);
        }
        if random.one_in(4) {
            scene.vary_hertz(random);
        }
        scene.settle();
        scene.hold_angles(random);
        scene
    }

    /// A prepared joint between two bodies of a larger scene, which has these states.
    pub fn between(
        random: &mut Random,
        kind: Kind,
        context: StepContext,
        states: &[BodyState],
        bodies: [BodyRecord; 2],
        indices: [i32; 2],
    ) -> Scene {
        let mut joint = joint(random, kind, context.h);
        // An id for each place of that scene, and one for what has none.
        [joint.body_id_a, joint.body_id_b] = indices.map(|index| index + 1);
        fit(random, &mut joint, kind, &bodies);
        let mut scene = Scene {
            kind,
            joint,
            context,
            bodies,
            states: states.to_vec(),
            use_bias: false,
        };
        scene.settle();
        scene.prepare();
        scene.place(random, indices);
        scene.hold_angles(random);
        scene
    }

    /// Brings the joint to a place where its solve decides.
    pub fn aim(&mut self, random: &mut Random, aim: Aim) {
        aim.take(random, &mut self.joint, &self.states);
        self.use_bias = aim.bias().unwrap_or(self.use_bias);
    }

    /// Two bodies at one place are the same body.
    fn settle(&mut self) {
        if one_body(&self.joint, &self.bodies) {
            self.bodies[1] = self.bodies[0];
        }
    }

    /// Takes the bodies out of the order that the states ask for, and now and then brings the
    /// determinant of their inertias to where prepare decides.
    fn vary_bodies(&mut self, random: &mut Random) {
        for body in &mut self.bodies {
            body.local_index = random.below(PLACES) as i32;
        }
        if random.one_in(8) {
            let target = choose(random, &edges::signed_targets().collect::<Vec<_>>());
            let matrix = choose(random, &edges::with_determinant(target));
            self.set_inertia(random, matrix);
        } else if random.one_in(16) {
            let matrix = choose(random, &edges::without_inverse());
            self.set_inertia(random, matrix);
        }
    }

    /// Gives the bodies inverse inertias of this sum.
    pub fn set_inertia(&mut self, random: &mut Random, sum: Matrix3) {
        let half = mul_sm(0.5, sum);
        let [a, b] = choose(random, &[[sum, MAT3_ZERO], [MAT3_ZERO, sum], [half, half]]);
        self.bodies[0].inv_inertia_world = a;
        self.bodies[1].inv_inertia_world = b;
    }

    /// Brings the joint to where warm start and solve find it: prepared, the limits near. One in
    /// four is not prepared: its frames, axes and masses do not fit the bodies.
    fn ready(&mut self, random: &mut Random, indices: [i32; 2]) {
        if !random.one_in(4) {
            self.prepare();
        }
        self.place(random, indices);
    }

    /// Prepares the joint, its impulses kept.
    fn prepare(&mut self) {
        let context = StepContext {
            enable_warm_starting: true,
            ..self.context
        };
        stages::prepare(self.kind, &mut self.joint, &context, &self.bodies);
    }

    /// Gives the joint its indices, and mostly limits that are near.
    fn place(&mut self, random: &mut Random, indices: [i32; 2]) {
        if random.one_in(12) {
            self.joint.fixed_rotation = true;
        } else if random.one_in(3) {
            self.joint.fixed_rotation = false;
        }
        set_indices(&mut self.joint, indices);
        if !random.one_in(8) {
            self.near_limits(random);
        }
    }

    /// Sets the limits near to the angles, so that all branches of their rows are met.
    fn near_limits(&mut self, random: &mut Random) {
        let rotation = self.relative_rotation();
        let (twist, swing) = (get_twist_angle(rotation), get_swing_angle(rotation));
        match &mut self.joint.union_ {
            JointUnion::Revolute(record) => {
                record.lower_angle = twist - gap(random);
                record.upper_angle = twist + gap(random);
                record.target_angle = twist + gap(random);
            }
            JointUnion::Spherical(record) => {
                record.lower_twist_angle = twist - gap(random);
                record.upper_twist_angle = twist + gap(random);
                record.cone_angle = swing + gap(random);
                if random.one_in(2) {
                    record.target_rotation = mul_quat(rotation, small_rotation(random));
                }
            }
            _ => {}
        }
    }

    /// Gives the joint angles such as it may hold before a stage, whatever was done with it.
    fn hold_angles(&mut self, random: &Random) {
        let random = &mut random.beside(10);
        let limits: Vec<f32> = (0..limit_count(self.kind))
            .map(|n| *limit(&mut self.joint, n).angle)
            .collect();
        self.joint.angles = Angles {
            twist: held_angle(random, &limits),
            swing: held_angle(random, &limits),
        };
    }

    /// The rotation of frame B as frame A sees it, the way solve computes it.
    pub fn relative_rotation(&self) -> Quat {
        let [a, b] = rotations(&self.joint, &self.states);
        inv_mul_quat(a, b)
    }

    fn vary_hertz(&mut self, random: &mut Random) {
        let hertz = [0; 2].map(|_| {
            let below = -positive(random, 0, 5);
            choose(random, &[0.0, -0.0, f32::NAN, below, f32::from_bits(1)])
        });
        self.set_hertz(hertz);
    }

    /// Sets the hertz of the record; a weld has two.
    pub fn set_hertz(&mut self, hertz: [f32; 2]) {
        match &mut self.joint.union_ {
            JointUnion::Revolute(record) => record.hertz = hertz[0],
            JointUnion::Spherical(record) => record.hertz = hertz[0],
            JointUnion::Weld(record) => {
                [record.linear_hertz, record.angular_hertz] = hertz;
            }
            _ => unreachable!(),
        }
    }

    /// Changes one float in `rate`.
    fn change(&mut self, random: &mut Random, rate: u32, change: Change) {
        let mut visit = changer(random, rate, change);
        visit_fields(&mut self.joint, &mut visit);
        self.context.visit_floats(&mut visit);
        for body in &mut self.bodies {
            body.visit_floats(&mut visit);
        }
        for state in &mut self.states {
            state.visit_floats(&mut visit);
        }
    }

    /// Makes the integers anything that the stage takes.
    fn change_integers(&mut self, random: &mut Random, stage: Stage) {
        self.joint.type_ = choose(random, &JOINT_TYPES);
        self.context.sub_step_count = random.word() as i32;
        if stage == Stage::Prepare {
            for (index, _) in sides(&mut self.joint) {
                *index = random.word() as i32;
            }
        } else {
            self.joint.body_id_a = random.word() as i32;
            self.joint.body_id_b = random.word() as i32;
        }
    }
}

/// The rotations of a joint's two frames, the way solve computes them.
pub fn rotations(joint: &JointSim, states: &[BodyState]) -> [Quat; 2] {
    let mut joint = *joint;
    sides(&mut joint).map(|(index, frame)| {
        let turned = match *index {
            NULL_INDEX => QUAT_IDENTITY,
            index => states[index as usize].delta_rotation,
        };
        mul_quat(turned, frame.q)
    })
}

/// The rotation of frame B as frame A sees it, after the flip that revolute and weld make, and the
/// rotation of frame A.
pub fn flipped(joint: &JointSim, states: &[BodyState]) -> [Quat; 2] {
    let [a, mut b] = rotations(joint, states);
    if dot_quat(a, b) < 0.0 {
        b = negate_quat(b);
    }
    [inv_mul_quat(a, b), a]
}

/// What a float is changed to.
pub type Change = fn(&mut Random, f32) -> f32;

/// Changes one in `rate` of the floats that it is shown.
pub fn changer(random: &mut Random, rate: u32, change: Change) -> impl FnMut(&mut f32) + '_ {
    move |x| {
        if random.one_in(rate) {
            *x = change(random, *x);
        }
    }
}

/// How the floats of a wild case are changed, all in one of these ways.
pub const WILD: [Change; 6] = [patterns, bits, subnormal, simple, sized, changed];

/// Each float in a way of its own.
pub fn changed(random: &mut Random, x: f32) -> f32 {
    let ways = [
        patterns, bits, subnormal, simple, sized, negative, neighbour,
    ];
    choose(random, &ways)(random, x)
}

fn patterns(random: &mut Random, _: f32) -> f32 {
    f32::from_bits(pattern(random))
}

fn bits(random: &mut Random, _: f32) -> f32 {
    f32::from_bits(random.word())
}

fn subnormal(random: &mut Random, _: f32) -> f32 {
    f32::from_bits(random.word() & 0x807f_ffff)
}

/// Numbers whose sums and products are exact, many of them zeros.
fn simple(random: &mut Random, _: f32) -> f32 {
    choose(random, &[0.0, -0.0, 1.0, -1.0, 0.5, -0.5, 2.0, -2.0])
}

fn sized(random: &mut Random, _: f32) -> f32 {
    f32::from_bits(tame(random))
}

fn negative(_: &mut Random, x: f32) -> f32 {
    -x
}

fn same(_: &mut Random, x: f32) -> f32 {
    x
}

/// A NaN of any sign and payload.
pub fn any_nan(random: &mut Random) -> f32 {
    f32::from_bits(random.word() | 0x7f80_0001)
}

pub fn neighbour(random: &mut Random, x: f32) -> f32 {
    let step = if random.one_in(2) { 1 } else { -1 };
    f32::from_bits(x.to_bits().wrapping_add_signed(step))
}

pub fn choose<T: Copy>(random: &mut Random, from: &[T]) -> T {
    from[random.below(from.len() as u32) as usize]
}

/// A number of either sign, of a size below a power of two with an exponent from `low` to `high`.
fn number(random: &mut Random, low: i32, high: i32) -> f32 {
    (random.power(low, high) * random.even()) as f32
}

/// As `number`, above zero.
pub fn positive(random: &mut Random, low: i32, high: i32) -> f32 {
    (random.power(low, high) * (1.5 + 0.5 * random.even())) as f32
}

/// A vector with components of like size.
pub fn vector(random: &mut Random, low: i32, high: i32) -> Vec3 {
    let size = random.power(low, high);
    let [x, y, z] = [0; 3].map(|_| (size * random.even()) as f32);
    Vec3 { x, y, z }
}

fn direction(random: &mut Random) -> Vec3 {
    rotate_vector(sound_of(random), VEC3_AXIS_Z)
}

/// A rotation about `v`, by twice the angle whose tangent is its length.
fn rotation(v: Vec3) -> Quat {
    normalize_quat(Quat { v, s: 1.0 })
}

fn small_rotation(random: &mut Random) -> Quat {
    rotation(vector(random, -12, -2))
}

pub fn context(random: &mut Random) -> StepContext {
    let rates = [60.0, 90.0, 100.0, 120.0, 144.0, 180.0, 360.0, 480.0];
    let rate = if random.one_in(2) {
        240.0
    } else {
        choose(random, &rates)
    };
    let sub_step_count = 1 + random.below(8) as i32;
    let h = 1.0 / rate;
    let dt = sub_step_count as f32 * h;
    let hertz = positive(random, 4, 6);
    StepContext {
        dt,
        inv_dt: 1.0 / dt,
        h,
        inv_h: 1.0 / h,
        sub_step_count,
        contact_softness: make_soft(hertz, 10.0, h),
        static_softness: make_soft(2.0 * hertz, 10.0, h),
        restitution_threshold: 1.0,
        max_linear_velocity: 400.0,
        contact_speed: 3.0,
        enable_warm_starting: random.one_in(2),
    }
}

/// Up to three states, and the indices of two of them.
fn states(random: &mut Random) -> (Vec<BodyState>, [i32; 2]) {
    let count = choose(random, &[0, 1, 1, 1, 2, 2, 2, 2, 2, 2, 3, 3]);
    let indices = indices(random, count);
    ((0..count).map(|_| state(random)).collect(), indices)
}

/// The indices of two of `count` states: mostly different ones, now and then one of both, or none.
pub fn indices(random: &mut Random, count: u32) -> [i32; 2] {
    let mut index = || {
        if count == 0 || random.one_in(6) {
            NULL_INDEX
        } else {
            random.below(count) as i32
        }
    };
    let [a, mut b] = [index(), index()];
    if a == b && count > 0 && !random.one_in(3) {
        b = if count == 1 && a == 0 {
            NULL_INDEX
        } else {
            (a + 1) % count as i32
        };
    }
    [a, b]
}

pub fn state(random: &mut Random) -> BodyState {
    let mut velocity = || {
        if random.one_in(16) {
            VEC3_ZERO
        } else {
            vector(random, -4, 5)
        }
    };
    BodyState {
        linear_velocity: velocity(),
        angular_velocity: velocity(),
        delta_position: vector(random, -12, -3),
        delta_rotation: match random.below(8) {
            0 => QUAT_IDENTITY,
            1 => sound_of(random),
            _ => small_rotation(random),
        },
        flags: match random.below(8) {
            0 => 0,
            1 => random.word(),
            2 => random.word() | DYNAMIC_FLAG,
            _ => DYNAMIC_FLAG,
        },
    }
}

fn bodies(random: &mut Random, indices: [i32; 2]) -> [BodyRecord; 2] {
    let masses = masses(random);
    [0, 1].map(|i| body(random, indices[i], masses[i]))
}

/// A body with an inverse mass and inertia, awake if it has a state. What has none is mostly static.
pub fn body(random: &mut Random, index: i32, mass: (f32, Matrix3)) -> BodyRecord {
    let asleep = index == NULL_INDEX;
    let (inv_mass, inv_inertia_world) = if asleep && !random.one_in(4) {
        (0.0, MAT3_ZERO)
    } else {
        mass
    };
    BodyRecord {
        set_index: if asleep {
            choose(random, &[0, 0, 1, 3, 4])
        } else {
            AWAKE_SET
        },
        local_index: if asleep {
            random.below(PLACES) as i32
        } else {
            index
        },
        inv_mass,
        inv_inertia_world,
        rotation: sound_of(random),
        center: vector(random, -2, 7),
        local_center: vector(random, -6, 0),
    }
}

/// The inverse masses and inertias of two bodies. Now and then one of them, or both, does not move
/// or does not turn.
pub fn masses(random: &mut Random) -> [(f32, Matrix3); 2] {
    let mut masses = [0; 2].map(|_| (positive(random, -6, 6), sound_of(random)));
    let [a, b] = &mut masses;
    match random.below(24) {
        0 => *a = (0.0, MAT3_ZERO),
        1 => *b = (0.0, MAT3_ZERO),
        2 => [*a, *b] = [(0.0, MAT3_ZERO); 2],
        3 => [a.1, b.1] = [MAT3_ZERO; 2],
        4 => a.1 = MAT3_ZERO,
        5 => [a.0, b.0] = [0.0; 2],
        _ => {}
    }
    masses
}

/// A joint whose fields do not know of each other, nor of the bodies.
fn joint(random: &mut Random, kind: Kind, h: f32) -> Joint {
    let body_id_a = random.below(PLACES);
    let body_id_b = if random.one_in(16) {
        body_id_a
    } else {
        (body_id_a + 1 + random.below(PLACES - 1)) % PLACES
    };
    let [(inv_mass_a, inv_i_a), (inv_mass_b, inv_i_b)] = masses(random);
    let hertz = (135.0 + 105.0 * random.even()) as f32;
    let damping_ratio = damping(random);
    let sim = JointSim {
        joint_id: random.word() as i32,
        body_id_a: body_id_a as i32,
        body_id_b: body_id_b as i32,
        type_: joint_type(kind),
        local_frame_a: frame(random),
        local_frame_b: frame(random),
        inv_mass_a,
        inv_mass_b,
        inv_i_a,
        inv_i_b,
        constraint_hertz: hertz,
        constraint_damping_ratio: damping_ratio,
        constraint_softness: make_soft(hertz, damping_ratio, h),
        force_threshold: positive(random, 0, 20),
        torque_threshold: positive(random, 0, 20),
        fixed_rotation: random.one_in(8),
        union_: match kind {
            Kind::Revolute => JointUnion::Revolute(revolute(random, h)),
            Kind::Spherical => JointUnion::Spherical(spherical(random, h)),
            Kind::Weld => JointUnion::Weld(weld(random, h)),
        },
    };
    Joint {
        sim,
        angles: NO_ANGLES,
    }
}

fn revolute(random: &mut Random, h: f32) -> RevoluteJoint {
    let (hertz, damping_ratio, spring_softness) = spring(random, h);
    RevoluteJoint {
        linear_impulse: vector(random, -6, 4),
        perp_impulse: sound_of(random),
        spring_impulse: number(random, -6, 3),
        motor_impulse: number(random, -6, 3),
        lower_impulse: limit_impulse(random),
        upper_impulse: limit_impulse(random),
        hertz,
        damping_ratio,
        max_motor_torque: positive(random, -2, 12),
        motor_speed: number(random, -2, 5),
        target_angle: angle(random),
        lower_angle: -angle(random).abs(),
        upper_angle: angle(random).abs(),
        index_a: number(random, 0, 4) as i32,
        index_b: number(random, 0, 4) as i32,
        frame_a: frame(random),
        frame_b: frame(random),
        rotation_axis_z: direction(random),
        perp_axis_x: mul_sv(0.5, direction(random)),
        perp_axis_y: mul_sv(0.5, direction(random)),
        delta_center: vector(random, -2, 3),
        delta_angle: angle(random),
        axial_mass: positive(random, -7, 5),
        spring_softness,
        enable_spring: random.one_in(2),
        enable_motor: random.one_in(2),
        enable_limit: random.one_in(2),
    }
}

fn spherical(random: &mut Random, h: f32) -> SphericalJoint {
    let (hertz, damping_ratio, spring_softness) = spring(random, h);
    SphericalJoint {
        linear_impulse: vector(random, -6, 4),
        spring_impulse: vector(random, -6, 3),
        motor_impulse: vector(random, -6, 3),
        lower_twist_impulse: limit_impulse(random),
        upper_twist_impulse: limit_impulse(random),
        swing_impulse: limit_impulse(random),
        hertz,
        damping_ratio,
        max_motor_torque: positive(random, -2, 12),
        motor_velocity: vector(random, -2, 5),
        lower_twist_angle: -angle(random).abs(),
        upper_twist_angle: angle(random).abs(),
        cone_angle: 0.5 * angle(random).abs(),
        target_rotation: sound_of(random),
        index_a: number(random, 0, 4) as i32,
        index_b: number(random, 0, 4) as i32,
        frame_a: frame(random),
        frame_b: frame(random),
        delta_center: vector(random, -2, 3),
        swing_axis: direction(random),
        twist_jacobian: vector(random, -1, 2),
        rotation_mass: sound_of(random),
        swing_mass: positive(random, -7, 5),
        twist_mass: positive(random, -7, 5),
        spring_softness,
        enable_spring: random.one_in(2),
        enable_motor: random.one_in(2),
        enable_cone_limit: random.one_in(2),
        enable_twist_limit: random.one_in(2),
    }
}

fn weld(random: &mut Random, h: f32) -> WeldJoint {
    let (linear_hertz, linear_damping_ratio, linear_spring) = spring(random, h);
    let (angular_hertz, angular_damping_ratio, angular_spring) = spring(random, h);
    WeldJoint {
        linear_hertz,
        linear_damping_ratio,
        angular_hertz,
        angular_damping_ratio,
        linear_spring,
        angular_spring,
        linear_impulse: vector(random, -6, 4),
        angular_impulse: vector(random, -6, 3),
        index_a: number(random, 0, 4) as i32,
        index_b: number(random, 0, 4) as i32,
        frame_a: frame(random),
        frame_b: frame(random),
        delta_center: vector(random, -2, 3),
        angular_mass: sound_of(random),
    }
}

/// Hertz, damping ratio and the softness that they make.
fn spring(random: &mut Random, h: f32) -> (f32, f32, Softness) {
    let hertz = if random.one_in(4) {
        0.0
    } else {
        positive(random, 0, 5)
    };
    let damping_ratio = damping(random);
    (hertz, damping_ratio, make_soft(hertz, damping_ratio, h))
}

fn damping(random: &mut Random) -> f32 {
    let other = positive(random, -4, 4);
    choose(random, &[0.0, 1.0, 2.0, 5.0, other, other])
}

fn limit_impulse(random: &mut Random) -> f32 {
    if random.one_in(2) {
        0.0
    } else {
        positive(random, -6, 3)
    }
}

pub fn angle(random: &mut Random) -> f32 {
    (f64::from(PI) * random.even()) as f32
}

/// An angle that a joint holds: none, that of a limit or next to it, a plain one, or any float.
pub fn held_angle(random: &mut Random, limits: &[f32]) -> f32 {
    match random.below(8) {
        0 | 1 => f32::NAN,
        2 => any_nan(random),
        3 | 4 if !limits.is_empty() => {
            let limit = choose(random, limits);
            choose(random, &[same, neighbour])(random, limit)
        }
        3..=5 => angle(random),
        _ => choose(random, &[patterns, bits])(random, 0.0),
    }
}

fn frame(random: &mut Random) -> Transform {
    Transform {
        p: vector(random, -2, 2),
        q: sound_of(random),
    }
}

/// How far an angle is from a limit: none, or to either side.
fn gap(random: &mut Random) -> f32 {
    let size = positive(random, -10, 0);
    choose(random, &[0.0, 0.0, size, size, size, -size, -size, -size])
}

/// Hangs body B on body A: the frames meet but for a small error, and are turned against each other
/// as far as the kind lets them. Now and then their axes are the same or opposite to the bit.
fn hang(random: &mut Random, joint: &mut JointSim, kind: Kind, bodies: &mut [BodyRecord; 2]) {
    turn_frame(random, joint, kind, bodies);
    let [a, b] = bodies;
    let [frame_a, frame_b] = [&mut joint.local_frame_a, &mut joint.local_frame_b];
    match random.below(16) {
        0 => (b.rotation, frame_b.q) = (a.rotation, frame_a.q),
        1 => {
            [a.rotation, b.rotation, frame_a.q] = [QUAT_IDENTITY; 3];
            let twist = twist(random);
            frame_b.q = choose(random, &[HALF_TURN_X, HALF_TURN_Y, twist]);
        }
        _ => {}
    }
    if random.one_in(4) {
        frame_b.q = negate_quat(frame_b.q);
    }
    let arm_a = rotate_vector(a.rotation, sub(frame_a.p, a.local_center));
    let arm_b = rotate_vector(b.rotation, sub(frame_b.p, b.local_center));
    let error = vector(random, -12, -3);
    b.center = add(add(a.center, sub(arm_a, arm_b)), error);
}

/// Hangs the joint between two bodies that stay where they are: the frames meet but for a small
/// error.
fn fit(random: &mut Random, joint: &mut JointSim, kind: Kind, bodies: &[BodyRecord; 2]) {
    turn_frame(random, joint, kind, bodies);
    let [a, b] = bodies;
    let arm_a = rotate_vector(a.rotation, sub(joint.local_frame_a.p, a.local_center));
    let anchor = add(add(a.center, arm_a), vector(random, -12, -3));
    let arm_b = inv_rotate_vector(b.rotation, sub(anchor, b.center));
    joint.local_frame_b.p = add(b.local_center, arm_b);
}

/// Turns frame B against frame A as far as the kind lets it.
fn turn_frame(random: &mut Random, joint: &mut JointSim, kind: Kind, [a, b]: &[BodyRecord; 2]) {
    let rotation = mul_quat(a.rotation, joint.local_frame_a.q);
    let rotation = mul_quat(rotation, turned(random, kind));
    joint.local_frame_b.q = inv_mul_quat(b.rotation, rotation);
}

pub const HALF_TURN_X: Quat = Quat {
    v: VEC3_AXIS_X,
    s: 0.0,
};
pub const HALF_TURN_Y: Quat = Quat {
    v: VEC3_AXIS_Y,
    s: 0.0,
};

/// The rotation of frame B as frame A sees it.
fn turned(random: &mut Random, kind: Kind) -> Quat {
    let twist = twist(random);
    let swing = swing(random);
    let small = small_rotation(random);
    match (kind, random.below(4)) {
        (_, 0) => sound_of(random),
        (Kind::Revolute, _) => mul_quat(small, twist),
        (Kind::Spherical, _) => mul_quat(swing, twist),
        (Kind::Weld, _) => small,
    }
}

/// A rotation about z.
fn twist(random: &mut Random) -> Quat {
    let z = number(random, -4, 4);
    rotation(Vec3 { z, ..VEC3_ZERO })
}

/// A rotation about an axis across z.
fn swing(random: &mut Random) -> Quat {
    let axis = vector(random, -4, 3);
    rotation(Vec3 { z: 0.0, ..axis })
}
