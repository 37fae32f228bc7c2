//! The records that the stages of the joints take, as words: joints, steps, bodies, states.

use crate::body::{Body, BodySim, BodyState};
use crate::joint::{JointSim, JointType, JointUnion, RevoluteJoint, SphericalJoint, WeldJoint};
use crate::math_functions::{Matrix3, Pos, Quat, Transform, Vec2, Vec3, TRANSFORM_IDENTITY};
use crate::solver::{Softness, StepContext};
use crate::words::{bits, record, Words};
use crate::world::World;
use std::ops::{Deref, DerefMut};

/// The kinds of joints whose stages are asked.
#[derive(Clone, Copy, PartialEq)]
pub enum Kind {
    Revolute,
    Spherical,
    Weld,
}

/// All kinds, in their order.
pub const KINDS: [Kind; 3] = [Kind::Revolute, Kind::Spherical, Kind::Weld];

/// The type of a joint of the kind.
pub fn joint_type(kind: Kind) -> JointType {
    match kind {
        Kind::Revolute => JointType::Revolute,
        Kind::Spherical => JointType::Spherical,
        Kind::Weld => JointType::Weld,
    }
}

/// The angles of the limit rows that the last solve worked, NaN for one that it did not (C-11).
#[derive(Clone, Copy)]
pub struct Angles {
    pub twist: f32,
    pub swing: f32,
}

/// The angles where no limit row was worked.
pub const NO_ANGLES: Angles = Angles {
    twist: f32::NAN,
    swing: f32::NAN,
};

/// A joint: the Rust's own record, and beside it the two angles that the Rust does not have.
#[derive(Clone, Copy)]
pub struct Joint {
    pub sim: JointSim,
    pub angles: Angles,
}

impl Deref for Joint {
    type Target = JointSim;

    fn deref(&self) -> &JointSim {
        &self.sim
    }
}

impl DerefMut for Joint {
    fn deref_mut(&mut self) -> &mut JointSim {
        &mut self.sim
    }
}

/// What prepare reads of a body: of `Body` the set and the place in it, of `BodySim` the rest.
#[derive(Clone, Copy)]
pub struct BodyRecord {
    pub set_index: i32,
    pub local_index: i32,
    pub inv_mass: f32,
    pub inv_inertia_world: Matrix3,
    /// `q` of its transform.
    pub rotation: Quat,
    pub center: Pos,
    pub local_center: Vec3,
}

record!(Transform { p: Vec3, q: Quat });
record!(RevoluteJoint {
    linear_impulse: Vec3,
    perp_impulse: Vec2,
    spring_impulse: f32,
    motor_impulse: f32,
    lower_impulse: f32,
    upper_impulse: f32,
    hertz: f32,
    damping_ratio: f32,
    max_motor_torque: f32,
    motor_speed: f32,
    target_angle: f32,
    lower_angle: f32,
    upper_angle: f32,
    index_a: i32,
    index_b: i32,
    frame_a: Transform,
    frame_b: Transform,
    rotation_axis_z: Vec3,
    perp_axis_x: Vec3,
    perp_axis_y: Vec3,
    delta_center: Vec3,
    delta_angle: f32,
    axial_mass: f32,
    spring_softness: Softness,
    enable_spring: bool,
    enable_motor: bool,
    enable_limit: bool
});
record!(SphericalJoint {
    linear_impulse: Vec3,
    spring_impulse: Vec3,
    motor_impulse: Vec3,
    lower_twist_impulse: f32,
    upper_twist_impulse: f32,
    swing_impulse: f32,
    hertz: f32,
    damping_ratio: f32,
    max_motor_torque: f32,
    motor_velocity: Vec3,
    lower_twist_angle: f32,
    upper_twist_angle: f32,
    cone_angle: f32,
    target_rotation: Quat,
    index_a: i32,
    index_b: i32,
    frame_a: Transform,
    frame_b: Transform,
    delta_center: Vec3,
    swing_axis: Vec3,
    twist_jacobian: Vec3,
    rotation_mass: Matrix3,
    swing_mass: f32,
    twist_mass: f32,
    spring_softness: Softness,
    enable_spring: bool,
    enable_motor: bool,
    enable_cone_limit: bool,
    enable_twist_limit: bool
});
record!(WeldJoint {
    linear_hertz: f32,
    linear_damping_ratio: f32,
    angular_hertz: f32,
    angular_damping_ratio: f32,
    linear_spring: Softness,
    angular_spring: Softness,
    linear_impulse: Vec3,
    angular_impulse: Vec3,
    index_a: i32,
    index_b: i32,
    frame_a: Transform,
    frame_b: Transform,
    delta_center: Vec3,
    angular_mass: Matrix3
});
record!(Angles {
    twist: f32,
    swing: f32
});
// The part that all kinds share. The angles and the record of the kind follow it.
record!(JointSim {
    joint_id: i32,
    body_id_a: i32,
    body_id_b: i32,
    type_: JointType,
    local_frame_a: Transform,
    local_frame_b: Transform,
    inv_mass_a: f32,
    inv_mass_b: f32,
    inv_i_a: Matrix3,
    inv_i_b: Matrix3,
    constraint_hertz: f32,
    constraint_damping_ratio: f32,
    constraint_softness: Softness,
    force_threshold: f32,
    torque_threshold: f32,
    fixed_rotation: bool,
    ..JointSim::default()
});
record!(StepContext {
    dt: f32,
    inv_dt: f32,
    h: f32,
    inv_h: f32,
    sub_step_count: i32,
    contact_softness: Softness,
    static_softness: Softness,
    restitution_threshold: f32,
    max_linear_velocity: f32,
    contact_speed: f32,
    enable_warm_starting: bool
});
record!(BodyRecord {
    set_index: i32,
    local_index: i32,
    inv_mass: f32,
    inv_inertia_world: Matrix3,
    rotation: Quat,
    center: Pos,
    local_center: Vec3
});
record!(BodyState {
    linear_velocity: Vec3,
    angular_velocity: Vec3,
    delta_position: Vec3,
    delta_rotation: Quat,
    flags: u32
});

// The counts of README.md.
const _: () = {
    assert!(JointSim::COUNT == 46);
    assert!(Angles::COUNT == 2);
    assert!(RevoluteJoint::COUNT == 52);
    assert!(SphericalJoint::COUNT == 68);
    assert!(WeldJoint::COUNT == 44);
    assert!(StepContext::COUNT == 15);
    assert!(BodyRecord::COUNT == 22);
    assert!(BodyState::COUNT == 14);
};

/// The types of joints, each at its number.
pub const JOINT_TYPES: [JointType; 9] = [
    JointType::Parallel,
    JointType::Distance,
    JointType::Filter,
    JointType::Motor,
    JointType::Prismatic,
    JointType::Revolute,
    JointType::Spherical,
    JointType::Weld,
    JointType::Wheel,
];

impl Words for JointType {
    const COUNT: usize = 1;

    fn read(from: &mut &[u32]) -> JointType {
        JOINT_TYPES[u32::read(from) as usize]
    }

    fn write(&self, to: &mut Vec<u32>) {
        to.push(*self as u32);
    }

    fn visit_floats(&mut self, _: &mut dyn FnMut(&mut f32)) {}
}

/// Takes a joint of a kind off the front of `from`.
pub fn read_joint(kind: Kind, from: &mut &[u32]) -> Joint {
    let mut joint = read_empty_joint(from);
    joint.union_ = match kind {
        Kind::Revolute => JointUnion::Revolute(RevoluteJoint::read(from)),
        Kind::Spherical => JointUnion::Spherical(SphericalJoint::read(from)),
        Kind::Weld => JointUnion::Weld(WeldJoint::read(from)),
    };
    joint
}

/// Takes a joint of the empty case, which has no record, off the front of `from`.
fn read_empty_joint(from: &mut &[u32]) -> Joint {
    let sim = JointSim {
        union_: EMPTY,
        ..JointSim::read(from)
    };
    let angles = Angles::read(from);
    Joint { sim, angles }
}

/// Does the same with the record of a joint, whatever its kind; the empty case has none.
macro_rules! with_record {
    ($union:expr, $record:ident => $body:expr, empty => $other:expr) => {
        match $union {
            JointUnion::Revolute($record) => $body,
            JointUnion::Spherical($record) => $body,
            JointUnion::Weld($record) => $body,
            _ => $other,
        }
    };
}

/// Appends a joint, its record included, to `to`.
pub fn write_joint(joint: &Joint, to: &mut Vec<u32>) {
    joint.sim.write(to);
    joint.angles.write(to);
    with_record!(&joint.union_, record => record.write(to), empty => {});
}

/// Shows each float of a joint but its angles, its record included, to `visit`.
pub fn visit_fields(joint: &mut JointSim, visit: &mut dyn FnMut(&mut f32)) {
    joint.visit_floats(visit);
    with_record!(&mut joint.union_, record => record.visit_floats(visit), empty => {});
}

/// Shows each float of a joint's impulses to `visit`; the empty case has none.
pub fn visit_impulses(joint: &mut JointSim, visit: &mut dyn FnMut(&mut f32)) {
    match &mut joint.union_ {
        JointUnion::Revolute(j) => {
            j.linear_impulse.visit_floats(visit);
            j.perp_impulse.visit_floats(visit);
            visit(&mut j.spring_impulse);
            visit(&mut j.motor_impulse);
            visit(&mut j.lower_impulse);
            visit(&mut j.upper_impulse);
        }
        JointUnion::Spherical(j) => {
            j.linear_impulse.visit_floats(visit);
            j.spring_impulse.visit_floats(visit);
            j.motor_impulse.visit_floats(visit);
            visit(&mut j.lower_twist_impulse);
            visit(&mut j.upper_twist_impulse);
            visit(&mut j.swing_impulse);
        }
        JointUnion::Weld(j) => {
            j.linear_impulse.visit_floats(visit);
            j.angular_impulse.visit_floats(visit);
        }
        _ => {}
    }
}

/// The bits of all velocity components, by which a run is still.
pub fn velocity_bits(states: &[BodyState]) -> Vec<u32> {
    let velocities = |state: &BodyState| {
        let (v, w) = (state.linear_velocity, state.angular_velocity);
        [v.x, v.y, v.z, w.x, w.y, w.z].map(bits)
    };
    states.iter().flat_map(velocities).collect()
}

/// For each body the index of its state and its frame.
pub fn sides(joint: &mut JointSim) -> [(&mut i32, &mut Transform); 2] {
    with_record!(&mut joint.union_, record => [
        (&mut record.index_a, &mut record.frame_a),
        (&mut record.index_b, &mut record.frame_b),
    ], empty => unreachable!("the empty case has no sides"))
}

/// A limit of a joint.
pub struct Limit<'a> {
    pub enabled: &'a mut bool,
    pub angle: &'a mut f32,
    pub impulse: &'a mut f32,
    pub mass: &'a mut f32,
}

/// How many limits a joint of the kind has.
pub fn limit_count(kind: Kind) -> usize {
    match kind {
        Kind::Revolute => 2,
        Kind::Spherical => 3,
        Kind::Weld => 0,
    }
}

/// A limit of a joint: the lower one, the upper one, and as the third the cone.
pub fn limit(joint: &mut JointSim, n: usize) -> Limit<'_> {
    let (enabled, angle, impulse, mass) = match (&mut joint.union_, n) {
        (JointUnion::Revolute(j), 0) => (
            &mut j.enable_limit,
            &mut j.lower_angle,
            &mut j.lower_impulse,
            &mut j.axial_mass,
        ),
        (JointUnion::Revolute(j), 1) => (
            &mut j.enable_limit,
            &mut j.upper_angle,
            &mut j.upper_impulse,
            &mut j.axial_mass,
        ),
        (JointUnion::Spherical(j), 0) => (
            &mut j.enable_twist_limit,
            &mut j.lower_twist_angle,
            &mut j.lower_twist_impulse,
            &mut j.twist_mass,
        ),
        (JointUnion::Spherical(j), 1) => (
            &mut j.enable_twist_limit,
            &mut j.upper_twist_angle,
            &mut j.upper_twist_impulse,
            &mut j.twist_mass,
        ),
        (JointUnion::Spherical(j), 2) => (
            &mut j.enable_cone_limit,
            &mut j.cone_angle,
            &mut j.swing_impulse,
            &mut j.swing_mass,
        ),
        _ => unreachable!("the joint has no such limit"),
    };
    Limit {
        enabled,
        angle,
        impulse,
        mass,
    }
}

/// The indices of a joint's two states.
pub fn indices(joint: &JointSim) -> [i32; 2] {
    let mut joint = *joint;
    sides(&mut joint).map(|(index, _)| *index)
}

pub fn set_indices(joint: &mut JointSim, indices: [i32; 2]) {
    for ((place, _), index) in sides(joint).into_iter().zip(indices) {
        *place = index;
    }
}

/// The empty case. It stands for every kind that is not asked, and no stage is called on it.
pub const EMPTY: JointUnion = JointUnion::Filter;

/// The kind of a joint's case; the empty case has none.
pub fn kind_of(joint: &JointSim) -> Option<Kind> {
    match joint.union_ {
        JointUnion::Revolute(_) => Some(Kind::Revolute),
        JointUnion::Spherical(_) => Some(Kind::Spherical),
        JointUnion::Weld(_) => Some(Kind::Weld),
        _ => None,
    }
}

/// The word of a joint's case: the place of its kind in `KINDS`, or the next for the empty case.
pub fn case_word(joint: &JointSim) -> u32 {
    kind_of(joint).map_or(KINDS.len() as u32, |kind| kind as u32)
}

/// Takes the word of a case and a joint of that case off the front of `from`.
pub fn read_cased_joint(from: &mut &[u32]) -> Joint {
    match KINDS.get(u32::read(from) as usize) {
        Some(kind) => read_joint(*kind, from),
        None => read_empty_joint(from),
    }
}

/// Appends the word of its case and the joint to `to`.
pub fn write_cased_joint(joint: &Joint, to: &mut Vec<u32>) {
    to.push(case_word(joint));
    write_joint(joint, to);
}

/// Do the ids of the joint, or the places of the bodies, lead to one body? Then both must have the
/// same words.
pub fn one_body(joint: &JointSim, [a, b]: &[BodyRecord; 2]) -> bool {
    joint.body_id_a == joint.body_id_b
        || (a.set_index, a.local_index) == (b.set_index, b.local_index)
}

/// A world in which the bodies are found, each by its id.
pub fn world(bodies: impl IntoIterator<Item = (i32, BodyRecord)>) -> World {
    let mut world = World::default();
    for (id, body) in bodies {
        *place(&mut world.bodies, id) = Body {
            set_index: body.set_index,
            local_index: body.local_index,
            ..Body::default()
        };
        let set = place(&mut world.solver_sets, body.set_index);
        *place(&mut set.body_sims, body.local_index) = BodySim {
            transform: Transform {
                q: body.rotation,
                ..TRANSFORM_IDENTITY
            },
            center: body.center,
            local_center: body.local_center,
            inv_mass: body.inv_mass,
            inv_inertia_world: body.inv_inertia_world,
            ..BodySim::default()
        };
    }
    world
}

/// The place of an index, made if there is none.
fn place<T: Default>(items: &mut Vec<T>, index: i32) -> &mut T {
    let index = usize::try_from(index).expect("the index is below zero");
    if items.len() <= index {
        items.resize_with(index + 1, T::default);
    }
    &mut items[index]
}
