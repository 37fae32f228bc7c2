//! The wall of gates that the rows work on: the models of crates/models, hung in a row as
//! crates/bench_wall hangs them.

use crate::body::{body_flags::DYNAMIC_FLAG, BodyState};
use crate::joint::revolute::prepare_revolute_joint;
use crate::joint::spherical::prepare_spherical_joint;
use crate::joint::weld::prepare_weld_joint;
use crate::joint::{JointSim, JointType, JointUnion, RevoluteJoint, SphericalJoint, WeldJoint};
use crate::math_functions::*;
use crate::records::{self, BodyRecord};
use crate::solver::{make_soft, StepContext};
use crate::solver_set::AWAKE_SET;
use crate::world::World;

/// The number of the post, on which gate 0 hangs.
const POST: i32 = 32;

/// Joints after prepare, the states of their bodies, and the world in which prepare finds the bodies.
pub struct Wall {
    pub joints: Vec<JointSim>,
    pub states: Vec<BodyState>,
    pub context: StepContext,
    pub world: World,
}

impl Wall {
    /// 0 is the door's joint, 1 the hip's and 2 the strut's; any other kind takes them in turn.
    pub fn new(kind: usize) -> Wall {
        let case = |k: i32| if kind < 3 { kind as i32 } else { k % 3 };
        let gates = (0..32).map(|k| (k, gate_body(k)));
        let world = records::world(gates.chain([(POST, post_body())]));
        Wall {
            joints: (0..32).map(|k| gate_joint(case(k), k, &world)).collect(),
            states: (0..32).map(gate_state).collect(),
            context: step(),
            world,
        }
    }
}

fn vec3(x: f32, y: f32, z: f32) -> Vec3 {
    Vec3 { x, y, z }
}

fn quat(x: f32, y: f32, z: f32, s: f32) -> Quat {
    Quat {
        v: vec3(x, y, z),
        s,
    }
}

fn step() -> StepContext {
    StepContext {
        dt: 0.015625,
        inv_dt: 64.0,
        h: 0.00390625,
        inv_h: 256.0,
        sub_step_count: 4,
        contact_softness: make_soft(0.0, 0.0, 0.0),
        static_softness: make_soft(0.0, 0.0, 0.0),
        restitution_threshold: 1.0,
        max_linear_velocity: 400.0,
        contact_speed: 3.0,
        enable_warm_starting: true,
    }
}

/// The door's hinge.
fn hinge() -> RevoluteJoint {
    RevoluteJoint {
        linear_impulse: vec3(0.01, -0.02, 0.03),
        perp_impulse: Vec2 { x: 0.01, y: 0.02 },
        spring_impulse: 0.01,
        motor_impulse: 0.02,
        lower_impulse: 0.03,
        upper_impulse: 0.01,
        hertz: 4.0,
        damping_ratio: 0.7,
        max_motor_torque: 20.0,
        motor_speed: 0.5,
        target_angle: 0.25,
        lower_angle: -0.125,
        upper_angle: 0.09375,
        enable_spring: true,
        enable_motor: true,
        enable_limit: true,
        ..RevoluteJoint::default()
    }
}

/// The hip's socket.
fn socket() -> SphericalJoint {
    SphericalJoint {
        linear_impulse: vec3(0.01, -0.02, 0.03),
        spring_impulse: vec3(0.02, 0.01, -0.01),
        motor_impulse: vec3(0.01, 0.03, -0.02),
        lower_twist_impulse: 0.01,
        upper_twist_impulse: 0.02,
        swing_impulse: 0.03,
        hertz: 4.0,
        damping_ratio: 0.7,
        max_motor_torque: 20.0,
        motor_velocity: vec3(0.125, -0.25, 0.375),
        lower_twist_angle: -0.125,
        upper_twist_angle: 0.09375,
        cone_angle: 0.125,
        target_rotation: quat(0.02, -0.01, 0.03, 0.9993),
        enable_spring: true,
        enable_motor: true,
        enable_cone_limit: true,
        enable_twist_limit: true,
        ..SphericalJoint::default()
    }
}

/// The strut's weld.
fn weld() -> WeldJoint {
    WeldJoint {
        linear_hertz: 2.0,
        linear_damping_ratio: 0.5,
        angular_hertz: 2.0,
        angular_damping_ratio: 0.7,
        linear_impulse: vec3(0.01, -0.02, 0.03),
        angular_impulse: vec3(0.02, 0.01, -0.01),
        ..WeldJoint::default()
    }
}

/// Gate k before prepare.
fn gate(case: i32, k: i32) -> JointSim {
    let (type_, union_) = match case {
        0 => (JointType::Revolute, JointUnion::Revolute(hinge())),
        1 => (JointType::Spherical, JointUnion::Spherical(socket())),
        _ => (JointType::Weld, JointUnion::Weld(weld())),
    };
    let place = |x| vec3(x, 0.0625, -0.125);
    let turned = quat(0.03125, 0.0625, 0.046875, 0.996454);
    JointSim {
        joint_id: k,
        body_id_a: if k == 0 { POST } else { k - 1 },
        body_id_b: k,
        type_,
        local_frame_a: Transform {
            p: place(0.5),
            q: QUAT_IDENTITY,
        },
        local_frame_b: Transform {
            p: place(-0.5),
            q: turned,
        },
        constraint_hertz: 60.0,
        constraint_damping_ratio: 2.0,
        constraint_softness: make_soft(60.0, 2.0, step().h),
        force_threshold: 1000.0,
        torque_threshold: 1000.0,
        union_,
        ..JointSim::default()
    }
}

fn gate_body(k: i32) -> BodyRecord {
    BodyRecord {
        set_index: AWAKE_SET,
        local_index: k,
        inv_mass: 1.0,
        inv_inertia_world: Matrix3 {
            cx: vec3(2.0, 0.125, 0.25),
            cy: vec3(0.125, 3.0, 0.375),
            cz: vec3(0.25, 0.375, 4.0),
        },
        rotation: QUAT_IDENTITY,
        center: vec3(k as f32, 0.0, 0.0),
        local_center: VEC3_ZERO,
    }
}

fn post_body() -> BodyRecord {
    BodyRecord {
        set_index: 0,
        local_index: 0,
        inv_mass: 0.0,
        inv_inertia_world: MAT3_ZERO,
        rotation: QUAT_IDENTITY,
        center: VEC3_ZERO,
        local_center: VEC3_ZERO,
    }
}

fn gate_joint(case: i32, k: i32, world: &World) -> JointSim {
    let prepare = match case {
        0 => prepare_revolute_joint,
        1 => prepare_spherical_joint,
        _ => prepare_weld_joint,
    };
    let mut joint = gate(case, k);
    prepare(world, &mut joint, &step());
    joint
}

/// Each gate moves and turns a little more than the one before it.
fn gate_state(k: i32) -> BodyState {
    let more = 0.03125 * k as f32;
    let speed = 0.25f32;
    BodyState {
        linear_velocity: vec3(0.25 + speed, more, 0.5 * speed),
        angular_velocity: vec3(0.125 - speed, 0.5 * speed, 0.5 - more),
        delta_position: vec3(0.001 * speed, -0.002, 0.003),
        delta_rotation: quat(0.01 * speed, 0.02 * speed - 0.02, 0.03 * more, 0.9994),
        flags: DYNAMIC_FLAG,
    }
}
