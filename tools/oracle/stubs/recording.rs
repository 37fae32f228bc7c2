//! Stands for recording.rs: the joints' setters note each call in a recording; this one keeps none.

use crate::world::World;

pub struct Recording;

pub fn with_recording(_: &mut World, _: impl FnOnce(&mut Recording)) {}

macro_rules! notes {
    ($($name:ident($($value:ident),+);)+) => {
        impl Recording {
            $(pub fn $name<$($value),+>(&mut self, $(_: $value),+) {})+
        }
    };
}

notes! {
    write_revolute_joint_enable_limit(A, B);
    write_revolute_joint_enable_motor(A, B);
    write_revolute_joint_enable_spring(A, B);
    write_revolute_joint_set_limits(A, B, C);
    write_revolute_joint_set_max_motor_torque(A, B);
    write_revolute_joint_set_motor_speed(A, B);
    write_revolute_joint_set_spring_damping_ratio(A, B);
    write_revolute_joint_set_spring_hertz(A, B);
    write_revolute_joint_set_target_angle(A, B);
    write_spherical_joint_enable_cone_limit(A, B);
    write_spherical_joint_enable_motor(A, B);
    write_spherical_joint_enable_spring(A, B);
    write_spherical_joint_enable_twist_limit(A, B);
    write_spherical_joint_set_cone_limit(A, B);
    write_spherical_joint_set_max_motor_torque(A, B);
    write_spherical_joint_set_motor_velocity(A, B);
    write_spherical_joint_set_spring_damping_ratio(A, B);
    write_spherical_joint_set_spring_hertz(A, B);
    write_spherical_joint_set_target_rotation(A, B);
    write_spherical_joint_set_twist_limits(A, B, C);
    write_weld_joint_set_angular_damping_ratio(A, B);
    write_weld_joint_set_angular_hertz(A, B);
    write_weld_joint_set_linear_damping_ratio(A, B);
    write_weld_joint_set_linear_hertz(A, B);
}
