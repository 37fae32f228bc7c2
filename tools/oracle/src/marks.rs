//! C-15's marks: whether a matrix was solved or fell back to zeros. The Rust has none. Each is formed
//! here and nowhere else, of what the Rust's own functions give in the order of the Rust's text.

use crate::body::BodyState;
use crate::core::NULL_INDEX;
use crate::joint::{JointSim, JointUnion};
use crate::math_functions::{self as rust, *};
use crate::records::sides;
use crate::scene::flipped;
use crate::words::{record, Words};

/// A row that is not worked and a mass that is not inverted have none.
#[derive(Clone, Copy)]
pub enum Mark {
    None,
    Solved,
    FellBack,
}
use Mark::{FellBack, Solved};

impl Words for Mark {
    const COUNT: usize = 1;

    fn read(from: &mut &[u32]) -> Mark {
        [Mark::None, Solved, FellBack][u32::read(from) as usize]
    }

    fn write(&self, to: &mut Vec<u32>) {
        to.push(*self as u32);
    }

    fn visit_floats(&mut self, _: &mut dyn FnMut(&mut f32)) {}
}

/// By the test of the Rust's text, which a determinant that is the threshold fails, and so does a NaN.
fn decided(determinant: f32) -> Mark {
    if determinant > 1000.0 * f32::MIN_POSITIVE {
        Solved
    } else {
        FellBack
    }
}

/// The mark of the matrix that `solve2` takes.
fn mark2(m: Mat2) -> Mark {
    decided(call_det2(m))
}

/// The mark of the matrix that `solve3` or `invert_matrix` takes.
fn mark3(m: Matrix3) -> Mark {
    decided(abs_float(det(m)))
}

/// What the Rust answers, and the mark.
pub struct Marked<T> {
    value: T,
    mark: Mark,
}

impl<T: Words> Words for Marked<T> {
    const COUNT: usize = T::COUNT + Mark::COUNT;

    fn read(from: &mut &[u32]) -> Marked<T> {
        let (value, mark) = (T::read(from), Mark::read(from));
        Marked { value, mark }
    }

    fn write(&self, to: &mut Vec<u32>) {
        self.value.write(to);
        self.mark.write(to);
    }

    fn visit_floats(&mut self, visit: &mut dyn FnMut(&mut f32)) {
        self.value.visit_floats(visit);
    }
}

pub fn solve2(m: Mat2, b: Vec2) -> Marked<Vec2> {
    let (value, mark) = (rust::solve2(m, b), mark2(m));
    Marked { value, mark }
}

pub fn solve3(m: Matrix3, a: Vec3) -> Marked<Vec3> {
    let (value, mark) = (rust::solve3(m, a), mark3(m));
    Marked { value, mark }
}

pub fn invert_matrix(m: Matrix3) -> Marked<Matrix3> {
    let (value, mark) = (rust::invert_matrix(m), mark3(m));
    Marked { value, mark }
}

/// The mark of the mass that a prepare inverted, of what it stored: spherical's rotation mass, where
/// rotation is not fixed, and weld's angular mass.
pub fn mass_mark(prepared: &JointSim) -> Mark {
    let inv_inertia_sum = add_mm(prepared.inv_i_a, prepared.inv_i_b);
    match &prepared.union_ {
        JointUnion::Spherical(_) if !prepared.fixed_rotation => mark3(inv_inertia_sum),
        JointUnion::Weld(_) => mark3(inv_inertia_sum),
        _ => Mark::None,
    }
}

/// The marks of a solve's rows: revolute's perpendicular one, and the point row.
#[derive(Clone, Copy)]
pub struct Report {
    perp: Mark,
    point: Mark,
}
record!(Report {
    perp: Mark,
    point: Mark
});

/// Of what works no row: a warm start, and a refusal.
pub const NO_REPORT: Report = Report {
    perp: Mark::None,
    point: Mark::None,
};

/// The marks of a solve of a joint that stands so before it. No row changes what the matrices are
/// made of.
pub fn report(joint: &JointSim, states: &[BodyState]) -> Report {
    let perp = match &joint.union_ {
        JointUnion::Revolute(_) if !joint.fixed_rotation => {
            mark2(perp_matrix(joint, perp_axes(joint, states)))
        }
        _ => Mark::None,
    };
    let point = mark3(point_matrix(joint, arms(joint, states)));
    Report { perp, point }
}

/// The arms from the bodies' centres, as solve computes them.
pub fn arms(joint: &JointSim, states: &[BodyState]) -> [Vec3; 2] {
    let mut joint = *joint;
    sides(&mut joint).map(|(index, frame)| match *index {
        NULL_INDEX => rotate_vector(QUAT_IDENTITY, frame.p),
        index => rotate_vector(states[index as usize].delta_rotation, frame.p),
    })
}

/// The matrix of the point row, as solve computes it.
pub fn point_matrix(joint: &JointSim, [r_a, r_b]: [Vec3; 2]) -> Matrix3 {
    let turning = |inv_i, r| mul_mm(skew(r), mul_mm(inv_i, skew(r)));
    let mut k = negate_mat3(add_mm(
        turning(joint.inv_i_a, r_a),
        turning(joint.inv_i_b, r_b),
    ));
    let inv_mass = joint.inv_mass_a + joint.inv_mass_b;
    k.cx.x += inv_mass;
    k.cy.y += inv_mass;
    k.cz.z += inv_mass;
    k
}

/// The axes of the perpendicular row, as solve computes them.
pub fn perp_axes(joint: &JointSim, states: &[BodyState]) -> [Vec3; 2] {
    let [rel_q, quat_a] = flipped(joint, states);
    [VEC3_AXIS_X, VEC3_AXIS_Y].map(|axis| {
        let turned = add(mul_sv(rel_q.s, axis), cross(rel_q.v, axis));
        mul_sv(0.5, rotate_vector(quat_a, turned))
    })
}

/// The matrix of the perpendicular row, as solve computes it.
pub fn perp_matrix(joint: &JointSim, [x, y]: [Vec3; 2]) -> Mat2 {
    let inv_inertia_sum = add_mm(joint.inv_i_a, joint.inv_i_b);
    let kxx = dot(x, mul_mv(inv_inertia_sum, x));
    let kyy = dot(y, mul_mv(inv_inertia_sum, y));
    let kxy = dot(x, mul_mv(inv_inertia_sum, y));
    Mat2 {
        cx: Vec2 { x: kxx, y: kxy },
        cy: Vec2 { x: kxy, y: kyy },
    }
}
