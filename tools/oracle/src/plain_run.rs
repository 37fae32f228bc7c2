//! A run of a call list as document 01 defines it, and still as C-20 does, on the Rust's own stages,
//! and its tests.

use crate::body::{BodyState, IDENTITY_BODY_STATE};
use crate::joint::JointSim;
use crate::records::{indices, kind_of, velocity_bits, Joint, Kind, EMPTY, NO_ANGLES};
use crate::solver::StepContext;
use crate::stages::{solve, warm_start};

/// The most joints, and the most bodies.
pub const PLACES: u32 = 32;
/// The most bytes of a list.
pub const LIST_BYTES: usize = 8192;

/// A scene. The places behind the joints and states that stand here are unused.
#[derive(Clone)]
pub struct Scene {
    pub joint_count: u32,
    pub body_count: u32,
    pub context: StepContext,
    pub joints: Vec<Joint>,
    pub states: Vec<BodyState>,
}

/// What a run answers beside the scene.
pub struct Answer {
    pub number: u32,
    pub place: u32,
    pub still: bool,
}

pub fn unused_joint() -> Joint {
    let sim = JointSim {
        union_: EMPTY,
        ..JointSim::default()
    };
    Joint {
        sim,
        angles: NO_ANGLES,
    }
}

/// Whether a joint is the unused one, whose angles are no numbers and so equal nothing.
fn is_unused(joint: &Joint) -> bool {
    let angles = joint.angles;
    joint.sim == unused_joint().sim && angles.twist.is_nan() && angles.swing.is_nan()
}

/// The number of a direct call of a kind's stage: the first of 1, 2 and 3 whose cause holds, or 0.
pub fn direct_number(called: Kind, joint: &JointSim, body_count: u32) -> u32 {
    if kind_of(joint) != Some(called) {
        return 1;
    }
    let allowed = -1..i64::from(body_count);
    let [a, b] = indices(joint).map(i64::from);
    if !allowed.contains(&a) {
        2
    } else if !allowed.contains(&b) {
        3
    } else {
        0
    }
}

impl Scene {
    /// Runs the list.
    pub fn run(&mut self, list: &[u8]) -> Answer {
        let given = (self.joints.len(), self.states.len());
        self.joints.resize(PLACES as usize, unused_joint());
        self.states.resize(PLACES as usize, IDENTITY_BODY_STATE);
        let answer = self.run_whole(list);
        let (joints, states) = (&self.joints[given.0..], &self.states[given.1..]);
        assert!(joints.iter().all(is_unused));
        assert!(states.iter().all(|state| *state == IDENTITY_BODY_STATE));
        self.joints.truncate(given.0);
        self.states.truncate(given.1);
        answer
    }

    /// Runs the list on a scene with all its places.
    fn run_whole(&mut self, list: &[u8]) -> Answer {
        let (number, place) = self.refusal(list);
        if number != 0 {
            return Answer {
                number,
                place,
                still: false,
            };
        }
        let before = self.velocities();
        for call in list.chunks_exact(2) {
            self.work(call[0], call[1]);
        }
        let still = before == self.velocities();
        Answer {
            number,
            place,
            still,
        }
    }

    /// The number and the place of the first cause that holds, or zeros.
    fn refusal(&self, list: &[u8]) -> (u32, u32) {
        if self.body_count > PLACES || self.joint_count > PLACES {
            return (6, 0);
        }
        if list.len() % 2 == 1 || list.len() > LIST_BYTES {
            return (7, 0);
        }
        for (place, call) in list.chunks_exact(2).enumerate() {
            let number = self.call_number(call[0], call[1]);
            if number != 0 {
                return (number, place as u32);
            }
        }
        (0, 0)
    }

    /// The number of a call: the first of 4, 5, 1, 2 and 3 whose cause holds, or 0.
    pub fn call_number(&self, slot: u8, stage: u8) -> u32 {
        if u32::from(slot) >= self.joint_count {
            return 4;
        }
        if stage > 2 {
            return 5;
        }
        // A joint that does not stand here is unused, which is the empty case too.
        let joint = self.joints.get(usize::from(slot));
        match joint.and_then(|joint| kind_of(joint)).zip(joint) {
            Some((kind, joint)) => direct_number(kind, joint, self.body_count),
            None => 1,
        }
    }

    /// Works a call that was tested.
    fn work(&mut self, slot: u8, stage: u8) {
        let joint = &mut self.joints[usize::from(slot)];
        let states = &mut self.states[..self.body_count as usize];
        let kind = kind_of(joint).expect("the call was not tested");
        match stage {
            0 => warm_start(kind, joint, states),
            // A run answers no marks.
            _ => {
                solve(kind, joint, &self.context, stage == 1, states);
            }
        }
    }

    /// The velocities of the counted bodies, as still compares them.
    fn velocities(&self) -> Vec<u32> {
        velocity_bits(&self.states[..self.body_count as usize])
    }
}
