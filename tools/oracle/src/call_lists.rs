//! Cases for call lists: a scene and the bytes of a list, run as document 01's plain run says.

use crate::body::BodyState;
use crate::call_list_edges;
use crate::call_list_scenes::{accepted, spoil};
use crate::cases::{List, Random, Step};
use crate::plain_run::{Answer, Scene};
use crate::records::{read_cased_joint, visit_fields, write_cased_joint};
use crate::solver::StepContext;
use crate::words::{read_all, write_all, Words};

/// The number of the function that runs a list.
const RUN_LIST: u32 = 0xa0;

/// The words of a scene and a list.
fn inputs(scene: &Scene, calls: &[u8]) -> Vec<u32> {
    let mut words = vec![scene.joint_count, scene.body_count];
    words.push(scene.joints.len() as u32);
    words.push(scene.states.len() as u32);
    words.push(calls.len() as u32);
    scene.context.write(&mut words);
    write_places(scene, &mut words);
    for bytes in calls.chunks(4) {
        let mut word = [0; 4];
        word[..bytes.len()].copy_from_slice(bytes);
        words.push(u32::from_le_bytes(word));
    }
    words
}

/// Appends the joints and the states of a scene to `to`.
fn write_places(scene: &Scene, to: &mut Vec<u32>) {
    for joint in &scene.joints {
        write_cased_joint(joint, to);
    }
    write_all(&scene.states, to);
}

/// Takes a scene and a list off the front of `from`.
fn read(from: &mut &[u32]) -> (Scene, Vec<u8>) {
    let [joint_count, body_count, joints, states, length] = [0; 5].map(|_| u32::read(from));
    let scene = Scene {
        joint_count,
        body_count,
        context: StepContext::read(from),
        joints: (0..joints).map(|_| read_cased_joint(from)).collect(),
        states: read_all::<BodyState>(states, from),
    };
    let words: Vec<u32> = read_all(length.div_ceil(4), from);
    let mut calls: Vec<u8> = words.into_iter().flat_map(u32::to_le_bytes).collect();
    calls.truncate(length as usize);
    (scene, calls)
}

/// The words of what a run answered and of the scene that it left.
pub fn answer_words(answer: &Answer, scene: &Scene) -> Vec<u32> {
    let mut words = vec![answer.number, answer.place];
    answer.still.write(&mut words);
    words.extend([scene.joint_count, scene.body_count]);
    scene.context.write(&mut words);
    write_places(scene, &mut words);
    words
}

/// Shows each float of a scene but the angles of its joints to `visit`.
pub fn visit_scene(scene: &mut Scene, visit: &mut dyn FnMut(&mut f32)) {
    for joint in &mut scene.joints {
        visit_fields(joint, visit);
    }
    scene.context.visit_floats(visit);
    for state in &mut scene.states {
        state.visit_floats(visit);
    }
}

/// Writes the case of a list in a scene. The scene that runs is the one that the words give.
pub fn case(scene: &Scene, calls: &[u8], list: &mut List) -> Step {
    list.asked(RUN_LIST, &inputs(scene, calls), answer)
}

/// Takes a scene and a list off the front of `from`, and runs the list.
fn answer(from: &mut &[u32]) -> Vec<u32> {
    let (mut scene, calls) = read(from);
    let answer = scene.run(&calls);
    answer_words(&answer, &scene)
}

/// What the run answers to the inputs that it takes off the front of `from`.
pub fn again(number: u32, from: &mut &[u32]) -> Option<Vec<u32>> {
    (number == RUN_LIST).then(|| answer(from))
}

/// Writes the list cases of a seed: a fixed part that is the same for all seeds, then seeded cases
/// without end.
pub fn write(seed: u64, list: &mut List) -> Step {
    call_list_edges::write(list)?;
    let mut random = Random::new(seed, 5);
    loop {
        let (mut scene, mut calls) = accepted(&mut random);
        if random.one_in(6) {
            spoil(&mut random, &mut scene, &mut calls);
        }
        case(&scene, &calls, list)?;
    }
}
