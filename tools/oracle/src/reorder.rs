//! Accepted call lists and reorderings of them. Calls of two joints that share no dynamic body may
//! change places and the run ends alike; calls of two that share one may not.

use crate::body::body_flags::DYNAMIC_FLAG;
use crate::call_list_scenes::accepted;
use crate::call_lists::{answer_words, case, visit_scene};
use crate::cases::{List, Random, Step};
use crate::plain_run::Scene;
use crate::records::indices;
use crate::words::Words;

/// How many lists ended differently.
#[derive(Default)]
pub struct Tally {
    pub scenes: u64,
    pub within_differing: u64,
    pub outside: u64,
    pub outside_differing: u64,
}

/// Writes two cases for each of `count` scenes: a list, and another order of it that is to end
/// alike. Orders that need not end alike are only counted.
pub fn write(seed: u64, count: u64, list: &mut List, tally: &mut Tally) -> Step {
    let mut random = Random::new(seed, 7);
    while tally.scenes < count {
        let (scene, calls) = accepted(&mut random);
        let within = shuffled(&mut random, &scene, &calls, false);
        if within == calls {
            continue;
        }
        let outside = shuffled(&mut random, &scene, &calls, true);
        let [kept, within_end, outside_end] =
            [&calls, &within, &outside].map(|calls| end(&scene, calls));
        tally.scenes += 1;
        tally.within_differing += u64::from(within_end != kept);
        tally.outside += u64::from(outside != calls);
        tally.outside_differing += u64::from(outside_end != kept);
        case(&scene, &calls, list)?;
        case(&scene, &within, list)?;
    }
    Ok(())
}

/// All that a run leaves, as words in which every NaN is the same.
fn end(scene: &Scene, calls: &[u8]) -> Vec<u32> {
    let mut scene = scene.clone();
    let answer = scene.run(calls);
    let mut one_nan = |x: &mut f32| {
        if x.is_nan() {
            *x = f32::NAN;
        }
    };
    visit_scene(&mut scene, &mut one_nan);
    for joint in &mut scene.joints {
        joint.angles.visit_floats(&mut one_nan);
    }
    answer_words(&answer, &scene)
}

/// The list with neighbouring calls of two joints swapped here and there, of such joints as share a
/// dynamic body or of such as share none.
fn shuffled(random: &mut Random, scene: &Scene, calls: &[u8], sharing: bool) -> Vec<u8> {
    let mut calls: Vec<[u8; 2]> = calls
        .chunks_exact(2)
        .map(|call| [call[0], call[1]])
        .collect();
    for _ in 0..4 {
        for i in 1..calls.len() {
            let (first, second) = (calls[i - 1][0], calls[i][0]);
            if first != second && share(scene, first, second) == sharing && random.one_in(2) {
                calls.swap(i - 1, i);
            }
        }
    }
    calls.into_iter().flatten().collect()
}

/// Do two listed joints name a dynamic body in common?
fn share(scene: &Scene, first: u8, second: u8) -> bool {
    let [first, second] = [first, second].map(|slot| indices(&scene.joints[usize::from(slot)]));
    let dynamic = |index: i32| {
        usize::try_from(index)
            .ok()
            .and_then(|index| scene.states.get(index))
            .is_some_and(|state| state.flags & DYNAMIC_FLAG != 0)
    };
    first
        .into_iter()
        .any(|index| second.contains(&index) && dynamic(index))
}
