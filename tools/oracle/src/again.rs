//! Cases of a list answered again, by the Rust that this program is built from: how many of each
//! function have another answer than the list says.

use crate::{call_lists, direct, leaves, stages, values};
use std::collections::BTreeMap;
use std::io::{self, ErrorKind, Read};
use std::panic::{self, AssertUnwindSafe};

/// For each function how many cases there are, and how many differ.
pub type Counts = BTreeMap<u32, [u64; 2]>;

/// The groups of functions: each answers those that it knows.
const GROUPS: [fn(u32, &mut &[u32]) -> Option<Vec<u32>>; 5] = [
    leaves::again,
    stages::again,
    direct::again,
    call_lists::again,
    values::again,
];

/// Answers the cases of a list.
pub fn count(mut list: impl Read) -> io::Result<Counts> {
    let mut counts = Counts::new();
    // A stage that panics has another answer; nothing is to be told of it.
    panic::set_hook(Box::new(|_| {}));
    while let Some(header) = word(&mut list)? {
        let mut words = Vec::new();
        for _ in 0..header / 65536 {
            words.push(word(&mut list)?.ok_or(ErrorKind::UnexpectedEof)?);
        }
        let function = header % 65536;
        let [run, differing] = counts.entry(function).or_default();
        *run += 1;
        *differing += u64::from(differs(function, &words));
    }
    Ok(counts)
}

/// The next word, or none where the list ends.
fn word(list: &mut impl Read) -> io::Result<Option<u32>> {
    let mut bytes = [0; 4];
    let mut there = 0;
    while there < 4 {
        match list.read(&mut bytes[there..])? {
            0 if there == 0 => return Ok(None),
            0 => return Err(ErrorKind::UnexpectedEof.into()),
            more => there += more,
        }
    }
    Ok(Some(u32::from_le_bytes(bytes)))
}

/// Whether the answer of a case is another than its words say. A function that is not known differs.
fn differs(function: u32, words: &[u32]) -> bool {
    let answered = panic::catch_unwind(AssertUnwindSafe(|| {
        let mut rest = words;
        let answer = GROUPS.iter().find_map(|group| group(function, &mut rest));
        answer.is_some_and(|answer| same(&answer, rest))
    }));
    !answered.unwrap_or(false)
}

/// Whether the words are the same, all patterns of a NaN counting as one.
fn same(answer: &[u32], recorded: &[u32]) -> bool {
    let is_nan = |word: u32| f32::from_bits(word).is_nan();
    answer.len() == recorded.len()
        && answer
            .iter()
            .zip(recorded)
            .all(|(a, b)| a == b || (is_nan(*a) && is_nan(*b)))
}
