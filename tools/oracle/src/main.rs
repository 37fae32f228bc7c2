//! Writes lists of test cases: which function, the input words, the words that the published Rust
//! answered. See README.md.

mod again;
mod aims;
mod call_list_edges;
mod call_list_scenes;
mod call_lists;
mod cases;
mod direct;
mod direct_edges;
mod draw;
mod edges;
mod leaves;
mod mark_edges;
mod marks;
mod plain_run;
mod records;
mod reorder;
mod scene;
mod stage_edges;
mod stages;
mod value_edges;
mod values;
mod words;

include!("published.rs");

use cases::{List, Step};
use reorder::Tally;
use std::io::{self, ErrorKind};
use std::process::ExitCode;

/// The groups of cases, in the order of their counts on the command line.
const GROUPS: &[(&str, fn(u64, &mut List) -> Step)] = &[
    ("LEAVES", leaves::write),
    ("STAGES", stages::write),
    ("DIRECT", direct::write),
    ("LISTS", call_lists::write),
    ("VALUES", values::write),
];

/// What the command line asks for.
enum Task {
    /// The seed, and how many cases of each group.
    Cases(u64, Vec<u64>),
    AllRoots,
    /// The seed, and how many scenes.
    Reorder(u64, u64),
    /// The cases of standard input, answered again.
    Again,
}

fn parse(arguments: &[String]) -> Option<Task> {
    match arguments {
        [word] if word == "all-sqrt" => Some(Task::AllRoots),
        [word] if word == "again" => Some(Task::Again),
        [word, seed, count] if word == "reorder" => {
            Some(Task::Reorder(seed.parse().ok()?, count.parse().ok()?))
        }
        [seed, counts @ ..] if !counts.is_empty() && counts.len() <= GROUPS.len() => {
            let counts: Result<_, _> = counts.iter().map(|count| count.parse()).collect();
            Some(Task::Cases(seed.parse().ok()?, counts.ok()?))
        }
        _ => None,
    }
}

fn write(task: Task) -> io::Result<()> {
    let mut list = List::new(Box::new(io::stdout().lock()));
    match task {
        Task::Cases(seed, counts) => {
            for (count, (_, group)) in counts.into_iter().zip(GROUPS) {
                list.group(count, |list| group(seed, list))?;
            }
        }
        Task::AllRoots => list.group(1 << 32, leaves::write_all_roots)?,
        Task::Reorder(seed, count) => write_reordered(seed, count, &mut list)?,
        Task::Again => print_again()?,
    }
    list.flush()
}

/// Writes the cases of reordered lists, and a line of what became of them to standard error.
fn write_reordered(seed: u64, count: u64, list: &mut List) -> io::Result<()> {
    let mut tally = Tally::default();
    list.group(u64::MAX, |list| {
        reorder::write(seed, count, list, &mut tally)
    })?;
    eprintln!(
        "{} within: {}; outside: {}, {}",
        tally.scenes, tally.within_differing, tally.outside, tally.outside_differing
    );
    Ok(())
}

/// Prints a line for each function: its number, how many cases there are, how many differ.
fn print_again() -> io::Result<()> {
    for (function, [run, differing]) in again::count(io::stdin().lock())? {
        println!("{function:#x} {run} {differing}");
    }
    Ok(())
}

fn usage() -> String {
    let groups: Vec<&str> = GROUPS.iter().map(|(name, _)| *name).collect();
    let groups = groups.join(" ");
    format!("usage: oracle SEED {groups} | oracle all-sqrt | oracle reorder SEED COUNT | oracle again")
}

fn main() -> ExitCode {
    let arguments: Vec<String> = std::env::args().skip(1).collect();
    if arguments.iter().any(|word| word == "--help" || word == "-h") {
        println!("{}", usage());
        return ExitCode::SUCCESS;
    }
    let Some(task) = parse(&arguments) else {
        eprintln!("No list is told by these arguments.");
        eprintln!("{}", usage());
        return ExitCode::from(2);
    };
    match write(task) {
        Ok(()) => ExitCode::SUCCESS,
        // Who reads has read enough.
        Err(error) if error.kind() == ErrorKind::BrokenPipe => ExitCode::SUCCESS,
        Err(error) => {
            eprintln!("The list cannot be written or read: {error}.");
            ExitCode::FAILURE
        }
    }
}
