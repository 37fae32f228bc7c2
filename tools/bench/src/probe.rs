//! `probe REPEATS`: chains of sums that do not wait for each other, so that a core has as much to do
//! as it can. They take longer while the core is shared with another program.

const TURNS: [u32; 6] = [5, 7, 11, 13, 17, 19];

fn main() {
    let repeats: u64 = std::env::args().nth(1).map_or(0, |word| word.parse().unwrap_or(0));
    let mut sums = [1u64; 6];
    for step in 0..repeats * 4096 {
        for (sum, turn) in sums.iter_mut().zip(TURNS) {
            *sum = sum.rotate_left(turn).wrapping_add(step);
        }
    }
    println!("{sums:?}");
}
