//! The fixed cases at the places where the leaves decide: determinants and lengths at the
//! threshold, the polarity of quaternions, the octants of an angle, and what the marks go by.

use crate::cases::{
    List, Random, Step, INFINITY, LEAST, MINUS_INFINITY, MINUS_LEAST, MINUS_ONE, MINUS_ZERO, NAN,
    ONE, PLUS_ZERO, THRESHOLD,
};
use crate::leaves::Leaf;
use crate::mark_edges::{determinants, sum_of};
use crate::math_functions::{call_det2, cross, det, Mat2, Matrix3, Vec2, Vec3};
use crate::words::{Shape, Words};

/// Writes all of them.
pub fn write(list: &mut List) -> Step {
    matrices3(list)?;
    matrices2(list)?;
    lengths(list)?;
    polarities(list)?;
    twists(list)?;
    octants(list)?;
    marks(list)
}

/// The values that a determinant or a squared length is brought to: the threshold between the floats
/// beside it.
pub fn targets() -> [f32; 3] {
    [THRESHOLD - 1, THRESHOLD, THRESHOLD + 1].map(f32::from_bits)
}

/// The targets and their negatives.
pub fn signed_targets() -> impl Iterator<Item = f32> {
    targets().into_iter().flat_map(|target| [target, -target])
}

/// A float close to `guess` for which `value` gives exactly `target`.
fn tuned(guess: f64, target: f32, value: impl Fn(f32) -> f32) -> Option<f32> {
    let start = (guess as f32).to_bits().wrapping_sub(32);
    (0..64)
        .map(|i| f32::from_bits(start.wrapping_add(i)))
        .find(|x| value(*x) == target)
}

fn words(value: &impl Words) -> Vec<u32> {
    let mut words = Vec::new();
    value.write(&mut words);
    words
}

fn bits(values: &[f32]) -> Vec<u32> {
    values.iter().map(|value| value.to_bits()).collect()
}

/// Two to a power, for normal numbers.
pub fn power(exponent: i32) -> f32 {
    f32::from_bits(((exponent + 127) as u32) << 23)
}

fn vec3(x: f32, y: f32, z: f32) -> Vec3 {
    Vec3 { x, y, z }
}

fn matrix3(columns: [[f32; 3]; 3]) -> Matrix3 {
    let [cx, cy, cz] = columns.map(|[x, y, z]| vec3(x, y, z));
    Matrix3 { cx, cy, cz }
}

pub fn diagonal(a: f32, b: f32, c: f32) -> Matrix3 {
    matrix3([[a, 0.0, 0.0], [0.0, b, 0.0], [0.0, 0.0, c]])
}

fn mat2([[a, b], [c, d]]: [[f32; 2]; 2]) -> Mat2 {
    Mat2 {
        cx: Vec2 { x: a, y: b },
        cy: Vec2 { x: c, y: d },
    }
}

fn matrices3(list: &mut List) -> Step {
    for target in signed_targets() {
        for matrix in with_determinant(target) {
            assert!(det(matrix) == target, "the determinant is missed");
            about_matrix3(matrix, list)?;
        }
    }
    for matrix in without_inverse() {
        about_matrix3(matrix, list)?;
    }
    Ok(())
}

fn about_matrix3(matrix: Matrix3, list: &mut List) -> Step {
    let matrix = words(&matrix);
    Leaf::named("det").case(&matrix, list)?;
    Leaf::named("invert_matrix").case(&matrix, list)?;
    let right_sides = [
        vec3(1.0, -2.0, 3.0),
        vec3(-0.0, 0.0, power(-20)),
        vec3(1.0, f32::INFINITY, f32::NAN),
    ];
    for side in right_sides {
        let inputs = [matrix.clone(), words(&side)].concat();
        Leaf::named("solve3").case(&inputs, list)?;
    }
    Ok(())
}

/// Matrices that have exactly this determinant as the Rust computes it. But for the last ones they
/// are products of it with powers of two, which nothing rounds.
pub fn with_determinant(target: f32) -> Vec<Matrix3> {
    let factors = [target * power(40), power(-15), power(-25)];
    let mut matrices = Vec::new();
    for turn in 0..3 {
        let [a, b, c] = [0, 1, 2].map(|i| factors[(i + turn) % 3]);
        matrices.push(diagonal(a, b, c));
    }
    let [a, b, c] = factors;
    matrices.extend([
        // The other places of one entry a column; the last three turn the sign.
        matrix3([[0.0, a, 0.0], [0.0, 0.0, b], [c, 0.0, 0.0]]),
        matrix3([[0.0, 0.0, a], [b, 0.0, 0.0], [0.0, c, 0.0]]),
        matrix3([[-a, 0.0, 0.0], [0.0, 0.0, b], [0.0, c, 0.0]]),
        matrix3([[0.0, a, 0.0], [-b, 0.0, 0.0], [0.0, 0.0, c]]),
        matrix3([[0.0, 0.0, a], [0.0, b, 0.0], [-c, 0.0, 0.0]]),
        // Triangles.
        matrix3([[a, 0.0, 0.0], [3.0, b, 0.0], [-5.0, 0.75, c]]),
        matrix3([[b, 3.0, -5.0], [0.0, a, 0.75], [0.0, 0.0, c]]),
    ]);
    let full = [
        [[3.0, 1.0, -1.0], [0.5, 2.0, 1.0], [1.0, -1.0, 4.0]],
        [[5.0, -0.25, 0.5], [-0.25, 3.0, 0.125], [0.5, 0.125, 1.0]],
    ];
    matrices.extend(full.map(|entries| full_matrix3(entries, target)));
    matrices
}

/// A matrix like `entries`, scaled, with the first entry tuned to the determinant. Where no first
/// entry hits it, another one is moved a little.
fn full_matrix3(entries: [[f32; 3]; 3], target: f32) -> Matrix3 {
    let mut matrix = small_matrix3(entries);
    for _ in 0..100 {
        if let Some(found) = tuned_matrix3(matrix, target) {
            return found;
        }
        matrix.cy.y *= 1.01;
    }
    panic!("no matrix has the determinant")
}

/// Entries of about one, scaled so that the determinant comes near to the threshold.
fn small_matrix3(entries: [[f32; 3]; 3]) -> Matrix3 {
    matrix3(entries.map(|column| column.map(|entry| entry * power(-40))))
}

/// The matrix with the first entry that gives the determinant, if one near to the exact one does.
fn tuned_matrix3(matrix: Matrix3, target: f32) -> Option<Matrix3> {
    let d = cross(matrix.cy, matrix.cz);
    let rest = f64::from(matrix.cx.y) * f64::from(d.y) + f64::from(matrix.cx.z) * f64::from(d.z);
    let guess = (f64::from(target) - rest) / f64::from(d.x);
    let with = |x| Matrix3 {
        cx: Vec3 { x, ..matrix.cx },
        ..matrix
    };
    tuned(guess, target, |x| det(with(x))).map(with)
}

/// Matrices with determinants of zero, NaN and the infinities.
pub fn without_inverse() -> [Matrix3; 10] {
    let infinity = f32::INFINITY;
    [
        matrix3([[0.0; 3]; 3]),
        matrix3([[-0.0; 3]; 3]),
        diagonal(1.0, 0.0, 1.0),
        matrix3([[1.0, 2.0, 3.0], [1.0, 2.0, 3.0], [4.0, 5.0, 6.0]]),
        diagonal(1.0, f32::NAN, 1.0),
        diagonal(infinity, 0.0, 1.0),
        matrix3([[f32::MAX; 3]; 3]),
        diagonal(infinity, 1.0, 1.0),
        diagonal(-infinity, 1.0, 1.0),
        diagonal(power(100), 1.0, power(100)),
    ]
}

fn matrices2(list: &mut List) -> Step {
    for target in signed_targets() {
        for matrix in with_determinant2(target) {
            assert!(call_det2(matrix) == target, "the determinant is missed");
            about_mat2(matrix, list)?;
        }
    }
    for matrix in without_inverse2() {
        about_mat2(matrix, list)?;
    }
    Ok(())
}

fn about_mat2(matrix: Mat2, list: &mut List) -> Step {
    let matrix = words(&matrix);
    Leaf::named("det2").case(&matrix, list)?;
    let right_sides = [[1.0, -2.0], [-0.0, power(-20)], [f32::INFINITY, f32::NAN]];
    for [x, y] in right_sides {
        let inputs = [matrix.clone(), words(&Vec2 { x, y })].concat();
        Leaf::named("solve2").case(&inputs, list)?;
    }
    Ok(())
}

/// As `with_determinant`, of two columns.
fn with_determinant2(target: f32) -> [Mat2; 7] {
    let (a, b) = (target * power(20), power(-20));
    [
        mat2([[a, 0.0], [0.0, b]]),
        mat2([[b, 0.0], [0.0, a]]),
        mat2([[0.0, -a], [b, 0.0]]),
        mat2([[0.0, b], [-a, 0.0]]),
        mat2([[a, 3.0], [0.0, b]]),
        mat2([[b, 0.0], [-5.0, a]]),
        full_mat2(target),
    ]
}

/// As `full_matrix3`, of two columns.
fn full_mat2(target: f32) -> Mat2 {
    let mut matrix = small_mat2([[3.0, 1.0], [1.0, 2.0]]);
    for _ in 0..100 {
        if let Some(found) = tuned_mat2(matrix, target) {
            return found;
        }
        matrix.cx.y *= 1.01;
    }
    panic!("no matrix has the determinant")
}

/// As `small_matrix3`, of two columns.
fn small_mat2(entries: [[f32; 2]; 2]) -> Mat2 {
    mat2(entries.map(|column| column.map(|entry| entry * power(-60))))
}

/// As `tuned_matrix3`, of two columns.
fn tuned_mat2(matrix: Mat2, target: f32) -> Option<Mat2> {
    let rest = f64::from(matrix.cx.y) * f64::from(matrix.cy.x);
    let guess = (f64::from(target) + rest) / f64::from(matrix.cy.y);
    let with = |x| Mat2 {
        cx: Vec2 { x, ..matrix.cx },
        ..matrix
    };
    tuned(guess, target, |x| call_det2(with(x))).map(with)
}

/// Puts for the first value a drawn matrix of its shape whose determinant, as the Rust computes it,
/// is the threshold or a float beside it, of either sign.
pub fn aim(random: &mut Random, shape: Shape, inputs: &mut [u32]) {
    let targets: Vec<f32> = signed_targets().collect();
    let target = targets[random.below(targets.len() as u32) as usize];
    let matrix = match shape {
        Shape::Matrix3 => words(&drawn(random, target, small_matrix3, tuned_matrix3)),
        Shape::Mat2 => words(&drawn(random, target, small_mat2, tuned_mat2)),
        _ => panic!("a determinant of no matrix"),
    };
    inputs[..matrix.len()].copy_from_slice(&matrix);
}

/// Entries from -4 up to 4, drawn until the first of them can be tuned to the determinant.
fn drawn<T, const N: usize>(
    random: &mut Random,
    target: f32,
    small: impl Fn([[f32; N]; N]) -> T,
    tune: impl Fn(T, f32) -> Option<T>,
) -> T {
    loop {
        let entries = [[0; N]; N].map(|column| column.map(|_| 4.0 * random.even() as f32));
        if let Some(matrix) = tune(small(entries), target) {
            return matrix;
        }
    }
}

/// As `without_inverse`, of two columns.
fn without_inverse2() -> [Mat2; 8] {
    let infinity = f32::INFINITY;
    [
        mat2([[0.0; 2]; 2]),
        mat2([[-0.0, 0.0], [0.0, 1.0]]),
        mat2([[1.0, 2.0], [3.0, 6.0]]),
        mat2([[2.0, 0.0], [0.0, -4.0]]),
        mat2([[f32::NAN, 0.0], [0.0, 1.0]]),
        mat2([[f32::MAX; 2]; 2]),
        mat2([[infinity, 1.0], [1.0, 1.0]]),
        mat2([[power(100), 1.0], [1.0, power(100)]]),
    ]
}

/// `normalize` of vectors whose squared length is at the threshold, the long side in each place.
fn lengths(list: &mut List) -> Step {
    for target in targets() {
        for place in 0..3 {
            for first in [1, 20, 40, 60, 80, 100, 120, 140] {
                let vector = with_squared_length(target, place, first);
                Leaf::named("normalize").case(&bits(&vector), list)?;
            }
        }
    }
    Ok(())
}

/// A vector with exactly this squared length as the Rust computes it. The squares of the long side
/// alone miss most values, so short sides are tried until one is hit, from the `first` on.
fn with_squared_length(target: f32, place: usize, first: u32) -> [f32; 3] {
    for attempt in first..first + 200 {
        let short = attempt as f32 * power(-66);
        let vector = |long| {
            let mut vector = [short; 3];
            vector[place] = long;
            vector
        };
        let guess = f64::from(target) - 2.0 * f64::from(short) * f64::from(short);
        let found = tuned(guess.sqrt(), target, |long| {
            let [x, y, z] = vector(long);
            x * x + y * y + z * z
        });
        if let Some(long) = found {
            return vector(long);
        }
    }
    panic!("no vector has the length")
}

/// `delta_quat_to_rotation` where the dot product is about zero, or none.
fn polarities(list: &mut List) -> Step {
    let leaf = Leaf::named("delta_quat_to_rotation");
    for (q, target) in quats_about_square() {
        for inputs in [[q, target], [target, q]] {
            leaf.case(&bits(&inputs.concat()), list)?;
        }
    }
    Ok(())
}

/// Pairs of quaternions whose dot product is about zero, or none.
fn quats_about_square() -> Vec<([f32; 4], [f32; 4])> {
    let tiny = power(-100);
    let [below, above] =
        [-1, 1].map(|step| f32::from_bits(0.6f32.to_bits().wrapping_add_signed(step)));
    let none = [0.0, 0.0, 0.0, 1.0];
    let mut pairs = vec![
        // The sum of products of zero: +0 in all but the second and the third.
        ([0.0; 4], [1.0; 4]),
        ([0.0; 4], [-1.0; 4]),
        ([tiny; 4], [-tiny; 4]),
        ([0.6, 0.8, 0.0, 0.0], [0.8, -0.6, 0.0, 0.0]),
        // Products that all but cancel, to either side.
        ([0.6, 0.8, 0.0, 0.0], [0.8, -below, 0.0, 0.0]),
        ([0.6, 0.8, 0.0, 0.0], [0.8, -above, 0.0, 0.0]),
        // No number.
        ([f32::NAN, 0.0, 0.0, -1.0], none),
        ([f32::INFINITY, 0.0, 0.0, -1.0], none),
        ([f32::INFINITY; 4], [1.0, -1.0, 1.0, 1.0]),
        // The infinities.
        ([f32::INFINITY, 0.5, 0.5, 0.5], [0.5; 4]),
        ([-f32::INFINITY, 0.5, 0.5, 0.5], [0.5; 4]),
    ];
    for s in [PLUS_ZERO, MINUS_ZERO, LEAST, MINUS_LEAST] {
        pairs.push(([0.6, -0.8, 0.0, f32::from_bits(s)], none));
    }
    pairs
}

/// `get_twist_angle` on both sides of a half turn.
fn twists(list: &mut List) -> Step {
    for s in SIDES {
        for z in SIDES {
            Leaf::named("get_twist_angle").case(&[ONE, MINUS_ONE, z, s], list)?;
        }
    }
    Ok(())
}

/// Patterns on both sides of zero.
const SIDES: [u32; 9] = [
    PLUS_ZERO,
    MINUS_ZERO,
    LEAST,
    MINUS_LEAST,
    ONE,
    MINUS_ONE,
    INFINITY,
    MINUS_INFINITY,
    NAN,
];

/// `atan2` in all eight octants, on the lines between them and on the axes, with both zeros.
fn octants(list: &mut List) -> Step {
    let below_one = 1.0 - f32::EPSILON / 2.0;
    for (long, short) in [
        (1.0, 0.5),
        (1.0, below_one),
        (1.0, 1.0),
        (3.0, power(-60)),
        (7.0, 0.0),
    ] {
        for (y, x) in [(long, short), (short, long)] {
            for (y, x) in [(y, x), (y, -x), (-y, x), (-y, -x)] {
                Leaf::named("atan2").case(&bits(&[y, x]), list)?;
            }
        }
    }
    Ok(())
}

/// Each determinant that a mark goes by, of both sizes of matrix.
fn marks(list: &mut List) -> Step {
    for determinant in determinants() {
        about_matrix3(sum_of(determinant), list)?;
        let (a, b) = (determinant * power(20), power(-20));
        about_mat2(mat2([[a, 0.0], [0.0, b]]), list)?;
    }
    Ok(())
}
