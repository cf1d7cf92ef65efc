//! The calls over lent lists: what is one entry short is refused by 15, and no refusal changes a list. A success changes its result alone.

mod common;
use common::*;
use zibrotka::calls::*;

const U1: [f64; 3] = [1.0, 0.5, -1.0];
const SU2: [f64; 3] = [1.0, 0.375, -0.5];
const VECTOR: [f64; 3] = [1.0, 2.0, 3.0];

/// Lends lists of one entry, repeated, each of a length; runs a call and holds its answer and the lists against what is expected.
macro_rules! lend {
    ($answer:expr, $lengths:expr, $behind:expr, [$($list:ident: $kind:ty),+], $call:expr) => {{
        let mut lengths = $lengths.into_iter();
        $(let mut $list = vec![0x55 as $kind; lengths.next().unwrap()];)+
        assert_eq!($call, $answer);
        let mut behind = $behind.into_iter();
        $(assert!($list[behind.next().unwrap()..].iter().all(|&entry| entry == 0x55 as $kind), "{} was changed", stringify!($list));)+
    }};
}

/// A call with lists of the needed lengths: each one entry short, all empty, exact, and longer. The lengths are those that succeed.
macro_rules! rooms {
    ($value:expr, $needs:expr, $lists:tt, $call:expr) => {{
        let needs = $needs;
        for short in 0..needs.len() {
            let mut lengths = needs;
            lengths[short] -= 1;
            lend!(-15, lengths, [0; 9], $lists, $call);
        }
        lend!(-15, [0; 9], [0; 9], $lists, $call);
        lend!($value, needs, needs, $lists, $call);
        lend!($value, needs.map(|need| need + 3), needs, $lists, $call);
    }};
}

#[test]
fn complexes() {
    rooms!(20, [20], [sheet: u8], make_sheet(3, &[0, 1, 0, 2, 1, 2], &[0, 1, 2], 1, &mut sheet));
    rooms!(1, [2, 1], [tree: u32, free: u32], spanning_tree(&TRIANGLE, &mut tree, &mut free));
    rooms!(1, [2, 3, 3], [starts: u32, edges: u8, ways: i8], fundamental_loops(&TRIANGLE, &mut starts, &mut edges, &mut ways));
    rooms!(1, [2, 3], [starts: u32, edges: u8], su2_fundamental_loops(&TRIANGLE, &mut starts, &mut edges));
    let five = [0, 1, 2, 3, 4];
    rooms!(10, [20, 30], [edges: u8, triangles: u8], from_pentachorons(5, &five, &mut edges, &mut triangles, &mut 0));
    let sentence = "a shifted edge leaves -L to L".len();
    rooms!(sentence as i64, [sentence], [text: u8], refusal_text(16, &mut text));
}

#[test]
fn states() {
    let (mut vertex, mut excess, mut edge) = (9, 9, 9);
    rooms!(3, [9], [states: i32], enumerate_gauge_invariant(&TRIANGLE, &mut states));
    rooms!(2, [2], [masks: u64], su2_basis(&TRIANGLE, &mut masks));
    rooms!(1, [9], [states: i32], config_to_index(&TRIANGLE, &[0; 3], &mut states));
    rooms!(
        1,
        [9],
        [states: i32],
        config_to_index_finding(&TRIANGLE, &[0; 3], &mut states, &mut vertex, &mut excess, &mut edge)
    );
    rooms!(1, [9, 3], [states: i32, to: i32], apply_shift(&TRIANGLE, &[0, 0, 1], 2, -1, &mut states, &mut to));
    rooms!(
        1,
        [9, 3],
        [states: i32, to: i32],
        apply_shift_finding(&TRIANGLE, &[0, 0, 1], 2, -1, &mut states, &mut to, &mut vertex, &mut excess, &mut edge)
    );
    rooms!(2, [9], [states: i32], apply_triangle_shift(&TRIANGLE, 0, 1, &mut states));
    assert_eq!((vertex, excess, edge), (9, 9, 9));
}

#[test]
fn matrices() {
    rooms!(3, [9, 9], [states: i32, matrix: f64], build_hamiltonian(&TRIANGLE, U1, false, &[], &mut states, &mut matrix));
    rooms!(2, [2, 4], [masks: u64, matrix: f64], build_su2_hamiltonian(&TRIANGLE, SU2, false, &[], &mut masks, &mut matrix));
    rooms!(
        6,
        [9, 4, 6, 6],
        [states: i32, starts: u32, columns: u32, values: f64],
        build_csr(&TRIANGLE, U1, true, &[1.0], &mut states, &mut starts, &mut columns, &mut values)
    );
    rooms!(
        3,
        [2, 3, 3, 3],
        [masks: u64, starts: u32, columns: u32, values: f64],
        build_csr_su2(&TRIANGLE, SU2, true, &[1.0], &mut masks, &mut starts, &mut columns, &mut values)
    );
}

#[test]
fn products() {
    rooms!(
        3,
        [9, 3],
        [states: i32, product: f64],
        hamiltonian_matvec(&TRIANGLE, U1, false, &[], &VECTOR, &mut states, &mut product)
    );
    rooms!(
        2,
        [2, 2],
        [masks: u64, product: f64],
        su2_hamiltonian_matvec(&TRIANGLE, SU2, false, &[], &VECTOR[..2], &mut masks, &mut product)
    );
    rooms!(3, [9, 3], [states: i32, squares: f64], electric_field_sq(&TRIANGLE, &VECTOR, &mut states, &mut squares));
    rooms!(0, [2], [product: f64], matvec(&[0, 1, 1], &[0], &[5.0], &VECTOR[..2], &mut product));
}

#[test]
fn expectations() {
    let mut sum = 7.0;
    rooms!(0, [9], [states: i32], wilson_loop(&TRIANGLE, &VECTOR, &[0, 1, 2], &[-1, 1, -1], &mut states, &mut sum));
    assert_eq!(sum, 8.0);
    rooms!(0, [2], [masks: u64], su2_wilson_loop(&TRIANGLE, &[3.0, 5.0], &[0, 0], &mut masks, &mut sum));
    assert_eq!(sum, -16.0);
    rooms!(0, [2], [masks: u64], su2_wilson_passes(&TRIANGLE, &[3.0, 5.0], &[0, 0], &mut masks, &mut sum));
    assert_eq!(sum, 34.0);
    assert_eq!(wilson_loop(&TRIANGLE, &VECTOR, &[], &[], &mut [0; 8], &mut sum), -15);
    assert_eq!(su2_wilson_loop(&TRIANGLE, &[3.0, 5.0], &[], &mut [0; 1], &mut sum), -15);
    assert_eq!(su2_wilson_passes(&TRIANGLE, &[3.0, 5.0], &[9], &mut [0; 2], &mut sum), -13);
    assert_eq!(sum, 34.0);
}

#[test]
fn floats_that_are_none() {
    for float in wrong_floats() {
        let (weights, vector, pair) = ([float], [1.0, float, 1.0], [1.0, float]);
        let nothing = [0; 9];
        lend!(-14, [9, 9], nothing, [s: i32, m: f64], build_hamiltonian(&TRIANGLE, U1, true, &weights, &mut s, &mut m));
        lend!(-14, [2, 4], nothing, [s: u64, m: f64], build_su2_hamiltonian(&TRIANGLE, SU2, true, &weights, &mut s, &mut m));
        lend!(
            -14,
            [9, 4, 6, 6],
            nothing,
            [s: i32, a: u32, c: u32, v: f64],
            build_csr(&TRIANGLE, U1, true, &weights, &mut s, &mut a, &mut c, &mut v)
        );
        lend!(
            -14,
            [2, 3, 3, 3],
            nothing,
            [s: u64, a: u32, c: u32, v: f64],
            build_csr_su2(&TRIANGLE, SU2, true, &weights, &mut s, &mut a, &mut c, &mut v)
        );
        lend!(-14, [9, 3], nothing, [s: i32, p: f64], hamiltonian_matvec(&TRIANGLE, U1, false, &[], &vector, &mut s, &mut p));
        lend!(-14, [2, 2], nothing, [s: u64, p: f64], su2_hamiltonian_matvec(&TRIANGLE, SU2, false, &[], &pair, &mut s, &mut p));
        lend!(-14, [9, 3], nothing, [s: i32, q: f64], electric_field_sq(&TRIANGLE, &vector, &mut s, &mut q));
        lend!(-14, [9, 1], nothing, [s: i32, e: f64], wilson_loop(&TRIANGLE, &vector, &[], &[], &mut s, &mut e[0]));
        lend!(-14, [2, 1], nothing, [s: u64, e: f64], su2_wilson_loop(&TRIANGLE, &pair, &[], &mut s, &mut e[0]));
        lend!(-14, [2, 1], nothing, [s: u64, e: f64], su2_wilson_passes(&TRIANGLE, &pair, &[], &mut s, &mut e[0]));
        lend!(-14, [2], nothing, [p: f64], matvec(&[0, 1, 1], &[0], &[5.0], &pair, &mut p));
    }
}

#[test]
fn weights_that_are_not_given_are_not_judged() {
    let mut matrix = [0.0; 9];
    for weights in [&[][..], &[f64::NAN], &[2.0; 7]] {
        assert_eq!(build_hamiltonian(&TRIANGLE, U1, false, weights, &mut [0; 9], &mut matrix), 3);
        assert_eq!(matrix[..2], [1.5, -0.5]);
    }
}

#[test]
fn couplings_that_are_none() {
    for g_squared in wrong_couplings() {
        lend!(-14, [3], [0], [params: f64], u1_params(g_squared, params[..].as_mut().try_into().unwrap()));
        lend!(-14, [3], [0], [params: f64], su2_params(g_squared, params[..].as_mut().try_into().unwrap()));
    }
}

#[test]
fn a_list_that_is_read_may_be_lent_twice() {
    let list = [0, 1, 1, 1];
    let mut product = [0.0; 3];
    assert_eq!(matvec(&list, &list[1..2], &[5.0], &VECTOR, &mut product), 0);
    assert_eq!(product, [10.0, 0.0, 0.0]);
    assert_eq!(su2_wilson_loop(&TRIANGLE, &[3.0, 5.0], &TRIANGLE[15..16], &mut [0; 2], &mut product[0]), 0);
}

#[test]
fn a_read_sheet_fills_the_fronts_alone() {
    let (mut numbers, mut edges, mut triangles) = ([9; 4], [0x55; EDGE_BYTES], [0x55; TRIANGLE_BYTES]);
    let [v, e, t, l] = &mut numbers;
    assert_eq!(read_sheet(&TRIANGLE[..19], v, e, t, l, &mut edges, &mut triangles), -6);
    assert_eq!((numbers, edges, triangles), ([9; 4], [0x55; EDGE_BYTES], [0x55; TRIANGLE_BYTES]));
    let [v, e, t, l] = &mut numbers;
    assert_eq!(read_sheet(&TRIANGLE, v, e, t, l, &mut edges, &mut triangles), 0);
    assert_eq!(numbers, [3, 3, 1, 1]);
    assert_eq!((&edges[..6], &triangles[..3]), (&TRIANGLE[11..17], &TRIANGLE[17..]));
    assert!(edges[6..].iter().chain(&triangles[3..]).all(|&entry| entry == 0x55));
}
