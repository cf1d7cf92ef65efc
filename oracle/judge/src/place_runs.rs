//! The runs of `config_to_index`, `apply_shift` and `apply_triangle_shift`.

use crate::basis::{Basis, Given};
use crate::case::{Tally, run};
use crate::complexes::{self, pairs, path};
use crate::lent::{self, NO_ROOM, Room};
use crate::places::Place;
use crate::random::Random;
use crate::reference::{self, MOST_CANDIDATES, MOST_LAMBDA, Sheet};
use crate::runs::QUICK_SEED;
use crate::sheets::sheet;
use crate::shifts::{EdgeShift, TriangleShift};
use crate::{configurations, inputs, rust};

const QUICK_ROUNDS: usize = 3_000;

pub fn place(given: &Given, configuration: &[i32], spare: i64, tally: &mut Tally) {
    run(&Place { given: given.clone(), configuration: configuration.to_vec(), spare }, tally);
}

pub fn shift(given: &Given, configuration: &[i32], edge: u64, delta: i32, room: Room, tally: &mut Tally) {
    run(&EdgeShift { given: given.clone(), configuration: configuration.to_vec(), edge, delta, room }, tally);
}

fn triangle_shift(given: &Given, triangle: u64, state: u64, spare: i64, tally: &mut Tally) {
    run(&TriangleShift { given: given.clone(), triangle, state, spare }, tally);
}

/// From this much on, the work list would hold every candidate, not only the states.
fn spare_for_candidates(basis: &Basis) -> i64 {
    let complex = &basis.sheet.complex;
    let candidates = reference::candidates(complex.free_edges(), basis.sheet.lambda).expect("10 was judged");
    candidates as i64 * complex.edges.len() as i64 - basis.flat.len() as i64
}

// ---- written down

/// Everything that can be wrong with the three calls on one sheet, in every combination.
fn combinations(sheet: &Sheet, tally: &mut Tally) {
    let given: Given = Given::of(sheet);
    let (n_edges, n_triangles) = (sheet.complex.edges.len(), sheet.complex.triangles.len() as u64);
    let (mut n_states, mut spares) = (1, vec![0, 1, 700, -1, NO_ROOM]);
    let mut some = vec![];
    if let Some(basis) = given.accepted() {
        let states = basis.space.states();
        n_states = states.len() as u64;
        some = vec![states[0].clone(), states[states.len() / 2].clone(), states[states.len() - 1].clone()];
        spares.extend([-1, 0, 1].map(|more| spare_for_candidates(basis) + more));
    }
    let out = sheet.lambda as i32 + 1;
    for value in [1, out, -out, i32::MIN, i32::MAX] {
        some.push(vec![value; n_edges]);
        let mut one_off = vec![0; n_edges];
        if let Some(last) = one_off.last_mut() {
            *last = value;
        }
        some.push(one_off);
    }
    for len in [n_edges + 1, n_edges.saturating_sub(1), 0, 2 * n_edges] {
        some.extend([vec![0; len], vec![i32::MAX; len]]);
    }
    for configuration in &some {
        for &spare in &spares {
            place(&given, configuration, spare, tally);
        }
        for edge in [0, n_edges.saturating_sub(1) as u64, n_edges as u64, 1 << 32, u64::MAX] {
            for delta in [0, -1, 2 * out - 1, i32::MIN, i32::MAX] {
                for room in Room::ALL {
                    shift(&given, configuration, edge, delta, room, tally);
                }
            }
        }
    }
    let past = [n_triangles, 256, 1 << 32, u64::MAX];
    for triangle in (0..n_triangles.min(4)).chain(past) {
        for state in [0, n_states / 2, n_states - 1, n_states, n_states + 1, 1 << 32, u64::MAX] {
            for &spare in &spares {
                triangle_shift(&given, triangle, state, spare, tally);
            }
        }
    }
}

/// The cases of the scope paper, the ends of the ranges, and the difference from the Rust that is intended.
pub fn written_down(tally: &mut Tally) {
    for lambda in [0, 1, 7, 1000, 1001] {
        for sheet in complexes::written_down(lambda) {
            combinations(&sheet, tally);
        }
    }
    // two free edges and L beyond the limit; the most triangles
    combinations(&sheet(4, &pairs(4)[..5], &[[0, 1, 2]], 512), tally);
    combinations(&Sheet { complex: inputs::fullest(193), lambda: 0 }, tally);
    combinations(&Sheet { complex: inputs::fullest(193), lambda: 1 }, tally);

    // what docs/DIFFERENCES.md says of the Rust under 2
    let triangle = sheet(3, &pairs(3), &[[0, 1, 2]], 1);
    let reached = rust::Space::new(&triangle.complex, 1).apply_shift(&[i32::MIN, 0, 0], 0, i32::MIN);
    assert_eq!(reached, Some((vec![0; 3], 1)), "the Rust no longer wraps");
    shift(&Given::of(&triangle), &[i32::MIN, 0, 0], 0, i32::MIN, Room::Ample, tally);
}

/// Places up to 1,046,528, the 515,201 states of a tetrahedron, and the most triangles that an L of 1 lets pass.
pub fn long_lists(tally: &mut Tally) {
    let shortcuts = [path(5), vec![[0, 2], [2, 4]]].concat();
    for (vertices, edges, lambda) in [(5, shortcuts, 511), (4, pairs(4), 50), (6, pairs(6), 1), (7, pairs(7)[..18].to_vec(), 1)] {
        let given: Given = Given::of(&sheet(vertices, &edges, &inputs::closed(&edges), lambda));
        let basis = given.accepted().expect("one part, within the limit");
        let states = basis.space.states();
        for at in [0, states.len() / 2, states.len() - 1] {
            place(&given, &states[at], 0, tally);
            let mut before = states[at].clone();
            before[1] -= 5;
            shift(&given, &before, 1, 5, Room::Exact, tally);
            shift(&given, &before, 1, 4, Room::Ample, tally);
            for triangle in 0..basis.sheet.complex.triangles.len() {
                triangle_shift(&given, triangle as u64, at as u64, 0, tally);
            }
        }
        place(&given, &states[1], -1, tally);
        triangle_shift(&given, 1, states.len() as u64, 0, tally);
    }
}

// ---- any bytes

/// The three calls on any bytes: with nothing else wrong, and with everything.
pub fn any_bytes(bytes: &[u8], tally: &mut Tally) {
    if reference::to_try(bytes) > 300 {
        return;
    }
    let given = Given::new(bytes.to_vec());
    let zeros = vec![0; bytes.get(6).map_or(0, |&count| count.into())];
    place(&given, &zeros, 30, tally);
    place(&given, &[], NO_ROOM, tally);
    shift(&given, &zeros, 0, 0, Room::Ample, tally);
    shift(&given, &[], u64::MAX, i32::MIN, Room::Nothing, tally);
    triangle_shift(&given, 0, 0, 30, tally);
    triangle_shift(&given, u64::MAX, u64::MAX, NO_ROOM, tally);
}

// ---- small graphs

/// Every state, its neighbours, and every triangle of every state, for every small graph; the largest in one order only.
pub fn small_graphs(tally: &mut Tally) {
    complexes::small_graphs(|order, sheet, random| {
        let given: Given = Given::of(sheet);
        match given.accepted() {
            None => any_bytes(&given.bytes, tally),
            Some(basis) if order == 0 || (order == 2 && basis.flat.len() < 8_000) => {
                every_state(&given, basis, random, tally);
                every_triangle(&given, basis, random, tally);
            }
            Some(_) => {}
        }
    });
}

fn every_state(given: &Given, basis: &Basis, random: &mut Random, tally: &mut Tally) {
    let states = basis.space.states();
    for state in states {
        place(given, state, random.pick(&[0, 1, 40]), tally);
    }
    for state in states.iter().step_by(1 + states.len() / 12) {
        for edge in 0..state.len() {
            let mut other = state.clone();
            other[edge] += random.pick(&[1, -1, 2, 256]);
            place(given, &other, 0, tally);
            // there from somewhere else, and away from there
            for _ in 0..2 {
                let delta = any_delta(random, basis);
                other[edge] = state[edge].wrapping_sub(delta);
                shift(given, &other, edge as u64, delta, Room::Ample, tally);
                shift(given, state, edge as u64, delta, Room::Exact, tally);
            }
        }
    }
}

fn every_triangle(given: &Given, basis: &Basis, random: &mut Random, tally: &mut Tally) {
    let (n_triangles, n_states) = (basis.sheet.complex.triangles.len() as u64, basis.space.states().len() as u64);
    for triangle in 0..n_triangles {
        for state in 0..n_states {
            triangle_shift(given, triangle, state, 0, tally);
        }
        for state in [n_states, inputs::strange(random, n_states)] {
            triangle_shift(given, triangle, state, 0, tally);
        }
    }
    for triangle in [n_triangles, inputs::strange(random, n_triangles)] {
        triangle_shift(given, triangle, random.below(n_states), 0, tally);
    }
}

// ---- random inputs

pub fn random_rounds(tally: &mut Tally) {
    let mut random = Random::new(QUICK_SEED);
    for round in 0..QUICK_ROUNDS {
        random_round(&mut random, if round % 500 == 0 { 100_000 } else { 1_000 }, tally);
    }
}

/// A complex with up to so many candidates and a few calls of each kind; every triangle of every state for a small L; then damaged sheets.
pub fn random_round(random: &mut Random, most: u64, tally: &mut Tally) {
    let complex = complexes::any(random);
    let free = complex.free_edges();
    let mut sheet = Sheet { complex, lambda: reference::largest_lambda(free, most) };
    if random.one_in(3) {
        sheet.lambda = random.below(sheet.lambda + 1);
    }
    let given = Given::of(&sheet);
    any_calls(&given, given.accepted().expect("one part, within the limit"), random, tally);

    sheet.lambda = reference::largest_lambda(free, 40);
    let given = Given::of(&sheet);
    every_triangle(&given, given.accepted().expect("one part, within the limit"), random, tally);

    // past the limit, where some L is
    sheet.lambda = random.between(reference::largest_lambda(free, MOST_CANDIDATES), MOST_LAMBDA + 1);
    for bytes in [reference::encode(&sheet), inputs::any_sheet_bytes(random)] {
        any_bytes(&bytes, tally);
    }
}

fn any_calls(given: &Given, basis: &Basis, random: &mut Random, tally: &mut Tally) {
    let complex = &basis.sheet.complex;
    for _ in 0..4 {
        place(given, &any_configuration(random, basis), any_spare(random, basis), tally);
    }
    for _ in 0..8 {
        let (edge, delta) = (any_number(random, complex.edges.len()), any_delta(random, basis));
        let mut configuration = any_configuration(random, basis);
        if let Some(value) = configuration.get_mut(edge as usize).filter(|_| !random.one_in(4)) {
            // so that the shift leads to the one picked, unless its sum does not fit 32 bits
            *value = value.wrapping_sub(delta);
        }
        let room = if random.one_in(4) { random.pick(&Room::ALL) } else { Room::Ample };
        shift(given, &configuration, edge, delta, room, tally);
    }
    for _ in 0..4 {
        let (triangle, state) = (any_number(random, complex.triangles.len()), any_number(random, basis.space.states().len()));
        triangle_shift(given, triangle, state, any_spare(random, basis), tally);
    }
}

/// Mostly a number below a count, else the count itself or one far beyond.
fn any_number(random: &mut Random, count: usize) -> u64 {
    let count = count as u64;
    if count > 0 && !random.one_in(8) { random.below(count) } else { inputs::strange(random, count) }
}

/// Small, as wide as the band, just wider, and at the ends of 32 bits.
pub fn any_delta(random: &mut Random, basis: &Basis) -> i32 {
    let lambda = basis.sheet.lambda as i32;
    match random.below(4) {
        0 => random.pick(&[i32::MIN, i32::MIN + 1, i32::MAX, i32::MAX - 1]),
        1 => random.pick(&[lambda, -lambda, 2 * lambda, -2 * lambda, 2 * lambda + 1, -2 * lambda - 1]),
        2 => random.next() as i32,
        _ => random.pick(&[0, 1, -1, 2, -2]),
    }
}

/// Mostly a listed one or its neighbour, else anything.
pub fn any_configuration(random: &mut Random, basis: &Basis) -> Vec<i32> {
    let states = basis.space.states();
    let mut configuration = states[random.place(states)].clone();
    match random.below(8) {
        0 => return configurations::any_length(random, &basis.sheet.complex),
        1 => return configurations::any(random, &basis.sheet.complex),
        2 | 3 if !configuration.is_empty() => {
            let at = random.place(&configuration);
            let off = random.pick(&[1, -1, 2, basis.sheet.lambda as i32, 1 << 8, 1 << 16, i32::MIN]);
            configuration[at] = configuration[at].wrapping_add(off);
        }
        _ => {}
    }
    configuration
}

/// Now and then so that just all candidates would fit.
fn any_spare(random: &mut Random, basis: &Basis) -> i64 {
    if random.one_in(6) { spare_for_candidates(basis) + random.pick(&[-1, 0, 1]) } else { lent::any_spare(random) }
}
