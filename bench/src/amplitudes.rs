//! The table `amplitudes`: calls that are handed an amplitude for each U(1) state.

use crate::compare::compared;
use crate::sheets::{G_SQUARED, Sheet, amplitudes, coupling, long};
use crate::table::{Line, timed};
use phyz_quantum::lanczos::hamiltonian_matvec;
use phyz_quantum::observables::{electric_field_sq, fundamental_loops, wilson_loop};
use std::hint::black_box;
use zibrotka::calls;

/// The basis and floats.
type Lists = (Vec<i32>, Vec<f64>);

pub fn table() -> String {
    timed(&long().iter().flat_map(|sheet| [product(sheet), along(sheet), squares(sheet)]).collect::<Vec<Line>>())
}

fn product(sheet: &Sheet) -> Line {
    let states = sheet.u1_states();
    let (list, vector) = amplitudes(states);
    let coupling = coupling(calls::u1_params);
    let times = compared(
        &[&list],
        |(states, result): &mut Lists| {
            calls::hamiltonian_matvec(black_box(&sheet.bytes), coupling, true, &sheet.weights, &list, states, result)
        },
        || sheet.u1(|space| hamiltonian_matvec(black_box(&vector), space, &sheet.record, G_SQUARED, Some(&sheet.weights))),
        |(space, product)| (space.dim() as i64, (space.basis.concat(), product.iter().copied().collect())),
    );
    Line::of(sheet, "hamiltonian_matvec", Some(states), None, times)
}

/// The longest of the fundamental loops.
pub fn longest(sheet: &Sheet) -> Vec<(usize, i32)> {
    fundamental_loops(&sheet.record).into_iter().max_by_key(Vec::len).expect("a loop")
}

/// A path as the port takes it.
pub fn steps(path: &[(usize, i32)]) -> (Vec<u8>, Vec<i8>) {
    path.iter().map(|&(edge, direction)| (edge as u8, direction as i8)).unzip()
}

fn along(sheet: &Sheet) -> Line {
    let states = sheet.u1_states();
    let (list, vector) = amplitudes(states);
    let path = longest(sheet);
    let (edges, directions) = steps(&path);
    let times = compared(
        &[&list],
        |(states, result): &mut Lists| {
            calls::wilson_loop(black_box(&sheet.bytes), &list, &edges, &directions, states, &mut result[0])
        },
        || sheet.u1(|space| wilson_loop(space, black_box(&vector), &path)),
        |(space, expectation)| (0, (space.basis.concat(), vec![expectation])),
    );
    Line::of(sheet, "wilson_loop", Some(states), None, times)
}

fn squares(sheet: &Sheet) -> Line {
    let states = sheet.u1_states();
    let (list, vector) = amplitudes(states);
    let times = compared(
        &[&list],
        |(states, result): &mut Lists| calls::electric_field_sq(black_box(&sheet.bytes), &list, states, result),
        || sheet.u1(|space| electric_field_sq(space, black_box(&vector))),
        |(space, squares)| (squares.len() as i64, (space.basis.concat(), squares)),
    );
    Line::of(sheet, "electric_field_sq", Some(states), None, times)
}
