//! The table `su2_amplitudes`: calls that are handed an amplitude for each mask.

use crate::compare::compared;
use crate::sheets::{G_SQUARED, Sheet, amplitudes, complete, coupling};
use crate::table::{Line, timed};
use phyz_quantum::su2_quantum::{su2_hamiltonian_matvec, su2_wilson_loop};
use std::hint::black_box;
use zibrotka::calls;

/// The basis and floats.
type Lists = (Vec<u64>, Vec<f64>);

pub fn table() -> String {
    let sheets = [complete(5, 0), complete(7, 0), complete(8, 1)];
    timed(&sheets.iter().flat_map(|sheet| [product(sheet), along(sheet)]).collect::<Vec<Line>>())
}

fn product(sheet: &Sheet) -> Line {
    let states = sheet.su2_states();
    let (list, vector) = amplitudes(states);
    let coupling = coupling(calls::su2_params);
    let times = compared(
        &[&list],
        |(states, result): &mut Lists| {
            calls::su2_hamiltonian_matvec(black_box(&sheet.bytes), coupling, true, &sheet.weights, &list, states, result)
        },
        || sheet.su2(|space| su2_hamiltonian_matvec(black_box(&vector), space, &sheet.record, G_SQUARED, Some(&sheet.weights))),
        |(space, product)| (space.dim() as i64, (space.basis, product.iter().copied().collect())),
    );
    Line::of(sheet, "su2_hamiltonian_matvec", Some(states), None, times)
}

/// The edges of the first triangle.
pub fn first_triangle(sheet: &Sheet) -> ([usize; 3], [u8; 3]) {
    let edges = sheet.record.tri_edge_indices(0);
    (edges, edges.map(|edge| edge as u8))
}

fn along(sheet: &Sheet) -> Line {
    let states = sheet.su2_states();
    let (list, vector) = amplitudes(states);
    let (edges, path) = first_triangle(sheet);
    let times = compared(
        &[&list],
        |(states, result): &mut Lists| calls::su2_wilson_loop(black_box(&sheet.bytes), &list, &path, states, &mut result[0]),
        || sheet.su2(|space| su2_wilson_loop(space, black_box(&vector), &edges)),
        |(space, expectation)| (0, (space.basis, vec![expectation])),
    );
    Line::of(sheet, "su2_wilson_loop", Some(states), None, times)
}
