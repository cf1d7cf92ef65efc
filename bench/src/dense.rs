//! The table `dense`: the Hamiltonians as dense matrices.

use crate::compare::compared;
use crate::sheets::{G_SQUARED, Sheet, complete, coupling};
use crate::table::{Line, timed};
use phyz_math::DMat;
use phyz_quantum::hamiltonian::{KSParams, build_hamiltonian};
use phyz_quantum::su2_quantum::build_su2_hamiltonian;
use std::hint::black_box;
use zibrotka::calls;

pub fn table() -> String {
    let [one, two, three, four] = [complete(4, 0).with(5), complete(5, 0).with(1), complete(5, 0), complete(6, 0)];
    timed(&[u1(&one), u1(&two), su2(&three), su2(&four)])
}

fn u1(sheet: &Sheet) -> Line {
    let coupling = coupling(calls::u1_params);
    let params = KSParams { g_squared: G_SQUARED, metric_weights: Some(sheet.weights.clone()) };
    let times = compared(
        &[],
        |(states, result): &mut (Vec<i32>, Vec<f64>)| {
            calls::build_hamiltonian(black_box(&sheet.bytes), coupling, true, &sheet.weights, states, result)
        },
        || sheet.u1(|space| build_hamiltonian(space, &sheet.record, black_box(&params))),
        |(space, matrix)| told(space.basis.concat(), matrix),
    );
    Line::of(sheet, "build_hamiltonian", Some(sheet.u1_states()), None, times)
}

fn su2(sheet: &Sheet) -> Line {
    let coupling = coupling(calls::su2_params);
    let times = compared(
        &[],
        |(states, result): &mut (Vec<u64>, Vec<f64>)| {
            calls::build_su2_hamiltonian(black_box(&sheet.bytes), coupling, true, &sheet.weights, states, result)
        },
        || sheet.su2(|space| build_su2_hamiltonian(space, &sheet.record, G_SQUARED, Some(black_box(&sheet.weights)))),
        |(space, matrix)| told(space.basis, matrix),
    );
    Line::of(sheet, "build_su2_hamiltonian", Some(sheet.su2_states()), None, times)
}

fn told<T>(states: Vec<T>, matrix: DMat) -> (i64, (Vec<T>, Vec<f64>)) {
    let count = matrix.nrows();
    let entries = (0..count * count).map(|at| matrix[(at / count, at % count)]).collect();
    (count as i64, (states, entries))
}
