//! The tables `growth` and `su2_growth`: the port alone, from line to line on about twice as many states.

use crate::amplitudes::{longest, steps};
use crate::clock::nanoseconds;
use crate::places::Middle;
use crate::rows::{empty, matrix, su2_by_port, u1_by_port};
use crate::sheets::{Sheet, amplitudes, complete, coupling, number};
use crate::su2_amplitudes::first_triangle;
use crate::table::{digits, grouped, markdown};
use phyz_quantum::csr::CsrMatrix;
use std::hint::black_box;
use zibrotka::calls;

/// A dense matrix over more states is not made.
const DENSE: usize = 5000;

const U1_CALLS: [&str; 12] = [
    "enumerate_gauge_invariant / state",
    "count_states / state",
    "config_to_index / state",
    "apply_shift / state",
    "apply_triangle_shift / state",
    "electric_field_sq / state",
    "wilson_loop / state",
    "hamiltonian_matvec / entry",
    "count_entries / entry",
    "build_csr / entry",
    "matvec / entry",
    "build_hamiltonian / n²",
];

const SU2_CALLS: [&str; 8] = [
    "su2_basis / state",
    "su2_wilson_loop / state",
    "su2_hamiltonian_matvec / entry",
    "build_csr_su2 / entry",
    "matvec / entry",
    "build_su2_hamiltonian / n²",
    "su2_count_states / call",
    "su2_count_entries / call",
];

pub fn u1() -> String {
    let sheets = [3, 4, 5, 6, 8, 10, 13, 16, 20, 25, 32, 40, 50].map(|lambda| complete(4, 0).with(lambda));
    series(&U1_CALLS, sheets.iter().map(u1_line))
}

pub fn su2() -> String {
    let sheets = (1..=13).rev().map(|less| complete(8, less));
    series(&SU2_CALLS, sheets.map(|sheet| su2_line(&sheet)))
}

fn series(calls: &[&str], lines: impl Iterator<Item = Vec<String>>) -> String {
    let head = ["sheet", "states", "entries"].iter().chain(calls).map(|word| word.to_string()).collect();
    markdown(1, &std::iter::once(head).chain(lines).collect::<Vec<Vec<String>>>())
}

/// The nanoseconds of a call for each of so many states or entries.
fn each(many: usize, mut call: impl FnMut() -> i64) -> String {
    number(call());
    digits(nanoseconds(call) / many as f64)
}

fn u1_line(sheet: &Sheet) -> Vec<String> {
    let (n, entries, e) = (sheet.u1_states(), sheet.u1_entries(), sheet.record.n_edges());
    let (bytes, weights, coupling) = (black_box(&sheet.bytes), &sheet.weights, coupling(calls::u1_params));
    let (middle, (vector, _), (edges, directions)) = (Middle::of(sheet), amplitudes(n), steps(&longest(sheet)));
    let (mut states, mut shifted, mut sum, mut result) = (vec![0; n * e], vec![0; e], 0.0, vec![0.0; n]);
    let mut lists = empty(n * e, n, entries);
    let cells = [
        each(n, || calls::enumerate_gauge_invariant(bytes, &mut states)),
        each(n, || calls::count_states(bytes)),
        each(n, || middle.place(bytes, &mut states)),
        each(n, || middle.shift(bytes, &mut states, &mut shifted)),
        each(n, || middle.triangle_shift(bytes, &mut states)),
        each(n, || calls::electric_field_sq(bytes, &vector, &mut states, &mut result)),
        each(n, || calls::wilson_loop(bytes, &vector, &edges, &directions, &mut states, &mut sum)),
        each(entries, || calls::hamiltonian_matvec(bytes, coupling, true, weights, &vector, &mut states, &mut result)),
        each(entries, || calls::count_entries(bytes)),
        each(entries, || u1_by_port(sheet, &mut lists)),
        multiplied(&matrix(lists), &vector),
        dense(n, |result| calls::build_hamiltonian(bytes, coupling, true, weights, &mut states, result)),
    ];
    [sheet.name.clone(), grouped(n), grouped(entries)].into_iter().chain(cells).collect()
}

fn su2_line(sheet: &Sheet) -> Vec<String> {
    let (n, entries) = (sheet.su2_states(), sheet.su2_entries());
    let (bytes, weights, coupling) = (black_box(&sheet.bytes), &sheet.weights, coupling(calls::su2_params));
    let ((vector, _), (_, path)) = (amplitudes(n), first_triangle(sheet));
    let (mut states, mut sum, mut result) = (vec![0; n], 0.0, vec![0.0; n]);
    let mut lists = empty(n, n, entries);
    let cells = [
        each(n, || calls::su2_basis(bytes, &mut states)),
        each(n, || calls::su2_wilson_loop(bytes, &vector, &path, &mut states, &mut sum)),
        each(entries, || calls::su2_hamiltonian_matvec(bytes, coupling, true, weights, &vector, &mut states, &mut result)),
        each(entries, || su2_by_port(sheet, &mut lists)),
        multiplied(&matrix(lists), &vector),
        dense(n, |result| calls::build_su2_hamiltonian(bytes, coupling, true, weights, &mut states, result)),
        each(1, || calls::su2_count_states(bytes)),
        each(1, || calls::su2_count_entries(bytes)),
    ];
    [sheet.name.clone(), grouped(n), grouped(entries)].into_iter().chain(cells).collect()
}

fn multiplied(matrix: &CsrMatrix, vector: &[f64]) -> String {
    let CsrMatrix { row_ptr, col_indices, values, .. } = matrix;
    let mut result = vec![0.0; matrix.nrows];
    each(matrix.nnz(), || calls::matvec(row_ptr, col_indices, values, black_box(vector), &mut result))
}

fn dense(n: usize, mut build: impl FnMut(&mut [f64]) -> i64) -> String {
    if n > DENSE {
        return String::new();
    }
    let mut result = vec![0.0; n * n];
    each(n * n, || build(&mut result))
}
