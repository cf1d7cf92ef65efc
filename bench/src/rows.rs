//! The table `rows`: the Hamiltonians as row lists.

use crate::compare::compared;
use crate::sheets::{G_SQUARED, Sheet, complete, coupling, large};
use crate::table::{Line, timed};
use phyz_quantum::csr::{CsrMatrix, build_csr, build_csr_su2};
use phyz_quantum::hilbert::U1HilbertSpace;
use phyz_quantum::su2_quantum::Su2HilbertSpace;
use std::hint::black_box;
use zibrotka::calls;

/// States and starts, columns and values.
pub type RowLists<T> = ((Vec<T>, Vec<u32>), (Vec<u32>, Vec<f64>));

pub fn table() -> String {
    timed(&large().iter().map(u1).chain([complete(7, 0), complete(8, 1)].iter().map(su2)).collect::<Vec<Line>>())
}

pub fn u1_by_port(sheet: &Sheet, ((states, starts), (columns, values)): &mut RowLists<i32>) -> i64 {
    calls::build_csr(black_box(&sheet.bytes), coupling(calls::u1_params), true, &sheet.weights, states, starts, columns, values)
}

pub fn su2_by_port(sheet: &Sheet, ((states, starts), (columns, values)): &mut RowLists<u64>) -> i64 {
    calls::build_csr_su2(
        black_box(&sheet.bytes),
        coupling(calls::su2_params),
        true,
        &sheet.weights,
        states,
        starts,
        columns,
        values,
    )
}

pub fn u1_by_rust(sheet: &Sheet) -> (U1HilbertSpace, CsrMatrix) {
    sheet.u1(|space| build_csr(space, &sheet.record, G_SQUARED, Some(black_box(&sheet.weights))))
}

pub fn su2_by_rust(sheet: &Sheet) -> (Su2HilbertSpace, CsrMatrix) {
    sheet.su2(|space| build_csr_su2(space, &sheet.record, G_SQUARED, Some(black_box(&sheet.weights))))
}

/// Lists of the right lengths for a matrix over so many states.
pub fn empty<T: Copy + Default>(numbers: usize, states: usize, entries: usize) -> RowLists<T> {
    ((vec![T::default(); numbers], vec![0; states + 1]), (vec![0; entries], vec![0.0; entries]))
}

/// The row lists as the Rust's record.
pub fn matrix<T>(((_, row_ptr), (col_indices, values)): RowLists<T>) -> CsrMatrix {
    CsrMatrix { nrows: row_ptr.len() - 1, row_ptr, col_indices, values }
}

fn u1(sheet: &Sheet) -> Line {
    let times =
        compared(&[], |lists| u1_by_port(sheet, lists), || u1_by_rust(sheet), |(space, matrix)| told(space.basis.concat(), matrix));
    Line::of(sheet, "build_csr", Some(sheet.u1_states()), Some(sheet.u1_entries()), times)
}

fn su2(sheet: &Sheet) -> Line {
    let times =
        compared(&[], |lists| su2_by_port(sheet, lists), || su2_by_rust(sheet), |(space, matrix)| told(space.basis, matrix));
    Line::of(sheet, "build_csr_su2", Some(sheet.su2_states()), Some(sheet.su2_entries()), times)
}

fn told<T>(states: Vec<T>, matrix: CsrMatrix) -> (i64, RowLists<T>) {
    (matrix.nnz() as i64, ((states, matrix.row_ptr), (matrix.col_indices, matrix.values)))
}
