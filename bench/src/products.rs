//! The table `products`: row lists times a vector.

use crate::compare::compared;
use crate::rows::{empty, matrix, su2_by_port, u1_by_port};
use crate::sheets::{Sheet, amplitudes, complete, number};
use crate::table::{Line, timed};
use phyz_quantum::csr::CsrMatrix;
use std::hint::black_box;
use zibrotka::calls;

pub fn table() -> String {
    let u1 = [complete(4, 0).with(5), complete(5, 0).with(2), complete(4, 0).with(50)];
    let su2 = [complete(6, 0), complete(7, 0), complete(8, 1)];
    let u1 = u1.into_iter().map(|sheet| multiplied(&sheet, u1_rows(&sheet)));
    let su2 = su2.into_iter().map(|sheet| multiplied(&sheet, su2_rows(&sheet)));
    timed(&u1.chain(su2).collect::<Vec<Line>>())
}

fn u1_rows(sheet: &Sheet) -> CsrMatrix {
    let states = sheet.u1_states();
    let mut lists = empty(states * sheet.record.n_edges(), states, sheet.u1_entries());
    number(u1_by_port(sheet, &mut lists));
    matrix(lists)
}

fn su2_rows(sheet: &Sheet) -> CsrMatrix {
    let states = sheet.su2_states();
    let mut lists = empty(states, states, sheet.su2_entries());
    number(su2_by_port(sheet, &mut lists));
    matrix(lists)
}

fn multiplied(sheet: &Sheet, matrix: CsrMatrix) -> Line {
    let (vector, _) = amplitudes(matrix.nrows);
    let CsrMatrix { row_ptr, col_indices, values, .. } = &matrix;
    let times = compared(
        &[row_ptr, col_indices, values, &vector],
        |result: &mut Vec<f64>| calls::matvec(row_ptr, col_indices, values, black_box(&vector), result),
        || matrix.matvec(black_box(&vector)),
        |product| (0, product),
    );
    Line::of(sheet, "matvec", Some(matrix.nrows), Some(matrix.nnz()), times)
}
