//! The table `counts`: the numbers of states and of entries, without a list.

use crate::compare::compared;
use crate::rows::{su2_by_rust, u1_by_rust};
use crate::sheets::{Sheet, complete, long};
use crate::table::{Line, timed};
use std::hint::black_box;
use zibrotka::calls;

pub fn table() -> String {
    let su2_sheets = [complete(7, 0), complete(8, 4)];
    timed(&long().iter().flat_map(u1).chain(su2_sheets.iter().flat_map(su2)).collect::<Vec<Line>>())
}

fn u1(sheet: &Sheet) -> [Line; 2] {
    let states = compared(
        &[],
        |()| calls::count_states(black_box(&sheet.bytes)),
        || sheet.u1(|_| ()),
        |(space, ())| (space.dim() as i64, ()),
    );
    let entries = compared(
        &[],
        |()| calls::count_entries(black_box(&sheet.bytes)),
        || u1_by_rust(sheet),
        |(_, matrix)| (matrix.nnz() as i64, ()),
    );
    let count = Some(sheet.u1_states());
    [
        Line::of(sheet, "count_states", count, None, states),
        Line::of(sheet, "count_entries", count, Some(sheet.u1_entries()), entries),
    ]
}

fn su2(sheet: &Sheet) -> [Line; 2] {
    let states = compared(
        &[],
        |()| calls::su2_count_states(black_box(&sheet.bytes)),
        || sheet.su2(|_| ()),
        |(space, ())| (space.dim() as i64, ()),
    );
    let entries = compared(
        &[],
        |()| calls::su2_count_entries(black_box(&sheet.bytes)),
        || su2_by_rust(sheet),
        |(_, matrix)| (matrix.nnz() as i64, ()),
    );
    let count = Some(sheet.su2_states());
    [
        Line::of(sheet, "su2_count_states", count, None, states),
        Line::of(sheet, "su2_count_entries", count, Some(sheet.su2_entries()), entries),
    ]
}
