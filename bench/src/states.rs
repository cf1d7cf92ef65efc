//! The tables `states` and `masks`: the lists of all states.

use crate::compare::compared;
use crate::sheets::{Sheet, complete, large};
use crate::table::{Line, timed};
use phyz_quantum::gauss_law::enumerate_gauge_invariant;
use std::hint::black_box;
use zibrotka::calls;

pub fn u1() -> String {
    let sheets = large().into_iter().chain([complete(4, 0).with(1), complete(3, 0).with(1)]);
    timed(&sheets.map(|sheet| listed(&sheet)).collect::<Vec<Line>>())
}

fn listed(sheet: &Sheet) -> Line {
    let times = compared(
        &[],
        |states: &mut Vec<i32>| calls::enumerate_gauge_invariant(black_box(&sheet.bytes), states),
        || enumerate_gauge_invariant(black_box(&sheet.record), sheet.lambda),
        |states| (states.len() as i64, states.concat()),
    );
    Line::of(sheet, "enumerate_gauge_invariant", Some(sheet.u1_states()), None, times)
}

pub fn su2() -> String {
    timed(&[complete(7, 0), complete(8, 1), complete(3, 0)].map(|sheet| masks(&sheet)))
}

fn masks(sheet: &Sheet) -> Line {
    let times = compared(
        &[],
        |states: &mut Vec<u64>| calls::su2_basis(black_box(&sheet.bytes), states),
        || sheet.su2(|_| ()),
        |(space, ())| (space.dim() as i64, space.basis),
    );
    Line::of(sheet, "su2_basis", Some(sheet.su2_states()), None, times)
}
