//! The table `trees`: the spanning tree, the fundamental loops, and whether a configuration obeys Gauss's law.

use crate::amplitudes::steps;
use crate::compare::compared;
use crate::sheets::{Sheet, chain, complete};
use crate::table::{Line, timed};
use phyz_quantum::gauss_law::{check_gauss_law, spanning_tree};
use phyz_quantum::observables::fundamental_loops;
use phyz_quantum::su2_quantum::su2_fundamental_loops;
use std::hint::black_box;
use zibrotka::calls;

pub fn table() -> String {
    let sheets = [complete(3, 0), complete(5, 0), complete(11, 0), chain(32, 15), chain(58, 6), chain(64, 0)];
    timed(&sheets.iter().flat_map(|sheet| [tree(sheet), loops(sheet), su2_loops(sheet), law(sheet)]).collect::<Vec<Line>>())
}

fn tree(sheet: &Sheet) -> Line {
    let numbers = |edges: Vec<usize>| edges.into_iter().map(|edge| edge as u32).collect();
    let times = compared(
        &[&sheet.bytes],
        |(tree, free): &mut (Vec<u32>, Vec<u32>)| calls::spanning_tree(black_box(&sheet.bytes), tree, free),
        || spanning_tree(black_box(&sheet.record)),
        |(tree, free)| (free.len() as i64, (numbers(tree), numbers(free))),
    );
    Line::of(sheet, "spanning_tree", None, None, times)
}

fn loops(sheet: &Sheet) -> Line {
    let times = compared(
        &[&sheet.bytes],
        |(starts, (edges, directions)): &mut (Vec<u32>, (Vec<u8>, Vec<i8>))| {
            calls::fundamental_loops(black_box(&sheet.bytes), starts, edges, directions)
        },
        || fundamental_loops(black_box(&sheet.record)),
        |loops| (loops.len() as i64, (starts(&loops), steps(&loops.concat()))),
    );
    Line::of(sheet, "fundamental_loops", None, None, times)
}

fn su2_loops(sheet: &Sheet) -> Line {
    let times = compared(
        &[&sheet.bytes],
        |(starts, edges): &mut (Vec<u32>, Vec<u8>)| calls::su2_fundamental_loops(black_box(&sheet.bytes), starts, edges),
        || su2_fundamental_loops(black_box(&sheet.record)),
        |loops| (loops.len() as i64, (starts(&loops), loops.iter().flatten().map(|&edge| edge as u8).collect())),
    );
    Line::of(sheet, "su2_fundamental_loops", None, None, times)
}

/// Where each loop begins among all steps, and where the last one ends.
fn starts<T>(loops: &[Vec<T>]) -> Vec<u32> {
    let ends = loops.iter().scan(0, |end, one| {
        *end += one.len() as u32;
        Some(*end)
    });
    std::iter::once(0).chain(ends).collect()
}

/// Of a lawful configuration, the sum of all fundamental loops.
fn law(sheet: &Sheet) -> Line {
    let mut configuration = vec![0; sheet.record.n_edges()];
    for (edge, direction) in fundamental_loops(&sheet.record).into_iter().flatten() {
        configuration[edge] += direction;
    }
    let times = compared(
        &[&sheet.bytes, &configuration],
        |()| calls::check_gauss_law(black_box(&sheet.bytes), &configuration),
        || check_gauss_law(black_box(&sheet.record), &configuration),
        |lawful| (lawful.into(), ()),
    );
    Line::of(sheet, "check_gauss_law", None, None, times)
}
