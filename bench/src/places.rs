//! The table `places`: calls that need the basis of a sheet and tell a place in it.

use crate::compare::compared;
use crate::sheets::{Sheet, long};
use crate::table::{Line, timed};
use phyz_quantum::hamiltonian::open_triangle_shift;
use phyz_quantum::hilbert::U1HilbertSpace;
use std::hint::black_box;
use zibrotka::calls;

const EDGE: usize = 0;
const DELTA: i32 = 1;
const TRIANGLE: usize = 0;

/// What is asked of the state in the middle of the basis.
pub struct Middle {
    /// Its own values.
    pub configuration: Vec<i32>,
    /// One less on an edge.
    pub beside: Vec<i32>,
    /// The place of the next state before it that the triangle does not take out of the band.
    pub inside: usize,
}

impl Middle {
    pub fn of(sheet: &Sheet) -> Middle {
        let (space, ()) = sheet.u1(|_| ());
        let at = space.dim() / 2;
        let configuration = space.index_to_config(at).to_vec();
        let mut beside = configuration.clone();
        beside[EDGE] -= DELTA;
        let inside = (0..=at).rev().find(|&state| shifted(sheet, &space, state).is_some()).expect("the first state can be shifted");
        Middle { configuration, beside, inside }
    }

    pub fn place(&self, sheet: &[u8], states: &mut [i32]) -> i64 {
        calls::config_to_index(sheet, &self.configuration, states)
    }

    pub fn shift(&self, sheet: &[u8], states: &mut [i32], result: &mut [i32]) -> i64 {
        calls::apply_shift(sheet, &self.beside, EDGE as u64, DELTA, states, result)
    }

    pub fn triangle_shift(&self, sheet: &[u8], states: &mut [i32]) -> i64 {
        calls::apply_triangle_shift(sheet, TRIANGLE as u64, self.inside as u64, states)
    }
}

fn shifted(sheet: &Sheet, space: &U1HilbertSpace, state: usize) -> Option<usize> {
    open_triangle_shift(space, space.index_to_config(state), &sheet.record.tri_edge_indices(TRIANGLE))
}

pub fn table() -> String {
    timed(&long().iter().flat_map(asked).collect::<Vec<Line>>())
}

fn asked(sheet: &Sheet) -> [Line; 3] {
    let middle = Middle::of(sheet);
    let told = |(space, place): (U1HilbertSpace, Option<usize>)| (place.expect("a state") as i64, space.basis.concat());
    let place = compared(
        &[],
        |states: &mut Vec<i32>| middle.place(black_box(&sheet.bytes), states),
        || sheet.u1(|space| space.config_to_index(black_box(&middle.configuration))),
        told,
    );
    let shift = compared(
        &[],
        |(states, result): &mut (Vec<i32>, Vec<i32>)| middle.shift(black_box(&sheet.bytes), states, result),
        || sheet.u1(|space| space.apply_shift(black_box(&middle.beside), EDGE, DELTA)),
        |(space, shifted)| {
            let (result, place) = shifted.expect("a state");
            (place as i64, (space.basis.concat(), result))
        },
    );
    let triangle_shift = compared(
        &[],
        |states: &mut Vec<i32>| middle.triangle_shift(black_box(&sheet.bytes), states),
        || sheet.u1(|space| shifted(sheet, space, black_box(middle.inside))),
        told,
    );
    let line = |call, times| Line::of(sheet, call, Some(sheet.u1_states()), None, times);
    [line("config_to_index", place), line("apply_shift", shift), line("apply_triangle_shift", triangle_shift)]
}
