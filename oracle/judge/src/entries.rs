//! The entries of the matrices by their definition, each a sum of its own in the scope paper's order, and the row lists. For few states only, but for
//! the two-valued expectation.

use crate::couplings::Coupling;
use crate::reference::{self, Complex, Sheet};
use crate::rust::RowLists;
use crate::weights::Weights;

/// What one triangle adds, and the place that it leads to from each state.
struct Term {
    adds: f64,
    to: Vec<Option<usize>>,
}

/// Every row, of so many states: from 0.0, the energy on the diagonal, then each triangle that leads from row to column, or back where
/// both ways count.
fn rows(energies: &[f64], terms: &[Term], both_ways: bool) -> Vec<f64> {
    let entry = |row: usize, column: usize| {
        let mut sum = if row == column { 0.0 + energies[row] } else { 0.0 };
        for term in terms {
            if term.to[row] == Some(column) {
                sum += term.adds;
            }
            if both_ways && term.to[column] == Some(row) {
                sum += term.adds;
            }
        }
        sum
    };
    let count = energies.len();
    (0..count * count).map(|at| entry(at / count, at % count)).collect()
}

/// The row lists of so many states: a column has an entry where a value is given for it. None has two.
fn row_lists(energies: &[f64], terms: &[Term], both_ways: bool) -> RowLists {
    let mut lists = RowLists { starts: vec![0], columns: vec![], values: vec![] };
    for row in 0..energies.len() {
        for column in 0..energies.len() {
            let kept = row == column && energies[row] != 0.0;
            let joins = |term: &&Term| term.to[row] == Some(column) || both_ways && term.to[column] == Some(row);
            let mut given = kept.then_some(energies[row]).into_iter().chain(terms.iter().filter(joins).map(|term| term.adds));
            if let Some(value) = given.next() {
                assert!(given.next().is_none(), "row {row} holds column {column} twice");
                lists.columns.push(column as u32);
                lists.values.push(value);
            }
        }
        lists.starts.push(lists.columns.len() as u32);
    }
    lists
}

fn weight(weights: &Weights, triangle: usize) -> f64 {
    if weights.given { weights.list[triangle] } else { 1.0 }
}

/// What each U(1) state holds on the diagonal.
fn u1_energies(states: &[Vec<i32>], electric: f64) -> Vec<f64> {
    let squares = |state: &Vec<i32>| state.iter().map(|&value| i64::from(value) * i64::from(value)).sum::<i64>();
    states.iter().map(|state| electric * squares(state) as f64).collect()
}

/// The triangles of U(1), each with what it adds by its number.
fn u1_terms(sheet: &Sheet, states: &[Vec<i32>], adds: impl Fn(usize) -> f64) -> Vec<Term> {
    let to = |triangle: usize, state: usize| {
        reference::apply_triangle_shift(sheet, states, triangle as u64, state as u64, usize::MAX).ok()
    };
    let term = |triangle: usize| Term { adds: adds(triangle), to: (0..states.len()).map(|state| to(triangle, state)).collect() };
    (0..sheet.complex.triangles.len()).map(term).collect()
}

pub fn u1(sheet: &Sheet, states: &[Vec<i32>], [_, electric, magnetic]: Coupling, weights: &Weights) -> Vec<f64> {
    let terms = u1_terms(sheet, states, |triangle| (magnetic * weight(weights, triangle)) * 0.5);
    rows(&u1_energies(states, electric), &terms, true)
}

/// Here the product with 0.5 comes first.
pub fn u1_rows(sheet: &Sheet, states: &[Vec<i32>], [_, electric, magnetic]: Coupling, weights: &Weights) -> RowLists {
    let terms = u1_terms(sheet, states, |triangle| (magnetic * 0.5) * weight(weights, triangle));
    row_lists(&u1_energies(states, electric), &terms, true)
}

/// The product with a vector, entry by entry: from 0.0, the energy times the entry's own amplitude; then each triangle adds, for the state
/// that it leads here from and for the state here, in the order of their places, what it gives times the amplitude at the other end.
pub fn u1_product(
    sheet: &Sheet,
    states: &[Vec<i32>],
    [_, electric, magnetic]: Coupling,
    weights: &Weights,
    vector: &[f64],
) -> Vec<f64> {
    let energies = u1_energies(states, electric);
    let terms = u1_terms(sheet, states, |triangle| (magnetic * 0.5) * weight(weights, triangle));
    let entry = |here: usize| {
        let mut sum = 0.0 + energies[here] * vector[here];
        for Term { adds, to } in &terms {
            for from in (0..states.len()).filter(|&from| from == here || to[from] == Some(here)) {
                let other = if from == here { to[here] } else { Some(from) };
                sum = other.map_or(sum, |other| sum + adds * vector[other]);
            }
        }
        sum
    };
    (0..states.len()).map(entry).collect()
}

/// Where a path leads from each state: nowhere where a step leaves the band or the end is not listed.
pub fn walked(sheet: &Sheet, states: &[Vec<i32>], steps: &[(usize, i32)]) -> Vec<Option<usize>> {
    let walk = |state: &Vec<i32>| {
        let mut end = state.clone();
        for &(edge, direction) in steps {
            end[edge] += direction;
            if u64::from(end[edge].unsigned_abs()) > sheet.lambda {
                return None;
            }
        }
        reference::listed(sheet, &end).then(|| reference::place(states, &end))
    };
    states.iter().map(walk).collect()
}

fn su2_energies(masks: &[u64], electric: f64) -> Vec<f64> {
    masks.iter().map(|mask| electric * f64::from(mask.count_ones())).collect()
}

fn su2_terms(complex: &Complex, masks: &[u64], magnetic: f64, weights: &Weights) -> Vec<Term> {
    let term = |triangle: usize| {
        let flips = reference::sides(complex, triangle).iter().fold(0, |flips, edge| flips ^ 1 << edge);
        let to = |mask: &u64| masks.iter().position(|&other| other == mask ^ flips);
        Term { adds: magnetic * weight(weights, triangle), to: masks.iter().map(to).collect() }
    };
    (0..complex.triangles.len()).map(term).collect()
}

pub fn su2(complex: &Complex, masks: &[u64], [_, electric, magnetic]: Coupling, weights: &Weights) -> Vec<f64> {
    rows(&su2_energies(masks, electric), &su2_terms(complex, masks, magnetic, weights), false)
}

pub fn su2_rows(complex: &Complex, masks: &[u64], [_, electric, magnetic]: Coupling, weights: &Weights) -> RowLists {
    row_lists(&su2_energies(masks, electric), &su2_terms(complex, masks, magnetic, weights), false)
}

/// From 0.0, the energy times the amplitude, then what each triangle adds times the amplitude that it leads to.
pub fn su2_product(
    complex: &Complex,
    masks: &[u64],
    [_, electric, magnetic]: Coupling,
    weights: &Weights,
    vector: &[f64],
) -> Vec<f64> {
    let (energies, terms) = (su2_energies(masks, electric), su2_terms(complex, masks, magnetic, weights));
    let led_to = |term: &Term, state: usize| term.to[state].map_or(0.0, |to| term.adds * vector[to]);
    let entry = |state: usize| terms.iter().fold(0.0 + energies[state] * vector[state], |sum, term| sum + led_to(term, state));
    (0..masks.len()).map(entry).collect()
}

/// How a two-valued loop reads a path.
#[derive(Clone, Copy, PartialEq, Eq)]
pub enum Reading {
    /// by the set of its edges
    EdgeSet,
    /// by its passes modulo two
    Passes,
}

impl Reading {
    /// Whether the sign of a mask is -1.0: it has an odd number of the path's edges, or an odd number of the path's steps are over its edges.
    fn turned(self, mask: u64, path: &[u8]) -> bool {
        let has = |edge: u8| mask >> edge & 1 == 1;
        let met = match self {
            Reading::EdgeSet => (0..64).filter(|&edge| has(edge) && path.contains(&edge)).count(),
            Reading::Passes => path.iter().filter(|&&edge| has(edge)).count(),
        };
        met % 2 == 1
    }
}

/// From 0.0, the square of each amplitude, with the sign of its mask. For any number of states.
pub fn su2_expectation(masks: &[u64], vector: &[f64], path: &[u8], reading: Reading) -> f64 {
    let squares = masks.iter().zip(vector).map(|(&mask, &amplitude)| {
        let sign = if reading.turned(mask, path) { -1.0 } else { 1.0 };
        amplitude * amplitude * sign
    });
    squares.fold(0.0, |sum, square| sum + square)
}
