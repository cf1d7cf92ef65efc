//! Calls that are handed an amplitude for each U(1) state: `hamiltonian_matvec`, `electric_field_sq` and `wilson_loop`. The Rust judges every
//! bit of what they tell, the reference the refusals.

use crate::basis::{Basis, Given, Listed};
use crate::case::{Case, Kind, Tally};
use crate::couplings::{self, Coupling};
use crate::dense::{Ask, Matrix};
use crate::lent::{self, Lent};
use crate::reference::MOST_EDGES;
use crate::sheets::{hexadecimal, sheet_size, simpler_sheets};
use crate::shrink::{simpler_lambdas, simpler_weights};
use crate::weights::{self, Weights};
use crate::{entries, floats};
use zibrotka::calls;

/// Up to so many states every sum is added up by its definition as well.
const FEW: usize = 24;

/// Where there is no basis, result lists are as long as for so many states.
const NO_STATES: usize = 5;

/// The smallest of the numbers that hold.
fn smallest<const N: usize>(judged: [Result<(), u8>; N]) -> Result<(), u8> {
    judged.into_iter().filter_map(Result::err).min().map_or(Ok(()), Err)
}

/// 15 of a list.
fn room(room: usize, need: usize) -> Result<(), u8> {
    if room < need { Err(15) } else { Ok(()) }
}

/// The Rust's floats, which are those of the definition where there are few states.
fn agreed(count: usize, by_rust: Vec<f64>, by_definition: impl FnOnce() -> Vec<f64>) -> Result<Vec<f64>, String> {
    if count <= FEW && !floats::same(&by_rust, &by_definition()) {
        return Err("the judge's own sums and the Rust's differ".into());
    }
    Ok(by_rust)
}

// ---- smaller ones

/// As many amplitudes as another sheet has states, where there were as many before.
fn fitted(given: &Given, amplitudes: &[f64], bytes: &[u8]) -> Vec<f64> {
    let count = |given: &Given| given.accepted().map(Basis::count);
    let mut other = amplitudes.to_vec();
    if let (Some(before), Some(now)) = (count(given), count(&Given::new(bytes.to_vec())))
        && before == amplitudes.len()
    {
        other.resize(now, 1.0);
    }
    other
}

/// All of them 1, one fewer, or one of them simpler.
fn simpler_amplitudes(amplitudes: &[f64]) -> Vec<Vec<f64>> {
    let mut simpler = vec![vec![1.0; amplitudes.len()]];
    simpler.extend(amplitudes.split_last().map(|(_, shorter)| shorter.to_vec()));
    for (at, &amplitude) in amplitudes.iter().enumerate().take(60) {
        for float in floats::simpler(amplitude) {
            let mut other = amplitudes.to_vec();
            other[at] = float;
            simpler.push(other);
        }
    }
    simpler
}

fn amplitudes_size(amplitudes: &[f64]) -> Vec<u128> {
    vec![amplitudes.len() as u128, amplitudes.iter().map(|&float| floats::size(float)).fold(0, u128::saturating_add)]
}

fn spares_size<const N: usize>(spares: [i64; N]) -> Vec<u128> {
    spares.map(|spare| u128::from(spare.unsigned_abs())).to_vec()
}

// ---- the product

/// `hamiltonian_matvec` on any bytes.
#[derive(Clone)]
pub struct Applied {
    pub given: Given,
    pub ask: Ask<2>,
    pub vector: Vec<f64>,
}

impl Applied {
    pub fn judge(&self, basis: &Basis, rooms: [usize; 2]) -> Result<(), u8> {
        let Ask { coupling, weights, .. } = &self.ask;
        smallest([
            weights.judge(basis.sheet.complex.triangles.len()),
            weights::judge(&self.vector, basis.count()),
            Basis::MODE.judge(*coupling),
            room(rooms[0], basis.flat().len()),
            room(rooms[1], basis.count()),
        ])
    }

    /// The Rust's product.
    pub fn product(&self, basis: &Basis) -> Result<Vec<f64>, String> {
        let Ask { coupling, weights, .. } = &self.ask;
        let product = basis.space.hamiltonian_matvec(&self.vector, coupling[0], weights.option());
        let states = basis.space.states();
        agreed(basis.count(), product, || entries::u1_product(&basis.sheet, states, *coupling, weights, &self.vector))
    }
}

impl Case for Applied {
    fn compare(&self, tally: &mut Tally) -> Result<(), String> {
        let basis = self.given.basis()?;
        let [work, result] = self.ask.spares;
        let rooms = [lent::length(self.given.need()?, work), lent::length(basis.map_or(NO_STATES, Basis::count), result)];
        let expected = basis.and_then(|basis| self.judge(basis, rooms).map(|()| basis));
        tally.count(Kind::Applied, expected.err().unwrap_or(0));
        let mut states = Lent::<i32>::new("states", rooms[0]);
        let mut result = Lent::<f64>::new("result", rooms[1]);
        let Ask { coupling, weights: Weights { given, list }, .. } = &self.ask;
        let answer =
            calls::hamiltonian_matvec(&self.given.bytes, *coupling, *given, list, &self.vector, states.list(), result.list());
        self.given.told(answer, expected.map(Basis::count), &states)?;
        match expected {
            Ok(basis) => result.holds(&self.product(basis)?),
            Err(_) => result.unchanged(),
        }
    }

    fn simpler(&self) -> Vec<Applied> {
        let Ask { coupling, weights, spares } = &self.ask;
        let on = |bytes: Vec<u8>, weights: Weights| {
            let vector = fitted(&self.given, &self.vector, &bytes);
            Applied { given: Given::new(bytes), ask: Ask { weights, ..self.ask.clone() }, vector }
        };
        let with = |coupling: Coupling, spares: [i64; 2], vector: Vec<f64>| {
            let ask = Ask { coupling, weights: weights.clone(), spares };
            Applied { given: self.given.clone(), ask, vector }
        };
        let mut simpler = vec![];
        simpler.extend(simpler_lambdas(&self.given.bytes).into_iter().map(|bytes| on(bytes, weights.clone())));
        simpler.extend(simpler_weights(&self.given.bytes, weights).into_iter().map(|(bytes, weights)| on(bytes, weights)));
        let coupled = couplings::simpler(Basis::MODE, *coupling).into_iter();
        simpler.extend(coupled.map(|coupling| with(coupling, *spares, self.vector.clone())));
        simpler.extend(simpler_amplitudes(&self.vector).into_iter().map(|vector| with(*coupling, *spares, vector)));
        for spare in [0, 1, -1] {
            simpler.extend([[spare, spares[1]], [spares[0], spare]].map(|spares| with(*coupling, spares, self.vector.clone())));
        }
        simpler
    }

    fn size(&self) -> Vec<u128> {
        let Ask { coupling, weights, spares } = &self.ask;
        let floats = coupling.map(floats::size).to_vec();
        [sheet_size(&self.given.bytes), weights.size(), floats, amplitudes_size(&self.vector), spares_size(*spares)].concat()
    }

    fn show(&self) -> String {
        let Ask { coupling, weights, spares } = &self.ask;
        let (sheet, [states, result]) = (hexadecimal(&self.given.bytes), spares.map(lent::show_spare));
        let [coupling, weights, vector] = [floats::show(coupling), weights.show(), floats::show(&self.vector)];
        format!(
            "hamiltonian_matvec: sheet {sheet}, coupling {coupling}, {weights}, vector {vector}, states: {states}, result: {result}"
        )
    }
}

// ---- the squares of the field

/// `electric_field_sq` on any bytes.
#[derive(Clone)]
pub struct Squares {
    pub given: Given,
    pub amplitudes: Vec<f64>,
    /// of the work list and the result
    pub spares: [i64; 2],
}

impl Squares {
    pub fn judge(&self, basis: &Basis, rooms: [usize; 2]) -> Result<(), u8> {
        smallest([
            weights::judge(&self.amplitudes, basis.count()),
            room(rooms[0], basis.flat().len()),
            room(rooms[1], basis.sheet.complex.edges.len()),
        ])
    }

    /// The Rust's squares.
    pub fn squares(&self, basis: &Basis) -> Result<Vec<f64>, String> {
        let by_definition = || {
            let square = |edge: usize| {
                let term = |(state, amplitude): (&Vec<i32>, &f64)| {
                    let value = f64::from(state[edge]);
                    ((amplitude * amplitude) * value) * value
                };
                basis.space.states().iter().zip(&self.amplitudes).map(term).fold(0.0, |sum, term| sum + term)
            };
            (0..basis.sheet.complex.edges.len()).map(square).collect()
        };
        agreed(basis.count(), basis.space.electric_field_sq(&self.amplitudes), by_definition)
    }
}

impl Case for Squares {
    fn compare(&self, tally: &mut Tally) -> Result<(), String> {
        let basis = self.given.basis()?;
        let n_edges = basis.map_or(MOST_EDGES, |basis| basis.sheet.complex.edges.len());
        let rooms = [lent::length(self.given.need()?, self.spares[0]), lent::length(n_edges, self.spares[1])];
        let expected = basis.and_then(|basis| self.judge(basis, rooms).map(|()| basis));
        tally.count(Kind::Squares, expected.err().unwrap_or(0));
        let mut states = Lent::<i32>::new("states", rooms[0]);
        let mut result = Lent::<f64>::new("result", rooms[1]);
        let answer = calls::electric_field_sq(&self.given.bytes, &self.amplitudes, states.list(), result.list());
        self.given.told(answer, expected.map(|_| n_edges), &states)?;
        match expected {
            Ok(basis) => result.holds(&self.squares(basis)?),
            Err(_) => result.unchanged(),
        }
    }

    fn simpler(&self) -> Vec<Squares> {
        let sheets = [simpler_lambdas(&self.given.bytes), simpler_sheets(&self.given.bytes)].concat();
        let on = |bytes: Vec<u8>| {
            let amplitudes = fitted(&self.given, &self.amplitudes, &bytes);
            Squares { given: Given::new(bytes), amplitudes, spares: self.spares }
        };
        let mut simpler: Vec<Squares> = sheets.into_iter().map(on).collect();
        simpler.extend(simpler_amplitudes(&self.amplitudes).into_iter().map(|amplitudes| Squares { amplitudes, ..self.clone() }));
        for spare in [0, 1, -1] {
            let spares = [[spare, self.spares[1]], [self.spares[0], spare]];
            simpler.extend(spares.map(|spares| Squares { spares, ..self.clone() }));
        }
        simpler
    }

    fn size(&self) -> Vec<u128> {
        [sheet_size(&self.given.bytes), amplitudes_size(&self.amplitudes), spares_size(self.spares)].concat()
    }

    fn show(&self) -> String {
        let (sheet, amplitudes) = (hexadecimal(&self.given.bytes), floats::show(&self.amplitudes));
        let [states, result] = self.spares.map(lent::show_spare);
        format!("electric_field_sq: sheet {sheet}, amplitudes {amplitudes}, states: {states}, result: {result}")
    }
}

// ---- the loop

/// The edges and the directions of a path, or what pretends to be one.
#[derive(Clone, Default)]
pub struct Path {
    pub edges: Vec<u8>,
    pub directions: Vec<i8>,
}

impl Path {
    pub fn of(steps: &[(usize, i32)]) -> Path {
        Path {
            edges: steps.iter().map(|&(edge, _)| edge as u8).collect(),
            directions: steps.iter().map(|&(_, direction)| direction as i8).collect(),
        }
    }

    pub fn steps(&self) -> Vec<(usize, i32)> {
        self.edges.iter().zip(&self.directions).map(|(&edge, &direction)| (edge.into(), direction.into())).collect()
    }

    /// 12, then 13, for so many edges.
    fn judge(&self, n_edges: usize) -> Result<(), u8> {
        if self.edges.len() != self.directions.len() {
            return Err(12);
        }
        let right = |&(edge, direction): &(usize, i32)| edge < n_edges && matches!(direction, 1 | -1);
        if self.steps().iter().all(right) { Ok(()) } else { Err(13) }
    }
}

/// `wilson_loop` on any bytes.
#[derive(Clone)]
pub struct Expected {
    pub given: Given,
    pub amplitudes: Vec<f64>,
    pub path: Path,
    /// of the work list
    pub spare: i64,
}

impl Expected {
    pub fn judge(&self, basis: &Basis, work: usize) -> Result<(), u8> {
        smallest([
            weights::judge(&self.amplitudes, basis.count()),
            self.path.judge(basis.sheet.complex.edges.len()),
            room(work, basis.flat().len()),
        ])
    }

    /// The Rust's expectation.
    pub fn expectation(&self, basis: &Basis) -> Result<Vec<f64>, String> {
        let steps = self.path.steps();
        let by_definition = || {
            let reached = entries::walked(&basis.sheet, basis.space.states(), &steps);
            let product = |(at, to): (usize, &Option<usize>)| to.map(|to| self.amplitudes[at] * self.amplitudes[to]);
            vec![reached.iter().enumerate().filter_map(product).fold(0.0, |sum, product| sum + product)]
        };
        agreed(basis.count(), vec![basis.space.wilson_loop(&self.amplitudes, &steps)], by_definition)
    }
}

impl Case for Expected {
    fn compare(&self, tally: &mut Tally) -> Result<(), String> {
        let basis = self.given.basis()?;
        let work = lent::length(self.given.need()?, self.spare);
        let expected = basis.and_then(|basis| self.judge(basis, work).map(|()| basis));
        tally.count(Kind::Expectations, expected.err().unwrap_or(0));
        let mut states = Lent::<i32>::new("states", work);
        let mut expectation = Lent::<f64>::new("expectation", 1);
        let Path { edges, directions } = &self.path;
        let answer =
            calls::wilson_loop(&self.given.bytes, &self.amplitudes, edges, directions, states.list(), expectation.number());
        self.given.told(answer, expected.map(|_| 0), &states)?;
        match expected {
            Ok(basis) => expectation.holds(&self.expectation(basis)?),
            Err(_) => expectation.unchanged(),
        }
    }

    fn simpler(&self) -> Vec<Expected> {
        let sheets = [simpler_lambdas(&self.given.bytes), simpler_sheets(&self.given.bytes)].concat();
        let on = |bytes: Vec<u8>| {
            let amplitudes = fitted(&self.given, &self.amplitudes, &bytes);
            Expected { given: Given::new(bytes), amplitudes, ..self.clone() }
        };
        let mut simpler: Vec<Expected> = sheets.into_iter().map(on).collect();
        simpler.extend(simpler_amplitudes(&self.amplitudes).into_iter().map(|amplitudes| Expected { amplitudes, ..self.clone() }));
        let Path { edges, directions } = &self.path;
        for at in 0..edges.len().max(directions.len()) {
            let (mut shorter, mut first, mut forward) = (self.clone(), self.clone(), self.clone());
            if at < edges.len() {
                shorter.path.edges.remove(at);
                first.path.edges[at] = 0;
            }
            if at < directions.len() {
                shorter.path.directions.remove(at);
                forward.path.directions[at] = 1;
            }
            simpler.extend([shorter, first, forward]);
        }
        simpler.extend([0, 1, -1].map(|spare| Expected { spare, ..self.clone() }));
        simpler
    }

    fn size(&self) -> Vec<u128> {
        let Path { edges, directions } = &self.path;
        let path = edges.iter().map(|&edge| u128::from(edge)).sum::<u128>();
        let turns = directions.iter().map(|&direction| u128::from(direction.abs_diff(1))).sum::<u128>();
        let path = vec![(edges.len() + directions.len()) as u128, path, turns];
        [sheet_size(&self.given.bytes), path, amplitudes_size(&self.amplitudes), spares_size([self.spare])].concat()
    }

    fn show(&self) -> String {
        let (sheet, amplitudes, Path { edges, directions }) =
            (hexadecimal(&self.given.bytes), floats::show(&self.amplitudes), &self.path);
        let states = lent::show_spare(self.spare);
        format!("wilson_loop: sheet {sheet}, amplitudes {amplitudes}, edges {edges:?}, directions {directions:?}, states: {states}")
    }
}
