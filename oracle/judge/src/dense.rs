//! `build_hamiltonian` and `build_su2_hamiltonian`: the Rust judges every bit of the matrix, the reference the refusals.

use crate::basis::{Basis, Given, Listed};
use crate::case::{Case, Kind, Tally};
use crate::couplings::{self, Coupling, Mode};
use crate::lent::{self, Lent};
use crate::masks::EvenSets;
use crate::reference::Sheet;
use crate::sheets::{hexadecimal, sheet_size};
use crate::shrink::{simpler_lambdas, simpler_weights};
use crate::weights::Weights;
use crate::{entries, floats};
use zibrotka::calls;

/// Up to so many states every entry is added up by its definition as well.
const FEW: usize = 24;

/// The matrix of more states than these is never lent.
const MOST_STATES: usize = 3_000;

/// Where there is no basis, the result list is as long as for so many states.
const NO_STATES: usize = 5;

/// What is a truncation's own in its dense matrix.
pub trait Matrix: Listed {
    const MODE: Mode;
    const KIND: Kind;
    const NAME: &'static str;

    fn sheet(&self) -> &Sheet;

    /// How many states there are: without edges there is one, with no entries.
    fn count(&self) -> usize;

    /// The Rust's matrix, row by row. It computes the factors itself.
    fn by_rust(&self, g_squared: f64, weights: &Weights) -> Vec<f64>;

    fn by_definition(&self, coupling: Coupling, weights: &Weights) -> Vec<f64>;

    fn call(sheet: &[u8], ask: &Ask<2>, states: &mut [Self::Entry], result: &mut [f64]) -> i64;
}

impl Matrix for Basis {
    const MODE: Mode = Mode::U1;
    const KIND: Kind = Kind::Dense;
    const NAME: &'static str = "build_hamiltonian";

    fn sheet(&self) -> &Sheet {
        &self.sheet
    }

    fn count(&self) -> usize {
        self.space.states().len()
    }

    fn by_rust(&self, g_squared: f64, weights: &Weights) -> Vec<f64> {
        self.space.build_hamiltonian(g_squared, weights.option())
    }

    fn by_definition(&self, coupling: Coupling, weights: &Weights) -> Vec<f64> {
        entries::u1(&self.sheet, self.space.states(), coupling, weights)
    }

    fn call(sheet: &[u8], ask: &Ask<2>, states: &mut [i32], result: &mut [f64]) -> i64 {
        calls::build_hamiltonian(sheet, ask.coupling, ask.weights.given, &ask.weights.list, states, result)
    }
}

impl Matrix for EvenSets {
    const MODE: Mode = Mode::Su2;
    const KIND: Kind = Kind::Su2Dense;
    const NAME: &'static str = "build_su2_hamiltonian";

    fn sheet(&self) -> &Sheet {
        &self.sheet
    }

    fn count(&self) -> usize {
        self.space.states().len()
    }

    fn by_rust(&self, g_squared: f64, weights: &Weights) -> Vec<f64> {
        self.space.build_hamiltonian(g_squared, weights.option())
    }

    fn by_definition(&self, coupling: Coupling, weights: &Weights) -> Vec<f64> {
        entries::su2(&self.sheet.complex, self.space.states(), coupling, weights)
    }

    fn call(sheet: &[u8], ask: &Ask<2>, states: &mut [u64], result: &mut [f64]) -> i64 {
        calls::build_su2_hamiltonian(sheet, ask.coupling, ask.weights.given, &ask.weights.list, states, result)
    }
}

/// What is handed over besides the sheet.
#[derive(Clone)]
pub struct Ask<const LISTS: usize> {
    pub coupling: Coupling,
    pub weights: Weights,
    /// the work list and each result list are this much longer than needed, or shorter
    pub spares: [i64; LISTS],
}

/// One of the two calls on any bytes.
pub struct Dense<B> {
    pub given: Given<B>,
    pub ask: Ask<2>,
}

impl<B> Clone for Dense<B> {
    fn clone(&self) -> Dense<B> {
        Dense { given: self.given.clone(), ask: self.ask.clone() }
    }
}

impl<B: Matrix> Dense<B> {
    /// How long the two lists are.
    fn rooms(&self) -> Result<[usize; 2], String> {
        let count = self.given.basis()?.map_or(NO_STATES, B::count);
        let [states, result] = self.ask.spares;
        Ok([lent::length(self.given.need()?, states), lent::length(count * count, result)])
    }

    /// The first of 12, 14 and 15 that holds.
    pub fn judge(&self, basis: &B, rooms: [usize; 2]) -> Result<(), u8> {
        self.ask.weights.judge(basis.sheet().complex.triangles.len())?;
        B::MODE.judge(self.ask.coupling)?;
        if rooms[0] < basis.flat().len() || rooms[1] < basis.count() * basis.count() { Err(15) } else { Ok(()) }
    }

    /// The Rust's matrix, which is that of the definition.
    pub fn matrix(&self, basis: &B) -> Result<Vec<f64>, String> {
        let Ask { coupling, weights, .. } = &self.ask;
        let matrix = basis.by_rust(coupling[0], weights);
        if basis.count() <= FEW && !floats::same(&matrix, &basis.by_definition(*coupling, weights)) {
            return Err("the judge's own matrix and the Rust's differ".into());
        }
        Ok(matrix)
    }
}

impl<B: Matrix> Case for Dense<B> {
    fn compare(&self, tally: &mut Tally) -> Result<(), String> {
        let (basis, rooms) = (self.given.basis()?, self.rooms()?);
        let expected = basis.and_then(|basis| self.judge(basis, rooms).map(|()| basis));
        tally.count(B::KIND, expected.err().unwrap_or(0));
        let mut states = Lent::<B::Entry>::new("states", rooms[0]);
        let mut result = Lent::<f64>::new("result", rooms[1]);
        let answer = B::call(&self.given.bytes, &self.ask, states.list(), result.list());
        self.given.told(answer, expected.map(B::count), &states)?;
        match expected {
            Ok(basis) => result.holds(&self.matrix(basis)?),
            Err(_) => result.unchanged(),
        }
    }

    fn simpler(&self) -> Vec<Dense<B>> {
        let on = |bytes: Vec<u8>, weights: Weights| Dense { given: Given::new(bytes), ask: Ask { weights, ..self.ask.clone() } };
        let with = |coupling: Coupling, spares: [i64; 2]| {
            let weights = self.ask.weights.clone();
            Dense { given: self.given.clone(), ask: Ask { coupling, weights, spares } }
        };
        let Ask { coupling, weights, spares } = &self.ask;
        let mut simpler = vec![];
        simpler.extend(simpler_lambdas(&self.given.bytes).into_iter().map(|bytes| on(bytes, weights.clone())));
        simpler.extend(simpler_weights(&self.given.bytes, weights).into_iter().map(|(bytes, weights)| on(bytes, weights)));
        simpler.extend(couplings::simpler(B::MODE, *coupling).into_iter().map(|coupling| with(coupling, *spares)));
        for spare in [0, 1, -1] {
            simpler.push(with(*coupling, [spare, spares[1]]));
            // the whole matrix is lent only where a list can hold it
            if self.given.accepted().is_none_or(|basis| basis.count() <= MOST_STATES) {
                simpler.push(with(*coupling, [spares[0], spare]));
            }
        }
        simpler
    }

    fn size(&self) -> Vec<u128> {
        let Ask { coupling, weights, spares } = &self.ask;
        let floats = coupling.map(floats::size).to_vec();
        let spares = spares.map(|spare| u128::from(spare.unsigned_abs())).to_vec();
        [sheet_size(&self.given.bytes), weights.size(), floats, spares].concat()
    }

    fn show(&self) -> String {
        let Ask { coupling, weights, spares } = &self.ask;
        let (sheet, lent) = (hexadecimal(&self.given.bytes), spares.map(lent::show_spare));
        let [coupling, weights] = [floats::show(coupling), weights.show()];
        format!("{}: sheet {sheet}, coupling {coupling}, {weights}, states: {}, result: {}", B::NAME, lent[0], lent[1])
    }
}
