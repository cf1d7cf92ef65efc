//! `su2_hamiltonian_matvec`, `su2_wilson_loop` and `su2_wilson_passes`: the Rust judges every bit of the product and of the expectation by the
//! set of a path's edges, the reference the expectation by passes and the refusals.

use crate::basis::Given;
use crate::case::{Case, Kind, Tally};
use crate::couplings::{self, Coupling};
use crate::dense::{Ask, Matrix};
use crate::entries::{self, Reading};
use crate::floats;
use crate::lent::{self, Lent};
use crate::masks::EvenSets;
use crate::sheets::{hexadecimal, sheet_size, simpler_sheets};
use crate::shrink::simpler_weights;
use crate::weights::{MOST, Weights};
use zibrotka::calls;

/// Up to so many states every sum is added up by its definition as well.
const FEW: usize = 24;

fn bounded(vector: &[f64]) -> bool {
    vector.iter().all(|amplitude| (-MOST..=MOST).contains(amplitude))
}

/// The same with one amplitude simpler, all of them 1.0, or the last one gone.
fn simpler_vectors(vector: &[f64]) -> Vec<Vec<f64>> {
    let mut simpler = vec![vec![1.0; vector.len()]];
    simpler.extend(vector.split_last().map(|(_, shorter)| shorter.to_vec()));
    for (at, &amplitude) in vector.iter().enumerate() {
        simpler.extend(floats::simpler(amplitude).into_iter().map(|other| {
            let mut list = vector.to_vec();
            list[at] = other;
            list
        }));
    }
    simpler
}

fn vector_size(vector: &[f64]) -> Vec<u128> {
    vec![vector.len() as u128, vector.iter().map(|&amplitude| floats::size(amplitude)).fold(0, u128::saturating_add)]
}

// ---- the product

/// `su2_hamiltonian_matvec` on any bytes.
#[derive(Clone)]
pub struct EvenProduct {
    pub given: Given<EvenSets>,
    pub ask: Ask<2>,
    pub vector: Vec<f64>,
}

impl EvenProduct {
    /// The first of 12, 14 and 15 that holds.
    pub fn judge(&self, basis: &EvenSets, rooms: [usize; 2]) -> Result<(), u8> {
        let weighed = self.ask.weights.judge(basis.sheet.complex.triangles.len());
        if weighed == Err(12) || self.vector.len() != basis.count() {
            return Err(12);
        }
        weighed?;
        EvenSets::MODE.judge(self.ask.coupling)?;
        if !bounded(&self.vector) {
            return Err(14);
        }
        if rooms.iter().any(|&room| room < basis.count()) { Err(15) } else { Ok(()) }
    }

    /// The Rust's product, which is that of the definition.
    pub fn product(&self, basis: &EvenSets) -> Result<Vec<f64>, String> {
        let Ask { coupling, weights, .. } = &self.ask;
        let product = basis.space.hamiltonian_matvec(&self.vector, coupling[0], weights.option());
        let own = || entries::su2_product(&basis.sheet.complex, basis.space.states(), *coupling, weights, &self.vector);
        if basis.count() <= FEW && !floats::same(&product, &own()) {
            return Err("the judge's own product and the Rust's differ".into());
        }
        Ok(product)
    }
}

impl Case for EvenProduct {
    fn compare(&self, tally: &mut Tally) -> Result<(), String> {
        let basis = self.given.basis()?;
        let rooms = [lent::length(self.given.need()?, self.ask.spares[0]), lent::length(self.given.need()?, self.ask.spares[1])];
        let expected = basis.and_then(|basis| self.judge(basis, rooms).map(|()| basis));
        tally.count(Kind::Su2Products, expected.err().unwrap_or(0));
        let mut states = Lent::<u64>::new("states", rooms[0]);
        let mut result = Lent::<f64>::new("result", rooms[1]);
        let Ask { coupling, weights, .. } = &self.ask;
        let answer = calls::su2_hamiltonian_matvec(
            &self.given.bytes,
            *coupling,
            weights.given,
            &weights.list,
            &self.vector,
            states.list(),
            result.list(),
        );
        self.given.told(answer, expected.map(EvenSets::count), &states)?;
        match expected {
            Ok(basis) => result.holds(&self.product(basis)?),
            Err(_) => result.unchanged(),
        }
    }

    fn simpler(&self) -> Vec<EvenProduct> {
        let on = |bytes: Vec<u8>, weights: Weights| EvenProduct {
            given: Given::new(bytes),
            ask: Ask { weights, ..self.ask.clone() },
            vector: self.vector.clone(),
        };
        let with = |coupling: Coupling, spares: [i64; 2]| EvenProduct {
            ask: Ask { coupling, spares, weights: self.ask.weights.clone() },
            ..self.clone()
        };
        let Ask { coupling, weights, spares } = &self.ask;
        let mut simpler = vec![];
        simpler.extend(simpler_weights(&self.given.bytes, weights).into_iter().map(|(bytes, weights)| on(bytes, weights)));
        simpler.extend(couplings::simpler(EvenSets::MODE, *coupling).into_iter().map(|coupling| with(coupling, *spares)));
        for spare in [0, 1, -1] {
            simpler.push(with(*coupling, [spare, spares[1]]));
            simpler.push(with(*coupling, [spares[0], spare]));
        }
        simpler.extend(simpler_vectors(&self.vector).into_iter().map(|vector| EvenProduct { vector, ..self.clone() }));
        simpler
    }

    fn size(&self) -> Vec<u128> {
        let Ask { coupling, weights, spares } = &self.ask;
        let floats = coupling.map(floats::size).to_vec();
        let spares = spares.map(|spare| u128::from(spare.unsigned_abs())).to_vec();
        [sheet_size(&self.given.bytes), weights.size(), vector_size(&self.vector), floats, spares].concat()
    }

    fn show(&self) -> String {
        let Ask { coupling, weights, spares } = &self.ask;
        let (sheet, lent) = (hexadecimal(&self.given.bytes), spares.map(lent::show_spare).join(", "));
        let [coupling, weights, vector] = [floats::show(coupling), weights.show(), floats::show(&self.vector)];
        format!("su2_hamiltonian_matvec: sheet {sheet}, coupling {coupling}, {weights}, vector {vector}, states, result: {lent}")
    }
}

// ---- the loops

/// The edges that a path passes an odd number of times, rising.
fn passed_oddly(path: &[u8]) -> Vec<u8> {
    (0..=u8::MAX).filter(|edge| path.iter().filter(|&other| other == edge).count() % 2 == 1).collect()
}

/// `su2_wilson_loop` or `su2_wilson_passes` on any bytes.
#[derive(Clone)]
pub struct EvenLoop {
    pub reading: Reading,
    pub given: Given<EvenSets>,
    pub vector: Vec<f64>,
    pub path: Vec<u8>,
    /// the work list is this much longer than needed, or shorter
    pub spare: i64,
}

impl EvenLoop {
    /// The first of 12, 13, 14 and 15 that holds.
    pub fn judge(&self, basis: &EvenSets, room: usize) -> Result<(), u8> {
        if self.vector.len() != basis.count() {
            return Err(12);
        }
        if self.path.iter().any(|&edge| usize::from(edge) >= basis.sheet.complex.edges.len()) {
            return Err(13);
        }
        if !bounded(&self.vector) {
            return Err(14);
        }
        if room < basis.count() { Err(15) } else { Ok(()) }
    }

    /// The Rust's expectation, which is that of the definition. By passes the Rust has none: there the definition decides, and the Rust must
    /// give the same along the edges that are passed an odd number of times, each named once.
    pub fn expectation(&self, basis: &EvenSets) -> Result<f64, String> {
        let by_passes = self.reading == Reading::Passes;
        let path = if by_passes { passed_oddly(&self.path) } else { self.path.clone() };
        let by_rust = basis.space.wilson_loop(&self.vector, &path);
        if by_passes || basis.count() <= FEW {
            let own = entries::su2_expectation(basis.space.states(), &self.vector, &self.path, self.reading);
            if !floats::same(&[by_rust], &[own]) {
                return Err("the judge's own expectation and the Rust's differ".into());
            }
        }
        Ok(by_rust)
    }

    fn kind(&self) -> Kind {
        match self.reading {
            Reading::EdgeSet => Kind::Su2Expectations,
            Reading::Passes => Kind::Su2Passes,
        }
    }

    fn name(&self) -> &'static str {
        match self.reading {
            Reading::EdgeSet => "su2_wilson_loop",
            Reading::Passes => "su2_wilson_passes",
        }
    }
}

impl Case for EvenLoop {
    fn compare(&self, tally: &mut Tally) -> Result<(), String> {
        let basis = self.given.basis()?;
        let room = lent::length(self.given.need()?, self.spare);
        let expected = basis.and_then(|basis| self.judge(basis, room).map(|()| basis));
        tally.count(self.kind(), expected.err().unwrap_or(0));
        let mut states = Lent::<u64>::new("states", room);
        let mut expectation = Lent::<f64>::new("expectation", 1);
        let call = match self.reading {
            Reading::EdgeSet => calls::su2_wilson_loop,
            Reading::Passes => calls::su2_wilson_passes,
        };
        let answer = call(&self.given.bytes, &self.vector, &self.path, states.list(), expectation.number());
        self.given.told(answer, expected.map(|_| 0), &states)?;
        match expected {
            Ok(basis) => expectation.holds(&[self.expectation(basis)?]),
            Err(_) => expectation.unchanged(),
        }
    }

    fn simpler(&self) -> Vec<EvenLoop> {
        let on = |bytes: Vec<u8>| EvenLoop { given: Given::new(bytes), ..self.clone() };
        let along = |path: Vec<u8>| EvenLoop { path, ..self.clone() };
        let mut simpler: Vec<EvenLoop> = simpler_sheets(&self.given.bytes).into_iter().map(on).collect();
        for (at, &edge) in self.path.iter().enumerate() {
            simpler.push(along([&self.path[..at], &self.path[at + 1..]].concat()));
            simpler.extend([0, edge / 2, edge.saturating_sub(1)].map(|less| {
                let mut path = self.path.clone();
                path[at] = less;
                along(path)
            }));
        }
        simpler.extend([0, 1, -1].map(|spare| EvenLoop { spare, ..self.clone() }));
        simpler.extend(simpler_vectors(&self.vector).into_iter().map(|vector| EvenLoop { vector, ..self.clone() }));
        simpler
    }

    fn size(&self) -> Vec<u128> {
        let path = vec![self.path.len() as u128, self.path.iter().map(|&edge| u128::from(edge)).sum()];
        let spare = vec![u128::from(self.spare.unsigned_abs())];
        [sheet_size(&self.given.bytes), path, vector_size(&self.vector), spare].concat()
    }

    fn show(&self) -> String {
        let (sheet, vector) = (hexadecimal(&self.given.bytes), floats::show(&self.vector));
        format!("{}: sheet {sheet}, vector {vector}, path {:?}, {}", self.name(), self.path, lent::show_spare(self.spare))
    }
}
