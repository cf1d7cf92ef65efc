//! `build_csr` and `build_csr_su2`, and what is counted without a list: the Rust judges every bit of the row lists, the reference the refusals.

use crate::basis::{Basis, Given};
use crate::case::{Case, Kind, Tally};
use crate::couplings::{self, Coupling};
use crate::dense::{Ask, Matrix};
use crate::lent::{self, Lent};
use crate::masks::EvenSets;
use crate::pentachora::same_answer;
use crate::rust::RowLists;
use crate::sheets::{hexadecimal, sheet_size, simpler_sheets};
use crate::shrink::{simpler_lambdas, simpler_weights};
use crate::weights::Weights;
use crate::{entries, floats};
use zibrotka::calls;

/// Up to so many states every entry is added up by its definition as well.
const FEW: usize = 24;

/// Where there is no basis, the result lists are as long as for so many entries.
const NO_ENTRIES: usize = 30;

/// What is a truncation's own in its row lists.
pub trait Rowed: Matrix {
    const STATES: Kind;
    const ENTRIES: Kind;

    fn rows_by_rust(&self, g_squared: f64, weights: &Weights) -> RowLists;

    fn rows_by_definition(&self, coupling: Coupling, weights: &Weights) -> RowLists;

    fn count_states(sheet: &[u8]) -> i64;

    fn count_entries(sheet: &[u8]) -> i64;
}

impl Rowed for Basis {
    const STATES: Kind = Kind::StatesCounted;
    const ENTRIES: Kind = Kind::EntriesCounted;

    fn rows_by_rust(&self, g_squared: f64, weights: &Weights) -> RowLists {
        self.space.build_csr(g_squared, weights.option())
    }

    fn rows_by_definition(&self, coupling: Coupling, weights: &Weights) -> RowLists {
        entries::u1_rows(&self.sheet, self.space.states(), coupling, weights)
    }

    fn count_states(sheet: &[u8]) -> i64 {
        calls::count_states(sheet)
    }

    fn count_entries(sheet: &[u8]) -> i64 {
        calls::count_entries(sheet)
    }
}

impl Rowed for EvenSets {
    const STATES: Kind = Kind::MasksCounted;
    const ENTRIES: Kind = Kind::Su2EntriesCounted;

    fn rows_by_rust(&self, g_squared: f64, weights: &Weights) -> RowLists {
        self.space.build_csr(g_squared, weights.option())
    }

    fn rows_by_definition(&self, coupling: Coupling, weights: &Weights) -> RowLists {
        entries::su2_rows(&self.sheet.complex, self.space.states(), coupling, weights)
    }

    fn count_states(sheet: &[u8]) -> i64 {
        calls::su2_count_states(sheet)
    }

    fn count_entries(sheet: &[u8]) -> i64 {
        calls::su2_count_entries(sheet)
    }
}

/// The Rust's row lists, which are those of the definition where the states are few.
pub fn by_both<B: Rowed>(basis: &B, coupling: Coupling, weights: &Weights) -> Result<RowLists, String> {
    let lists = basis.rows_by_rust(coupling[0], weights);
    if basis.count() <= FEW {
        let own = basis.rows_by_definition(coupling, weights);
        if own.starts != lists.starts || own.columns != lists.columns || !floats::same(&own.values, &lists.values) {
            return Err("the judge's own row lists and the Rust's differ".into());
        }
    }
    Ok(lists)
}

// ---- what is counted

/// The states and the entries of any bytes, with the g² and the weights that the Rust is handed: they play no part.
pub struct Counted<B> {
    pub given: Given<B>,
    pub g_squared: f64,
    pub weights: Weights,
}

impl<B> Clone for Counted<B> {
    fn clone(&self) -> Counted<B> {
        Counted { given: self.given.clone(), g_squared: self.g_squared, weights: self.weights.clone() }
    }
}

impl<B: Rowed> Counted<B> {
    /// How many entries the Rust's row lists have.
    pub fn entries(&self, basis: &B) -> Result<usize, String> {
        Ok(by_both(basis, B::MODE.params(self.g_squared), &self.weights)?.values.len())
    }
}

impl<B: Rowed> Case for Counted<B> {
    fn compare(&self, tally: &mut Tally) -> Result<(), String> {
        let basis = self.given.basis()?;
        let refusal = basis.err().unwrap_or(0);
        tally.count(B::STATES, refusal);
        tally.count(B::ENTRIES, refusal);
        let expected = match basis {
            Ok(basis) => [basis.count(), self.entries(basis)?].map(|count| count as i64),
            Err(number) => [-i64::from(number); 2],
        };
        same_answer(B::count_states(&self.given.bytes), expected[0]).map_err(|what| format!("states: {what}"))?;
        same_answer(B::count_entries(&self.given.bytes), expected[1]).map_err(|what| format!("entries: {what}"))
    }

    fn simpler(&self) -> Vec<Counted<B>> {
        let on = |bytes: Vec<u8>| Counted { given: Given::new(bytes), g_squared: 1.0, weights: Weights::absent() };
        simpler_lambdas(&self.given.bytes).into_iter().chain(simpler_sheets(&self.given.bytes)).map(on).collect()
    }

    fn size(&self) -> Vec<u128> {
        sheet_size(&self.given.bytes)
    }

    fn show(&self) -> String {
        let sheet = hexadecimal(&self.given.bytes);
        format!("states and entries of {:?}: sheet {sheet}, g² {}", B::MODE, floats::show(&[self.g_squared]))
    }
}

// ---- the lists themselves

/// The call that writes the row lists.
pub trait Csr: Rowed {
    const CSR: Kind;
    const CSR_NAME: &'static str;

    fn build_csr(
        sheet: &[u8],
        ask: &Ask<4>,
        states: &mut [Self::Entry],
        starts: &mut [u32],
        columns: &mut [u32],
        values: &mut [f64],
    ) -> i64;
}

impl Csr for Basis {
    const CSR: Kind = Kind::Rows;
    const CSR_NAME: &'static str = "build_csr";

    fn build_csr(
        sheet: &[u8],
        ask: &Ask<4>,
        states: &mut [i32],
        starts: &mut [u32],
        columns: &mut [u32],
        values: &mut [f64],
    ) -> i64 {
        calls::build_csr(sheet, ask.coupling, ask.weights.given, &ask.weights.list, states, starts, columns, values)
    }
}

impl Csr for EvenSets {
    const CSR: Kind = Kind::Su2Rows;
    const CSR_NAME: &'static str = "build_csr_su2";

    fn build_csr(
        sheet: &[u8],
        ask: &Ask<4>,
        states: &mut [u64],
        starts: &mut [u32],
        columns: &mut [u32],
        values: &mut [f64],
    ) -> i64 {
        calls::build_csr_su2(sheet, ask.coupling, ask.weights.given, &ask.weights.list, states, starts, columns, values)
    }
}

/// It on any bytes.
pub struct Rows<B> {
    pub given: Given<B>,
    pub ask: Ask<4>,
}

impl<B> Clone for Rows<B> {
    fn clone(&self) -> Rows<B> {
        Rows { given: self.given.clone(), ask: self.ask.clone() }
    }
}

impl<B: Csr> Rows<B> {
    /// The row lists, with any coupling and weights in their range where those that are handed over are not: the lengths are the same.
    pub fn lists(&self, basis: &B) -> Result<RowLists, String> {
        let Ask { coupling, weights, .. } = &self.ask;
        let right = B::MODE.judge(*coupling).is_ok() && weights.judge(basis.sheet().complex.triangles.len()).is_ok();
        if right { by_both(basis, *coupling, weights) } else { by_both(basis, B::MODE.params(1.0), &Weights::absent()) }
    }

    /// The first of 12, 14 and 15 that holds, with lists that are so long and must be so long.
    pub fn judge(&self, basis: &B, rooms: [usize; 4], needs: [usize; 4]) -> Result<(), u8> {
        self.ask.weights.judge(basis.sheet().complex.triangles.len())?;
        B::MODE.judge(self.ask.coupling)?;
        if rooms.iter().zip(needs).any(|(&room, need)| room < need) { Err(15) } else { Ok(()) }
    }
}

impl<B: Csr> Case for Rows<B> {
    fn compare(&self, tally: &mut Tally) -> Result<(), String> {
        let basis = self.given.basis()?;
        let lists = basis.ok().map(|basis| self.lists(basis)).transpose()?;
        let entries = lists.as_ref().map_or(NO_ENTRIES, |lists| lists.values.len());
        let rows = lists.as_ref().map_or(NO_ENTRIES, |lists| lists.starts.len());
        let needs = [self.given.need()?, rows, entries, entries];
        let rooms: [usize; 4] = std::array::from_fn(|at| lent::length(needs[at], self.ask.spares[at]));
        let expected = basis.and_then(|basis| self.judge(basis, rooms, needs));
        tally.count(B::CSR, expected.err().unwrap_or(0));
        let mut states = Lent::<B::Entry>::new("states", rooms[0]);
        let mut starts = Lent::<u32>::new("starts", rooms[1]);
        let mut columns = Lent::<u32>::new("columns", rooms[2]);
        let mut values = Lent::<f64>::new("values", rooms[3]);
        let answer = B::build_csr(&self.given.bytes, &self.ask, states.list(), starts.list(), columns.list(), values.list());
        self.given.told(answer, expected.map(|()| entries), &states)?;
        match (expected, lists) {
            (Ok(()), Some(lists)) => {
                starts.holds(&lists.starts)?;
                columns.holds(&lists.columns)?;
                values.holds(&lists.values)
            }
            _ => {
                starts.unchanged()?;
                columns.unchanged()?;
                values.unchanged()
            }
        }
    }

    fn simpler(&self) -> Vec<Rows<B>> {
        let on = |bytes: Vec<u8>, weights: Weights| Rows { given: Given::new(bytes), ask: Ask { weights, ..self.ask.clone() } };
        let with = |coupling: Coupling, spares: [i64; 4]| {
            let weights = self.ask.weights.clone();
            Rows { given: self.given.clone(), ask: Ask { coupling, weights, spares } }
        };
        let Ask { coupling, weights, spares } = &self.ask;
        let mut simpler = vec![];
        simpler.extend(simpler_lambdas(&self.given.bytes).into_iter().map(|bytes| on(bytes, weights.clone())));
        simpler.extend(simpler_weights(&self.given.bytes, weights).into_iter().map(|(bytes, weights)| on(bytes, weights)));
        simpler.extend(couplings::simpler(B::MODE, *coupling).into_iter().map(|coupling| with(coupling, *spares)));
        for at in 0..4 {
            for spare in [0, 1, -1] {
                let mut other = *spares;
                other[at] = spare;
                simpler.push(with(*coupling, other));
            }
        }
        simpler
    }

    fn size(&self) -> Vec<u128> {
        let Ask { coupling, weights, spares } = &self.ask;
        let floats = coupling.map(floats::size).to_vec();
        let spares = spares.map(|spare| u128::from(spare.unsigned_abs())).to_vec();
        [sheet_size(&self.given.bytes), weights.size(), floats, spares].concat()
    }

    fn show(&self) -> String {
        let Ask { coupling, weights, spares } = &self.ask;
        let (sheet, lent) = (hexadecimal(&self.given.bytes), spares.map(lent::show_spare).join(", "));
        let [coupling, weights] = [floats::show(coupling), weights.show()];
        format!("{}: sheet {sheet}, coupling {coupling}, {weights}, states, starts, columns, values: {lent}", B::CSR_NAME)
    }
}
