//! The port's answers to a case of the fixed list, held against those that were recorded. It is lent as much room as in the program `replay`.

use super::layout::{Call, Field, Fields, Number};
use crate::lent::{Lent, Pattern};
use crate::pentachora::same_answer;
use zibrotka::calls;

/// A list that a call does not leave.
type No = [u8];

/// What differs, if anything does: the number told, or one of the lists.
pub fn hold(call: Call, case: &Fields) -> Result<(), String> {
    let sheet = case.bytes(Field::Sheet);
    let held = Held { call, case };
    match call {
        Call::FromPentachorons => {
            let ([vertices], list) = (case.array(Field::Numbers)?, case.list::<u64>(Field::Pentachora)?);
            held.by(|edges, triangles, count: &mut [u64], _| {
                calls::from_pentachorons(vertices, &list, edges, triangles, &mut count[0])
            })
        }
        Call::TriEdgeIndices => {
            let [triangle] = case.array(Field::Numbers)?;
            held.by(|numbers, _: &mut No, _: &mut No, _| {
                calls::tri_edge_indices(sheet, triangle, numbers.try_into().expect("three are lent"))
            })
        }
        Call::SpanningTree => held.by(|tree, free, _: &mut No, _| calls::spanning_tree(sheet, tree, free)),
        Call::FundamentalLoops => {
            held.by(|edges, starts, directions, _| calls::fundamental_loops(sheet, starts, edges, directions))
        }
        Call::Su2FundamentalLoops => held.by(|edges, starts, _: &mut No, _| calls::su2_fundamental_loops(sheet, starts, edges)),
        Call::CheckGaussLaw => held.told(calls::check_gauss_law(sheet, &case.list(Field::Configuration)?)),
        Call::CountStates => held.told(calls::count_states(sheet)),
        Call::CountEntries => held.told(calls::count_entries(sheet)),
        Call::Su2CountStates => held.told(calls::su2_count_states(sheet)),
        Call::Su2CountEntries => held.told(calls::su2_count_entries(sheet)),
        Call::EnumerateGaugeInvariant => {
            held.by(|states, _: &mut No, _: &mut No, _| calls::enumerate_gauge_invariant(sheet, states))
        }
        Call::Su2Basis => held.by(|masks, _: &mut No, _: &mut No, _| calls::su2_basis(sheet, masks)),
        Call::ConfigToIndex => {
            let configuration = case.list::<i32>(Field::Configuration)?;
            held.by(|states, _: &mut No, _: &mut No, _| calls::config_to_index(sheet, &configuration, states))
        }
        Call::ApplyShift => {
            let ([edge], [delta]) = (case.array(Field::Numbers)?, case.array(Field::Delta)?);
            let configuration = case.list::<i32>(Field::Configuration)?;
            held.by(|states, shifted, _: &mut No, _| calls::apply_shift(sheet, &configuration, edge, delta, states, shifted))
        }
        Call::ApplyTriangleShift => {
            let [triangle, state] = case.array(Field::Numbers)?;
            held.by(|states, _: &mut No, _: &mut No, _| calls::apply_triangle_shift(sheet, triangle, state, states))
        }
        _ => floats(held, sheet),
    }
}

/// The calls that leave floats.
fn floats(held: Held, sheet: &[u8]) -> Result<(), String> {
    let Held { call, case } = held;
    let (list, vector) = (case.list::<f64>(Field::Weights)?, case.list::<f64>(Field::Vector)?);
    let path = case.bytes(Field::Path);
    // of the calls that take them
    let coupling = || case.array::<f64, 3>(Field::Coupling);
    let given = || case.array(Field::Numbers).map(|[given]: [u64; 1]| given == 1);
    match call {
        Call::BuildHamiltonian => {
            let (coupling, given) = (coupling()?, given()?);
            held.by(|states, _: &mut No, _: &mut No, matrix| {
                calls::build_hamiltonian(sheet, coupling, given, &list, states, matrix)
            })
        }
        Call::BuildSu2Hamiltonian => {
            let (coupling, given) = (coupling()?, given()?);
            held.by(|masks, _: &mut No, _: &mut No, matrix| {
                calls::build_su2_hamiltonian(sheet, coupling, given, &list, masks, matrix)
            })
        }
        Call::BuildCsr => {
            let (coupling, given) = (coupling()?, given()?);
            held.by(|states, starts, columns, values| {
                calls::build_csr(sheet, coupling, given, &list, states, starts, columns, values)
            })
        }
        Call::BuildCsrSu2 => {
            let (coupling, given) = (coupling()?, given()?);
            held.by(|masks, starts, columns, values| {
                calls::build_csr_su2(sheet, coupling, given, &list, masks, starts, columns, values)
            })
        }
        Call::HamiltonianMatvec => {
            let (coupling, given) = (coupling()?, given()?);
            held.by(|states, _: &mut No, _: &mut No, product| {
                calls::hamiltonian_matvec(sheet, coupling, given, &list, &vector, states, product)
            })
        }
        Call::Su2HamiltonianMatvec => {
            let (coupling, given) = (coupling()?, given()?);
            held.by(|masks, _: &mut No, _: &mut No, product| {
                calls::su2_hamiltonian_matvec(sheet, coupling, given, &list, &vector, masks, product)
            })
        }
        Call::ElectricFieldSq => {
            held.by(|states, _: &mut No, _: &mut No, squares| calls::electric_field_sq(sheet, &vector, states, squares))
        }
        Call::WilsonLoop => {
            let directions = case.list::<i8>(Field::Directions)?;
            held.by(|states, _: &mut No, _: &mut No, floats| {
                calls::wilson_loop(sheet, &vector, path, &directions, states, &mut floats[0])
            })
        }
        Call::Su2WilsonLoop => {
            held.by(|masks, _: &mut No, _: &mut No, floats| calls::su2_wilson_loop(sheet, &vector, path, masks, &mut floats[0]))
        }
        Call::Su2WilsonPasses => {
            held.by(|masks, _: &mut No, _: &mut No, floats| calls::su2_wilson_passes(sheet, &vector, path, masks, &mut floats[0]))
        }
        Call::Matvec => {
            let (starts, columns) = (case.list::<u32>(Field::First)?, case.list::<u32>(Field::Second)?);
            held.by(|_: &mut No, _: &mut No, _: &mut No, product| calls::matvec(&starts, &columns, &list, &vector, product))
        }
        _ => Err(format!("{call:?} leaves no floats")),
    }
}

struct Held<'a> {
    call: Call,
    case: &'a Fields,
}

impl Held<'_> {
    fn told(&self, answer: i64) -> Result<(), String> {
        let [told] = self.case.array(Field::Told)?;
        same_answer(answer, told)
    }

    /// Lends four lists to a call, of which it may leave some as they are.
    fn by<A: Number + Pattern, B: Number + Pattern, C: Number + Pattern>(
        &self,
        call: impl FnOnce(&mut [A], &mut [B], &mut [C], &mut [f64]) -> i64,
    ) -> Result<(), String> {
        let (mut first, mut second) = (self.lent("first", Field::First), self.lent("second", Field::Second));
        let (mut third, mut floats) = (self.lent("third", Field::Third), self.lent("floats", Field::Floats));
        self.told(call(first.list(), second.list(), third.list(), floats.list()))?;
        self.left(Field::First, &first)?;
        self.left(Field::Second, &second)?;
        self.left(Field::Third, &third)?;
        self.left(Field::Floats, &floats)
    }

    fn lent<T: Number + Pattern>(&self, name: &'static str, field: Field) -> Lent<T> {
        Lent::new(name, field.most(self.call) / T::BYTES)
    }

    /// The list begins with what was recorded, and everything behind is as it was.
    fn left<T: Number + Pattern>(&self, field: Field, list: &Lent<T>) -> Result<(), String> {
        if self.call.answers(field) { list.holds(&self.case.list(field)?) } else { list.unchanged() }
    }
}
