//! The calls of U(1).

use crate::calls;
use crate::error::{BreaksLaw, Error, Finding, Unplaced};
use crate::matrix::{Matrix, RowLists};
use crate::mode::Mode;
use crate::refusal::Refusal;
use crate::room::{Room, zeros};
use crate::sheet::{Sheet, Step};
use crate::states::States;
use crate::told::{below, told, told_as};

/// The lent numbers of a finding.
struct Found {
    vertex: u64,
    excess: i64,
    edge: u64,
}

/// What no finding is, so that it shows where nothing was written.
const NOTHING: Found = Found { vertex: u64::MAX, excess: 0, edge: u64::MAX };

const U1: Mode<i32> = Mode {
    width: |sheet| sheet.edges().len(),
    count_states: Sheet::count_states,
    count_entries: Sheet::count_entries,
    params: calls::u1_params,
    dense: calls::build_hamiltonian,
    rows: calls::build_csr,
    product: calls::hamiltonian_matvec,
};

impl Sheet {
    /// Nothing where a configuration, one value for each edge, obeys Gauss's law; else the lowest vertex that breaks it. Refuses 12.
    pub fn check_gauss_law(&self, configuration: &[i32]) -> Result<Option<BreaksLaw>, Refusal> {
        let mut found = NOTHING;
        let answer = calls::check_gauss_law_finding(self.as_ref(), configuration, &mut found.vertex, &mut found.excess);
        let obeys = below(told(answer, &[12])? as u64, 2) == 1;
        Ok(if obeys { None } else { Some(self.breaks_law(found)) })
    }

    /// How many states there are, at least 1. Refuses 10.
    pub fn count_states(&self) -> Result<usize, Refusal> {
        told(calls::count_states(self.as_ref()), &[10])
    }

    /// How many entries the row lists have, whatever the coupling and the weights are. Refuses 10.
    pub fn count_entries(&self) -> Result<usize, Refusal> {
        told(calls::count_entries(self.as_ref()), &[10])
    }

    /// All states. Refuses 10.
    pub fn states(&self) -> Result<States, Error> {
        let n = self.count_states()?;
        let mut values = U1.work_list(self, n, Room::none())?;
        told_as(calls::enumerate_gauge_invariant(self.as_ref(), &mut values), n, &[])?;
        Ok(States { n, edges: self.edges().len(), values })
    }

    /// The place of a configuration among the states. Refuses 10, 12 and 17, which comes with a finding.
    pub fn config_to_index(&self, configuration: &[i32]) -> Result<usize, Unplaced> {
        let n = self.count_states()?;
        let mut states = U1.work_list(self, n, Room::none())?;
        let mut found = NOTHING;
        let answer = calls::config_to_index_finding(
            self.as_ref(),
            configuration,
            &mut states,
            &mut found.vertex,
            &mut found.excess,
            &mut found.edge,
        );
        self.placed(answer, n, &[12, 17], found)
    }

    /// The place of the configuration with `delta` more on one edge, and that configuration. The one that it starts from need not be a
    /// state. Refuses 10, 12, 13, 16 and 17, which comes with a finding.
    pub fn apply_shift(&self, configuration: &[i32], edge: usize, delta: i32) -> Result<(usize, Vec<i32>), Unplaced> {
        let n = self.count_states()?;
        let mut states = U1.work_list(self, n, Room::none())?;
        let (mut shifted, mut found) = (vec![0; self.edges().len()], NOTHING);
        let answer = calls::apply_shift_finding(
            self.as_ref(),
            configuration,
            edge as u64,
            delta,
            &mut states,
            &mut shifted,
            &mut found.vertex,
            &mut found.excess,
            &mut found.edge,
        );
        Ok((self.placed(answer, n, &[12, 13, 16, 17], found)?, shifted))
    }

    /// The place of the state that a triangle makes of the state at a place: 1 more on its edges (a,b) and (b,c), 1 less on (a,c).
    /// Refuses 10, 13 and 16.
    pub fn apply_triangle_shift(&self, triangle: usize, place: usize) -> Result<usize, Error> {
        let n = self.count_states()?;
        let mut states = U1.work_list(self, n, Room::none())?;
        let answer = calls::apply_triangle_shift(self.as_ref(), triangle as u64, place as u64, &mut states);
        Ok(below(told(answer, &[13, 16])? as u64, n))
    }

    /// The Hamiltonian as a dense matrix over the states. Without weights each triangle has the weight 1. Refuses 10, 12 and 14.
    pub fn hamiltonian(&self, g_squared: f64, weights: Option<&[f64]>) -> Result<Matrix, Error> {
        U1.hamiltonian(self, g_squared, weights)
    }

    /// The same as row lists. Refuses 10, 12 and 14.
    pub fn csr(&self, g_squared: f64, weights: Option<&[f64]>) -> Result<RowLists, Error> {
        U1.csr(self, g_squared, weights)
    }

    /// The product of the Hamiltonian with a vector of amplitudes, one for each state, without a matrix. Refuses 10, 12 and 14.
    pub fn matvec(&self, g_squared: f64, vector: &[f64], weights: Option<&[f64]>) -> Result<Vec<f64>, Error> {
        U1.matvec(self, g_squared, vector, weights)
    }

    /// The square of the field on each edge, expected in a state that amplitudes give, one for each state of the basis. Refuses 10, 12
    /// and 14.
    pub fn electric_field_sq(&self, state: &[f64]) -> Result<Vec<f64>, Error> {
        let n = self.count_states()?;
        let mut states = U1.work_list(self, n, Room::none())?;
        let mut squares = vec![0.0; self.edges().len()];
        let answer = calls::electric_field_sq(self.as_ref(), state, &mut states, &mut squares);
        told_as(answer, squares.len(), &[12, 14])?;
        Ok(squares)
    }

    /// The Wilson loop along a path, expected in a state that amplitudes give. Refuses 10, 12, 13 and 14.
    pub fn wilson(&self, path: &[Step], state: &[f64]) -> Result<f64, Error> {
        let n = self.count_states()?;
        let mut states = U1.work_list(self, n, Room::none().and::<Step>(1, path.len()))?;
        let (mut edges, mut directions) = (zeros(path.len())?, zeros(path.len())?);
        for (i, step) in path.iter().enumerate() {
            (edges[i], directions[i]) = (step.edge, step.direction);
        }
        let mut expectation = 0.0;
        let answer = calls::wilson_loop(self.as_ref(), state, &edges, &directions, &mut states, &mut expectation);
        told_as(answer, 0, &[12, 13, 14])?;
        Ok(expectation)
    }

    fn placed(&self, answer: i64, n: usize, may_refuse: &[u8], found: Found) -> Result<usize, Unplaced> {
        match told(answer, may_refuse) {
            Ok(place) => Ok(below(place as u64, n)),
            Err(Refusal::NotInBasis) => Err(Unplaced::NotInBasis(self.finding(found))),
            Err(refusal) => Err(Unplaced::Refused(refusal)),
        }
    }

    fn finding(&self, found: Found) -> Finding {
        match found.excess {
            0 => Finding::OutsideBand { edge: below(found.edge, self.edges().len()), truncation: self.truncation() },
            _ => self.breaks_law(found).into(),
        }
    }

    fn breaks_law(&self, Found { vertex, excess, .. }: Found) -> BreaksLaw {
        assert!(excess != 0, "the library told the excess 0, which its contract rules out");
        BreaksLaw { vertex: below(vertex, self.n_vertices()), excess }
    }
}
