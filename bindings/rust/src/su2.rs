//! The calls of Z2, the two-valued truncation of SU(2).

use crate::calls;
use crate::error::Error;
use crate::matrix::{Matrix, RowLists};
use crate::mode::Mode;
use crate::refusal::Refusal;
use crate::room::Room;
use crate::sheet::Sheet;
use crate::told::{told, told_as};

/// One of the two calls of Wilson loops.
type Loop = fn(&[u8], &[f64], &[u8], &mut [u64], &mut f64) -> i64;

const SU2: Mode<u64> = Mode {
    width: |_| 1,
    count_states: Sheet::su2_count_states,
    count_entries: Sheet::su2_count_entries,
    params: calls::su2_params,
    dense: calls::build_su2_hamiltonian,
    rows: calls::build_csr_su2,
    product: calls::su2_hamiltonian_matvec,
};

impl Sheet {
    /// How many masks there are, 2 to the number of free edges. Refuses 10.
    pub fn su2_count_states(&self) -> Result<usize, Refusal> {
        told(calls::su2_count_states(self.as_ref()), &[10])
    }

    /// How many entries the row lists over the masks have, whatever the coupling and the weights are. Refuses 10.
    pub fn su2_count_entries(&self) -> Result<usize, Refusal> {
        told(calls::su2_count_entries(self.as_ref()), &[10])
    }

    /// The states of Z2: every set of edges with an even number of edges at each vertex, as a mask whose bit e stands for edge e. Masks
    /// rise. Refuses 10.
    pub fn su2_states(&self) -> Result<Vec<u64>, Error> {
        let n = self.su2_count_states()?;
        let mut masks = SU2.work_list(self, n, Room::none())?;
        told_as(calls::su2_basis(self.as_ref(), &mut masks), n, &[])?;
        Ok(masks)
    }

    /// The Hamiltonian of Z2 as a dense matrix over the masks. Without weights each triangle has the weight 1. Refuses 10, 12 and 14.
    pub fn su2_hamiltonian(&self, g_squared: f64, weights: Option<&[f64]>) -> Result<Matrix, Error> {
        SU2.hamiltonian(self, g_squared, weights)
    }

    /// The same as row lists. Refuses 10, 12 and 14.
    pub fn su2_csr(&self, g_squared: f64, weights: Option<&[f64]>) -> Result<RowLists, Error> {
        SU2.csr(self, g_squared, weights)
    }

    /// The product of the Hamiltonian of Z2 with a vector of amplitudes, one for each mask, without a matrix. Refuses 10, 12 and 14.
    pub fn su2_matvec(&self, g_squared: f64, vector: &[f64], weights: Option<&[f64]>) -> Result<Vec<f64>, Error> {
        SU2.matvec(self, g_squared, vector, weights)
    }

    /// The Wilson loop of Z2 along a path of edge numbers, expected in a state that amplitudes give, one for each mask. An edge that the
    /// path names several times counts once. Refuses 10, 12, 13 and 14.
    pub fn su2_wilson(&self, path: &[u8], state: &[f64]) -> Result<f64, Error> {
        self.su2_expectation(calls::su2_wilson_loop, path, state)
    }

    /// The same, but each edge counts by its number of passes modulo two, so that an edge and back counts as nothing. Refuses 10, 12, 13
    /// and 14.
    pub fn su2_wilson_passes(&self, path: &[u8], state: &[f64]) -> Result<f64, Error> {
        self.su2_expectation(calls::su2_wilson_passes, path, state)
    }

    fn su2_expectation(&self, call: Loop, path: &[u8], state: &[f64]) -> Result<f64, Error> {
        let n = self.su2_count_states()?;
        let mut masks = SU2.work_list(self, n, Room::none())?;
        let mut expectation = 0.0;
        told_as(call(self.as_ref(), state, path, &mut masks, &mut expectation), 0, &[12, 13, 14])?;
        Ok(expectation)
    }
}
