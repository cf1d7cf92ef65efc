//! What the two modes have in common: matrices and products.

use crate::error::Error;
use crate::matrix::{Matrix, RowLists};
use crate::refusal::Refusal;
use crate::room::{Room, zeros};
use crate::sheet::Sheet;
use crate::told::told_as;

/// A mode by its calls. They write the basis to a work list with entries of the type `T`.
#[allow(clippy::type_complexity)]
pub struct Mode<T> {
    /// How many entries of the work list a state takes.
    pub width: fn(&Sheet) -> usize,
    pub count_states: fn(&Sheet) -> Result<usize, Refusal>,
    pub count_entries: fn(&Sheet) -> Result<usize, Refusal>,
    pub params: fn(f64, &mut [f64; 3]) -> i64,
    pub dense: fn(&[u8], [f64; 3], bool, &[f64], &mut [T], &mut [f64]) -> i64,
    pub rows: fn(&[u8], [f64; 3], bool, &[f64], &mut [T], &mut [u32], &mut [u32], &mut [f64]) -> i64,
    pub product: fn(&[u8], [f64; 3], bool, &[f64], &[f64], &mut [T], &mut [f64]) -> i64,
}

impl<T: Clone + Default> Mode<T> {
    /// A list for so many states, where there is memory for it beside other lists.
    pub fn work_list(&self, sheet: &Sheet, n: usize, others: Room) -> Result<Vec<T>, Error> {
        let width = (self.width)(sheet);
        others.and::<T>(n, width).judged()?;
        zeros(n * width)
    }

    pub fn hamiltonian(&self, sheet: &Sheet, g_squared: f64, weights: Option<&[f64]>) -> Result<Matrix, Error> {
        let n = (self.count_states)(sheet)?;
        let mut work = self.work_list(sheet, n, Room::none().and::<f64>(n, n))?;
        let mut values = zeros(n * n)?;
        let (coupling, given, weights) = self.terms(g_squared, weights);
        let answer = (self.dense)(sheet.as_ref(), coupling, given, weights, &mut work, &mut values);
        told_as(answer, n, &[12, 14])?;
        Ok(Matrix { n, values })
    }

    pub fn csr(&self, sheet: &Sheet, g_squared: f64, weights: Option<&[f64]>) -> Result<RowLists, Error> {
        let (n, entries) = ((self.count_states)(sheet)?, (self.count_entries)(sheet)?);
        let room = Room::none().and::<u32>(1, n + 1).and::<u32>(1, entries).and::<f64>(1, entries);
        let mut work = self.work_list(sheet, n, room)?;
        let (mut starts, mut columns, mut values) = (zeros(n + 1)?, zeros(entries)?, zeros(entries)?);
        let (coupling, given, weights) = self.terms(g_squared, weights);
        let sheet = sheet.as_ref();
        let answer = (self.rows)(sheet, coupling, given, weights, &mut work, &mut starts, &mut columns, &mut values);
        told_as(answer, entries, &[12, 14])?;
        Ok(RowLists { starts, columns, values })
    }

    pub fn matvec(&self, sheet: &Sheet, g_squared: f64, vector: &[f64], weights: Option<&[f64]>) -> Result<Vec<f64>, Error> {
        let n = (self.count_states)(sheet)?;
        let mut work = self.work_list(sheet, n, Room::none().and::<f64>(1, n))?;
        let mut product = zeros(n)?;
        let (coupling, given, weights) = self.terms(g_squared, weights);
        let answer = (self.product)(sheet.as_ref(), coupling, given, weights, vector, &mut work, &mut product);
        told_as(answer, n, &[12, 14])?;
        Ok(product)
    }

    /// The coupling's record, and the weights as a call takes them. Where g² is out of its range both factors stay 0, and the call that gets
    /// the record refuses it by 14, in its own order of refusals.
    fn terms<'a>(&self, g_squared: f64, weights: Option<&'a [f64]>) -> ([f64; 3], bool, &'a [f64]) {
        let mut coupling = [g_squared, 0.0, 0.0];
        (self.params)(g_squared, &mut coupling);
        (coupling, weights.is_some(), weights.unwrap_or(&[]))
    }
}
