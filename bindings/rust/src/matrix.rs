use crate::calls;
use crate::error::Error;
use crate::room::{Room, zeros};
use crate::told::told_as;

/// A dense matrix over n states.
#[derive(Clone, Debug, PartialEq)]
pub struct Matrix {
    pub(crate) n: usize,
    pub(crate) values: Vec<f64>,
}

impl Matrix {
    /// How many rows and columns it has.
    pub fn n(&self) -> usize {
        self.n
    }

    /// The entries of a row. Panics where there is no such row.
    pub fn row(&self, row: usize) -> &[f64] {
        assert!(row < self.n, "there are {} rows, and none has the number {row}", self.n);
        &self.values[row * self.n..][..self.n]
    }

    /// All rows, the first one first.
    pub fn rows(&self) -> impl ExactSizeIterator<Item = &[f64]> {
        self.values.chunks_exact(self.n)
    }

    /// All entries, row after row.
    pub fn values(&self) -> &[f64] {
        &self.values
    }

    /// The same, to keep.
    pub fn into_values(self) -> Vec<f64> {
        self.values
    }
}

/// A matrix in row lists (CSR). The lists may be of your own making: [`RowLists::matvec`] judges them.
#[derive(Clone, Debug, PartialEq)]
pub struct RowLists {
    /// Where each row begins among all entries, and where the last one ends.
    pub starts: Vec<u32>,
    /// The columns of all rows, one row after the other.
    pub columns: Vec<u32>,
    /// The value in each of these columns.
    pub values: Vec<f64>,
}

impl RowLists {
    /// How many rows there are.
    pub fn n(&self) -> usize {
        self.starts.len().saturating_sub(1)
    }

    /// The columns and the values of a row. Panics where there is no such row, or where the lists are your own and do not fit together.
    pub fn row(&self, row: usize) -> (&[u32], &[f64]) {
        assert!(row < self.n(), "there are {} rows, and none has the number {row}", self.n());
        let entries = self.starts[row] as usize..self.starts[row + 1] as usize;
        (&self.columns[entries.clone()], &self.values[entries])
    }

    /// The product with a vector of amplitudes, one for each row. Refuses 12, 13 and 14.
    pub fn matvec(&self, vector: &[f64]) -> Result<Vec<f64>, Error> {
        Room::none().and::<f64>(1, vector.len()).judged()?;
        let mut product = zeros(vector.len())?;
        let answer = calls::matvec(&self.starts, &self.columns, &self.values, vector, &mut product);
        told_as(answer, 0, &[12, 13, 14])?;
        Ok(product)
    }
}
