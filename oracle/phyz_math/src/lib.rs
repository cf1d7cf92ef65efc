//! Stands in for the vector and matrix types of `phyz_math`, whose source is not at hand. What the compared functions use is here:
//! zeros, sizes, indexing and iteration. What only the eigensolvers and entropies use is declared, so that their files compile, and
//! stops the program when called.

use std::ops::{AddAssign, Index, IndexMut, Mul, MulAssign, SubAssign};

const NOT_HERE: &str = "the stand-in has no linear algebra";

#[derive(Debug, Clone, PartialEq)]
pub struct DVec {
    entries: Vec<f64>,
}

impl DVec {
    pub fn zeros(len: usize) -> DVec {
        DVec { entries: vec![0.0; len] }
    }

    pub fn len(&self) -> usize {
        self.entries.len()
    }

    pub fn is_empty(&self) -> bool {
        self.entries.is_empty()
    }

    pub fn iter(&self) -> std::slice::Iter<'_, f64> {
        self.entries.iter()
    }

    pub fn norm(&self) -> f64 {
        unimplemented!("{NOT_HERE}")
    }

    pub fn dot(&self, _other: &DVec) -> f64 {
        unimplemented!("{NOT_HERE}")
    }
}

/// A vector of given entries, for the judge: the Rust itself starts from zeros.
impl From<&[f64]> for DVec {
    fn from(entries: &[f64]) -> DVec {
        DVec { entries: entries.to_vec() }
    }
}

impl Index<usize> for DVec {
    type Output = f64;
    fn index(&self, at: usize) -> &f64 {
        &self.entries[at]
    }
}

impl IndexMut<usize> for DVec {
    fn index_mut(&mut self, at: usize) -> &mut f64 {
        &mut self.entries[at]
    }
}

impl MulAssign<f64> for DVec {
    fn mul_assign(&mut self, _factor: f64) {
        unimplemented!("{NOT_HERE}")
    }
}

impl AddAssign<&DVec> for DVec {
    fn add_assign(&mut self, _other: &DVec) {
        unimplemented!("{NOT_HERE}")
    }
}

impl SubAssign<&DVec> for DVec {
    fn sub_assign(&mut self, _other: &DVec) {
        unimplemented!("{NOT_HERE}")
    }
}

impl Mul<f64> for &DVec {
    type Output = DVec;
    fn mul(self, _factor: f64) -> DVec {
        unimplemented!("{NOT_HERE}")
    }
}

#[derive(Debug, Clone, PartialEq)]
pub struct DMat {
    rows: usize,
    columns: usize,
    // row after row
    entries: Vec<f64>,
}

/// What an eigensolver would hand back.
pub struct SymmetricEigen {
    pub eigenvalues: DVec,
    pub eigenvectors: DMat,
}

impl DMat {
    pub fn zeros(rows: usize, columns: usize) -> DMat {
        DMat { rows, columns, entries: vec![0.0; rows * columns] }
    }

    pub fn nrows(&self) -> usize {
        self.rows
    }

    pub fn column(&self, _at: usize) -> DVec {
        unimplemented!("{NOT_HERE}")
    }

    pub fn scale(&self, _factor: f64) -> DMat {
        unimplemented!("{NOT_HERE}")
    }

    pub fn symmetric_eigen(&self) -> SymmetricEigen {
        unimplemented!("{NOT_HERE}")
    }
}

impl Index<(usize, usize)> for DMat {
    type Output = f64;
    fn index(&self, (row, column): (usize, usize)) -> &f64 {
        assert!(row < self.rows && column < self.columns, "({row}, {column}) is outside the matrix");
        &self.entries[row * self.columns + column]
    }
}

impl IndexMut<(usize, usize)> for DMat {
    fn index_mut(&mut self, (row, column): (usize, usize)) -> &mut f64 {
        assert!(row < self.rows && column < self.columns, "({row}, {column}) is outside the matrix");
        &mut self.entries[row * self.columns + column]
    }
}

impl Mul<&DVec> for &DMat {
    type Output = DVec;
    fn mul(self, _vector: &DVec) -> DVec {
        unimplemented!("{NOT_HERE}")
    }
}
