//! `matvec` on any row lists: the Rust judges every bit of the product where the lists are right, the scope paper whether they are.

use crate::case::{Case, Kind, Tally};
use crate::lent::{self, Lent};
use crate::pentachora::same_answer;
use crate::rust::{self, RowLists};
use crate::{floats, weights};
use zibrotka::calls;

/// 2^80, the largest value; its negative is the smallest. An amplitude is bounded as a weight is.
pub const MOST_VALUE: f64 = 1_208_925_819_614_629_174_706_176.0;

#[derive(Clone)]
pub struct Product {
    pub rows: RowLists,
    pub vector: Vec<f64>,
    /// the result list is this much longer than the vector, or shorter
    pub spare: i64,
}

impl Product {
    pub fn judge(&self, room: usize) -> Result<(), u8> {
        let RowLists { starts, columns, values } = &self.rows;
        let count = self.vector.len();
        if starts.len() != count + 1 || columns.len() != values.len() {
            return Err(12);
        }
        let from_nothing_to_all = starts[0] == 0 && starts[count] as usize == columns.len();
        if !from_nothing_to_all || !starts.is_sorted() || columns.iter().any(|&column| column as usize >= count) {
            return Err(13);
        }
        let within = |list: &[f64], most: f64| list.iter().all(|float| (-most..=most).contains(float));
        if !within(values, MOST_VALUE) || !within(&self.vector, weights::MOST) {
            return Err(14);
        }
        if room < count { Err(15) } else { Ok(()) }
    }

    /// Each row from 0.0 in the order of its list.
    fn by_definition(&self) -> Vec<f64> {
        let RowLists { starts, columns, values } = &self.rows;
        let product = |at: usize| values[at] * self.vector[columns[at] as usize];
        let row = |ends: &[u32]| (ends[0]..ends[1]).fold(0.0, |sum, at| sum + product(at as usize));
        starts.windows(2).map(row).collect()
    }
}

impl Case for Product {
    fn compare(&self, tally: &mut Tally) -> Result<(), String> {
        let room = lent::length(self.vector.len(), self.spare);
        let expected = self.judge(room);
        tally.count(Kind::Products, expected.err().unwrap_or(0));
        let mut result = Lent::<f64>::new("result", room);
        let RowLists { starts, columns, values } = &self.rows;
        let answer = calls::matvec(starts, columns, values, &self.vector, result.list());
        same_answer(answer, expected.map_or_else(|number| -i64::from(number), |()| 0))?;
        if expected.is_err() {
            return result.unchanged();
        }
        let product = rust::matvec(&self.rows, &self.vector);
        if !floats::same(&product, &self.by_definition()) {
            return Err("the judge's own product and the Rust's differ".into());
        }
        result.holds(&product)
    }

    fn simpler(&self) -> Vec<Product> {
        let Product { rows, vector, .. } = self;
        let mut simpler: Vec<Product> = [0, 1, -1].map(|spare| Product { spare, ..self.clone() }).to_vec();
        simpler.extend((0..rows.values.len().min(rows.columns.len())).map(|at| self.without_entry(at)));
        simpler.extend((0..vector.len()).map(|at| self.without_row(at)));
        for (at, &value) in rows.values.iter().enumerate() {
            for float in floats::simpler(value) {
                let mut other = self.clone();
                other.rows.values[at] = float;
                simpler.push(other);
            }
        }
        for (at, &amplitude) in vector.iter().enumerate() {
            for float in floats::simpler(amplitude) {
                let mut other = self.clone();
                other.vector[at] = float;
                simpler.push(other);
            }
        }
        for (at, &start) in rows.starts.iter().enumerate() {
            for start in [0, start / 2, start.saturating_sub(1)] {
                let mut other = self.clone();
                other.rows.starts[at] = start;
                simpler.push(other);
            }
        }
        simpler
    }

    fn size(&self) -> Vec<u128> {
        let RowLists { starts, columns, values } = &self.rows;
        let lengths = [starts.len(), columns.len(), values.len(), self.vector.len()].map(|length| length as u128);
        let floats: u128 = values.iter().chain(&self.vector).map(|&float| floats::size(float)).fold(0, u128::saturating_add);
        let numbers: u128 = starts.iter().chain(columns).map(|&number| u128::from(number)).sum();
        vec![lengths.iter().sum(), floats, numbers, u128::from(self.spare.unsigned_abs())]
    }

    fn show(&self) -> String {
        let RowLists { starts, columns, values } = &self.rows;
        let (values, vector) = (floats::show(values), floats::show(&self.vector));
        format!(
            "matvec: starts {starts:?}, columns {columns:?}, values {values}, vector {vector}, {}",
            lent::show_spare(self.spare)
        )
    }
}

impl Product {
    /// One entry goes, and later rows begin one earlier.
    fn without_entry(&self, at: usize) -> Product {
        let mut other = self.clone();
        other.rows.columns.remove(at);
        other.rows.values.remove(at);
        for start in other.rows.starts.iter_mut().filter(|start| **start as usize > at) {
            *start -= 1;
        }
        other
    }

    /// A row goes with its amplitude; its entries become those of the row before it, or of no row.
    fn without_row(&self, at: usize) -> Product {
        let mut other = self.clone();
        other.vector.remove(at);
        if at < other.rows.starts.len() {
            other.rows.starts.remove(at);
        }
        other
    }
}
