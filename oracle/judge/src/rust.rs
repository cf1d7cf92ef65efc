//! The Rust that judges: its complex, its Gauss law and its basis, asked in the judge's terms.

use crate::reference::Complex;
use phyz_quantum::csr::{CsrMatrix, build_csr, build_csr_su2};
use phyz_quantum::gauss_law;
use phyz_quantum::hamiltonian::{KSParams, build_hamiltonian, open_triangle_shift};
use phyz_quantum::hilbert::U1HilbertSpace;
use phyz_quantum::lanczos;
use phyz_quantum::observables;
use phyz_quantum::su2_quantum::{self, Su2HilbertSpace, build_su2_hamiltonian};
use phyz_regge::SimplicialComplex;
use std::ops::Index;

/// The Rust adds in 32 bits: it is asked about values up to this only, of which no sum wraps.
pub const MOST_VALUE: u32 = 1 << 24;

/// The complex that the Rust makes of pentachora.
pub fn from_pentachora(vertices: u64, list: &[u64]) -> SimplicialComplex {
    let fives: Vec<[usize; 5]> = list.chunks_exact(5).map(|five| std::array::from_fn(|at| five[at] as usize)).collect();
    SimplicialComplex::from_pentachorons(vertices as usize, &fives)
}

/// The Rust's record for any complex: only the fields that its functions read are filled.
pub fn filled(complex: &Complex) -> SimplicialComplex {
    let mut record = SimplicialComplex::from_pentachorons(complex.vertices as usize, &[]);
    record.edges = complex.edges.iter().map(|edge| edge.map(usize::from)).collect();
    record.edge_index = record.edges.iter().enumerate().map(|(number, &edge)| (edge, number)).collect();
    record.triangles = complex.triangles.iter().map(|triangle| triangle.map(usize::from)).collect();
    record
}

/// Back from the Rust's record.
pub fn lists(record: &SimplicialComplex) -> Complex {
    Complex {
        vertices: record.n_vertices as u64,
        edges: record.edges.iter().map(|edge| edge.map(|vertex| vertex as u8)).collect(),
        triangles: record.triangles.iter().map(|triangle| triangle.map(|vertex| vertex as u8)).collect(),
    }
}

pub fn tri_edge_indices(record: &SimplicialComplex, triangle: usize) -> [u64; 3] {
    record.tri_edge_indices(triangle).map(|number| number as u64)
}

/// Tree edges as found, free edges rising.
pub fn spanning_tree(complex: &Complex) -> (Vec<u32>, Vec<u32>) {
    let (tree, free) = gauss_law::spanning_tree(&filled(complex));
    let numbers = |list: Vec<usize>| list.into_iter().map(|number| number as u32).collect();
    (numbers(tree), numbers(free))
}

/// The loops by rising free edge: of each step the edge and the direction.
pub fn fundamental_loops(complex: &Complex) -> Vec<Vec<(usize, i32)>> {
    observables::fundamental_loops(&filled(complex))
}

pub fn su2_fundamental_loops(complex: &Complex) -> Vec<Vec<usize>> {
    su2_quantum::su2_fundamental_loops(&filled(complex))
}

/// Nothing where a value is too large for it.
pub fn check_gauss_law(complex: &Complex, configuration: &[i32]) -> Option<bool> {
    let small = configuration.iter().all(|value| value.unsigned_abs() <= MOST_VALUE);
    small.then(|| gauss_law::check_gauss_law(&filled(complex), configuration))
}

pub fn enumerate_gauge_invariant(complex: &Complex, lambda: u64) -> Vec<Vec<i32>> {
    gauss_law::enumerate_gauge_invariant(&filled(complex), lambda as u32)
}

/// The Rust's basis, with the record that it was made of.
pub struct Space {
    record: SimplicialComplex,
    space: U1HilbertSpace,
}

impl Space {
    pub fn new(complex: &Complex, lambda: u64) -> Space {
        let record = filled(complex);
        let space = U1HilbertSpace::new(&record, lambda as u32);
        Space { record, space }
    }

    pub fn states(&self) -> &[Vec<i32>] {
        &self.space.basis
    }

    pub fn config_to_index(&self, configuration: &[i32]) -> Option<usize> {
        self.space.config_to_index(configuration)
    }

    /// Its sum wraps where it does not fit 32 bits.
    pub fn apply_shift(&self, configuration: &[i32], edge: usize, delta: i32) -> Option<(Vec<i32>, usize)> {
        self.space.apply_shift(configuration, edge, delta)
    }

    pub fn apply_triangle_shift(&self, triangle: usize, state: usize) -> Option<usize> {
        open_triangle_shift(&self.space, self.space.index_to_config(state), &self.record.tri_edge_indices(triangle))
    }

    pub fn build_hamiltonian(&self, g_squared: f64, weights: Option<&[f64]>) -> Vec<f64> {
        let params = KSParams { g_squared, metric_weights: weights.map(<[f64]>::to_vec) };
        rows(&build_hamiltonian(&self.space, &self.record, &params), self.space.dim())
    }

    pub fn build_csr(&self, g_squared: f64, weights: Option<&[f64]>) -> RowLists {
        build_csr(&self.space, &self.record, g_squared, weights).into()
    }

    pub fn hamiltonian_matvec(&self, vector: &[f64], g_squared: f64, weights: Option<&[f64]>) -> Vec<f64> {
        let product = lanczos::hamiltonian_matvec(&vector.into(), &self.space, &self.record, g_squared, weights);
        product.iter().copied().collect()
    }

    pub fn electric_field_sq(&self, amplitudes: &[f64]) -> Vec<f64> {
        observables::electric_field_sq(&self.space, &amplitudes.into())
    }

    pub fn wilson_loop(&self, amplitudes: &[f64], path: &[(usize, i32)]) -> f64 {
        observables::wilson_loop(&self.space, &amplitudes.into(), path)
    }
}

/// The Rust's basis of the two-valued truncation, with the record that it was made of.
pub struct Su2Space {
    record: SimplicialComplex,
    space: Su2HilbertSpace,
}

impl Su2Space {
    pub fn new(complex: &Complex) -> Su2Space {
        let record = filled(complex);
        let space = Su2HilbertSpace::new(&record);
        Su2Space { record, space }
    }

    /// The masks in the Rust's own order.
    pub fn states(&self) -> &[u64] {
        &self.space.basis
    }

    pub fn build_hamiltonian(&self, g_squared: f64, weights: Option<&[f64]>) -> Vec<f64> {
        rows(&build_su2_hamiltonian(&self.space, &self.record, g_squared, weights), self.space.dim())
    }

    pub fn build_csr(&self, g_squared: f64, weights: Option<&[f64]>) -> RowLists {
        build_csr_su2(&self.space, &self.record, g_squared, weights).into()
    }

    /// One amplitude for each mask.
    pub fn hamiltonian_matvec(&self, vector: &[f64], g_squared: f64, weights: Option<&[f64]>) -> Vec<f64> {
        let product = su2_quantum::su2_hamiltonian_matvec(&vector.into(), &self.space, &self.record, g_squared, weights);
        product.iter().copied().collect()
    }

    pub fn wilson_loop(&self, vector: &[f64], path: &[u8]) -> f64 {
        let edges: Vec<usize> = path.iter().map(|&edge| edge.into()).collect();
        su2_quantum::su2_wilson_loop(&self.space, &vector.into(), &edges)
    }
}

/// A matrix as row lists, the Rust's or any.
#[derive(Clone)]
pub struct RowLists {
    pub starts: Vec<u32>,
    pub columns: Vec<u32>,
    pub values: Vec<f64>,
}

impl From<CsrMatrix> for RowLists {
    fn from(matrix: CsrMatrix) -> RowLists {
        RowLists { starts: matrix.row_ptr, columns: matrix.col_indices, values: matrix.values }
    }
}

/// The Rust judges nothing here: its lists must be right.
pub fn matvec(rows: &RowLists, vector: &[f64]) -> Vec<f64> {
    let RowLists { starts, columns, values } = rows.clone();
    CsrMatrix { nrows: vector.len(), row_ptr: starts, col_indices: columns, values }.matvec(vector)
}

/// A square matrix row by row.
fn rows(matrix: &impl Index<(usize, usize), Output = f64>, len: usize) -> Vec<f64> {
    (0..len).flat_map(|row| (0..len).map(move |column| matrix[(row, column)])).collect()
}
