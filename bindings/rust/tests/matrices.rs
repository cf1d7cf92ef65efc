//! The three forms of the Hamiltonian agree, in both modes, on the shipped sheets and a few more.
//!
//! Coupling, weights and amplitudes are whole or dyadic and small, so that every product and sum is exact. Then the forms give the same
//! bits, though they add in different orders.

mod common;
use common::*;
use zibrotka::{Matrix, RowLists, Sheet};

/// A dense matrix has so many states at most.
const DENSE: usize = 5000;

fn sheets() -> Vec<Sheet> {
    let shipped = ["triangle.gls", "tetrahedron.gls", "one-vertex.gls", "path.gls", "five-vertices.gls"].map(shipped);
    shipped.into_iter().chain([complete(4, 2), complete(6, 0), fan(3)]).collect()
}

fn vector(n: usize) -> Vec<f64> {
    (0..n).map(|i| (i * 7 % 23) as f64 - 11.0).collect()
}

fn weights(sheet: &Sheet) -> Vec<f64> {
    (0..sheet.triangles().len()).map(|i| (i * 5 % 9) as f64 * 0.25 - 1.0).collect()
}

fn dense_product(matrix: &Matrix, vector: &[f64]) -> Vec<f64> {
    matrix.rows().map(|row| row.iter().zip(vector).fold(0.0, |sum, (entry, amplitude)| sum + entry * amplitude)).collect()
}

/// The same matrix, spelled out.
fn spelled_out(lists: &RowLists) -> Vec<f64> {
    let n = lists.n();
    let mut all = vec![0.0; n * n];
    for row in 0..n {
        let (columns, values) = lists.row(row);
        assert!(columns.is_sorted_by(|a, b| a < b));
        columns.iter().zip(values).for_each(|(&column, value)| all[row * n + column as usize] += value);
    }
    all
}

/// Row lists, their product, and the product without a matrix are those of the dense matrix.
fn agree(matrix: Matrix, lists: RowLists, product: Vec<f64>, vector: &[f64]) {
    assert!(spelled_out(&lists).iter().map(|entry| entry.to_bits()).eq(matrix.values().iter().map(|entry| entry.to_bits())));
    assert_eq!(bits(&lists.matvec(vector).unwrap()), bits(&dense_product(&matrix, vector)));
    assert_eq!(bits(&product), bits(&dense_product(&matrix, vector)));
    for row in 0..matrix.n().min(100) {
        (0..row).for_each(|column| assert_eq!(matrix.row(row)[column], matrix.row(column)[row]));
    }
}

#[test]
fn in_u1() {
    for sheet in sheets() {
        let vector = vector(sheet.count_states().unwrap());
        assert!(vector.len() <= DENSE);
        let own = weights(&sheet);
        for (g_squared, weights) in [(1.0, None), (2.0, Some(&own[..]))] {
            let lists = sheet.csr(g_squared, weights).unwrap();
            assert_eq!(sheet.count_entries(), Ok(lists.values.len()));
            let product = sheet.matvec(g_squared, &vector, weights).unwrap();
            agree(sheet.hamiltonian(g_squared, weights).unwrap(), lists, product, &vector);
        }
    }
}

#[test]
fn in_z2() {
    for sheet in sheets().into_iter().chain(["chain.gls", "two-free-edges-511.gls"].map(shipped)) {
        let vector = vector(sheet.su2_count_states().unwrap());
        assert!(vector.len() <= DENSE);
        let own = weights(&sheet);
        for (g_squared, weights) in [(1.0, None), (2.0, Some(&own[..]))] {
            let lists = sheet.su2_csr(g_squared, weights).unwrap();
            assert_eq!(sheet.su2_count_entries(), Ok(lists.values.len()));
            let product = sheet.su2_matvec(g_squared, &vector, weights).unwrap();
            agree(sheet.su2_hamiltonian(g_squared, weights).unwrap(), lists, product, &vector);
        }
    }
}

#[test]
fn of_many_states_without_a_dense_one() {
    for sheet in ["two-free-edges-511.gls", "chain.gls"].map(shipped) {
        let vector = vector(sheet.count_states().unwrap());
        let lists = sheet.csr(1.0, None).unwrap();
        let product = lists.matvec(&vector).unwrap();
        assert_eq!(bits(&product), bits(&sheet.matvec(1.0, &vector, None).unwrap()));
        assert!(product.iter().any(|entry| *entry != 0.0));
    }
}

#[test]
fn masks_use_all_64_bits_that_there_can_be() {
    let mut edges: Vec<[u8; 2]> = (0..61).map(|a| [a, a + 1]).collect();
    edges.extend([[0, 60], [0, 61]]);
    let ring = Sheet::from_edges(62, &edges, &[], 0).unwrap();
    let (short, long) = ((1u64 << 60) - 1, (1u64 << 61) - 1);
    let mut masks = [0, short | 1 << 61, long | 1 << 62, (short | 1 << 61) ^ (long | 1 << 62)];
    masks.sort();
    assert_eq!(ring.su2_states().unwrap(), masks);
    assert_eq!(ring.su2_wilson(&[62], &[1.0, 2.0, 3.0, 4.0]), Ok(1.0 + 4.0 - 9.0 - 16.0));
    assert_eq!(ring.su2_hamiltonian(8.0, None).unwrap().row(1)[1], f64::from(3 * masks[1].count_ones()));
}

#[test]
fn a_state_is_expected_to_have_its_own_squares() {
    let sheet = shipped("tetrahedron.gls");
    let states = sheet.states().unwrap();
    assert_eq!(states.n_states(), 15);
    for (place, state) in states.iter().enumerate() {
        let mut amplitudes = vec![0.0; states.n_states()];
        amplitudes[place] = 1.0;
        let squares: Vec<f64> = state.iter().map(|value| f64::from(value * value)).collect();
        assert_eq!(sheet.electric_field_sq(&amplitudes), Ok(squares));
    }
}
