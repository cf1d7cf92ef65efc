//! The triangle of README.md and docs/SCOPE.md, in both modes.

mod common;
use common::*;
use std::panic::{AssertUnwindSafe, catch_unwind};
use zibrotka::{Refusal, RowLists, Sheet, SpanningTree};

const VECTOR: [f64; 3] = [1.0, 2.0, 3.0];

#[test]
fn its_sheet() {
    let triangle = triangle();
    assert_eq!(triangle.to_bytes(), TRIANGLE);
    assert_eq!(triangle.as_ref(), TRIANGLE);
    assert_eq!(triangle, shipped("triangle.gls"));
    assert_eq!((triangle.n_vertices(), triangle.truncation()), (3, 1));
    assert_eq!((triangle.edges(), triangle.triangles()), (&[[0, 1], [0, 2], [1, 2]][..], &[[0, 1, 2]][..]));
    assert_eq!(triangle.tri_edge_indices(0), Ok([0, 1, 2]));
}

#[test]
fn its_tree_and_loop() {
    let triangle = triangle();
    assert_eq!(triangle.spanning_tree(), SpanningTree { tree: vec![0, 1], free_edges: vec![2] });
    assert_eq!(triangle.loops(), [path(&[(0, -1), (1, 1), (2, -1)])]);
    assert_eq!(triangle.su2_loops(), [[0, 1, 2]]);
}

#[test]
fn its_states() {
    let states = triangle().states().unwrap();
    assert_eq!((states.n_states(), states.n_edges()), (3, 3));
    let all: Vec<&[i32]> = states.iter().collect();
    assert_eq!(all, [[-1, 1, -1], [0, 0, 0], [1, -1, 1]]);
    assert_eq!(states.state(1), [0, 0, 0]);
    assert_eq!(states.values(), all.concat());
    assert_eq!(states.clone().into_values(), all.concat());
    assert_eq!(triangle().count_states(), Ok(3));
}

/// What a call says when it panics.
fn panics<T>(call: impl FnOnce() -> T) -> String {
    *catch_unwind(AssertUnwindSafe(call)).err().unwrap().downcast().unwrap()
}

#[test]
fn it_has_no_fourth_state_and_no_fourth_row() {
    let (states, matrix) = (triangle().states().unwrap(), triangle().hamiltonian(1.0, None).unwrap());
    let lists = triangle().csr(1.0, None).unwrap();
    for number in [3, 1 << 63, usize::MAX] {
        assert_eq!(panics(|| states.state(number)), format!("there are 3 states, and none has the place {number}"));
        assert_eq!(panics(|| matrix.row(number)), format!("there are 3 rows, and none has the number {number}"));
        assert_eq!(panics(|| lists.row(number)), format!("there are 3 rows, and none has the number {number}"));
    }
}

#[test]
fn a_row_number_does_not_wrap() {
    let pair = triangle().su2_hamiltonian(1.0, None).unwrap();
    assert_eq!(panics(|| pair.row(1 << 63)), format!("there are 2 rows, and none has the number {}", 1u64 << 63));
    let nothing = RowLists { starts: vec![], columns: vec![], values: vec![] };
    assert_eq!(panics(|| nothing.row(0)), "there are 0 rows, and none has the number 0");
}

#[test]
fn its_shifts() {
    let triangle = triangle();
    assert_eq!(triangle.apply_triangle_shift(0, 0), Ok(1));
    assert_eq!(triangle.apply_triangle_shift(0, 1), Ok(2));
    assert_eq!(triangle.apply_triangle_shift(0, 2).unwrap_err().refusal(), Some(Refusal::OutOfBand));
    assert_eq!(triangle.apply_shift(&[0, -1, 1], 0, 1), Ok((2, vec![1, -1, 1])));
}

#[test]
fn its_matrices() {
    let matrix = triangle().hamiltonian(1.0, None).unwrap();
    let rows = [[1.5, -0.5, 0.0], [-0.5, 0.0, -0.5], [0.0, -0.5, 1.5]];
    assert_eq!(matrix.n(), 3);
    assert!(matrix.rows().eq(rows));
    assert_eq!((matrix.row(2), matrix.values()), (&rows[2][..], &rows.concat()[..]));
    assert_eq!(matrix.into_values(), rows.concat());
    let lists = triangle().csr(1.0, None).unwrap();
    assert_eq!(lists.n(), 3);
    assert_eq!((lists.starts.as_slice(), lists.columns.as_slice()), (&[0, 2, 4, 6][..], &[0, 1, 0, 2, 1, 2][..]));
    assert_eq!(lists.values, [1.5, -0.5, -0.5, -0.5, -0.5, 1.5]);
    assert_eq!(lists.row(1), (&[0, 2][..], &[-0.5, -0.5][..]));
    assert_eq!(triangle().count_entries(), Ok(6));
}

#[test]
fn its_product_squares_and_expectation() {
    let triangle = triangle();
    assert_eq!(triangle.matvec(1.0, &VECTOR, None).unwrap(), [0.5, -2.0, 3.5]);
    assert_eq!(triangle.csr(1.0, None).unwrap().matvec(&VECTOR).unwrap(), [0.5, -2.0, 3.5]);
    assert_eq!(triangle.electric_field_sq(&VECTOR).unwrap(), [10.0; 3]);
    assert_eq!(triangle.wilson(&triangle.loops()[0], &VECTOR), Ok(8.0));
    assert_eq!(triangle.wilson(&[], &VECTOR), Ok(14.0));
    // state 2 leaves the band at the first step
    assert_eq!(triangle.wilson(&path(&[(0, 1), (0, -1)]), &VECTOR), Ok(5.0));
}

#[test]
fn its_weights() {
    let triangle = triangle();
    assert_eq!(triangle.hamiltonian(1.0, Some(&[3.0])).unwrap().row(0), [1.5, -1.5, 0.0]);
    assert_eq!(triangle.hamiltonian(1.0, Some(&[1.0])), triangle.hamiltonian(1.0, None));
    let tiny = 2f64.powi(-1071);
    assert_eq!(triangle.hamiltonian(3.0, Some(&[tiny])).unwrap().row(0)[1], -2f64.powi(-1073));
    assert_eq!(triangle.csr(3.0, Some(&[tiny])).unwrap().row(0).1[1], -2f64.powi(-1074));
    let zero = |list: &[f64]| bits(list)[1];
    assert_eq!(zero(triangle.hamiltonian(1.0, Some(&[0.0])).unwrap().row(0)), 0.0f64.to_bits());
    assert_eq!(zero(triangle.csr(1.0, Some(&[0.0])).unwrap().row(0).1), (-0.0f64).to_bits());
}

#[test]
fn its_two_valued_mode() {
    let triangle = triangle();
    assert_eq!(triangle.su2_states().unwrap(), [0, 7]);
    assert_eq!((triangle.su2_count_states(), triangle.su2_count_entries()), (Ok(2), Ok(3)));
    let matrix = triangle.su2_hamiltonian(1.0, None).unwrap();
    assert!(matrix.rows().eq([[0.0, -0.5], [-0.5, 1.125]]));
    let lists = triangle.su2_csr(1.0, None).unwrap();
    assert_eq!((lists.starts, lists.columns, lists.values), (vec![0, 1, 3], vec![1, 0, 1], vec![-0.5, -0.5, 1.125]));
    assert_eq!(triangle.su2_matvec(1.0, &[3.0, 5.0], None).unwrap(), [-2.5, 4.125]);
    assert_eq!(triangle.su2_matvec(1.0, &[3.0, 5.0], Some(&[2.0])).unwrap(), [-5.0, 2.625]);
}

#[test]
fn its_two_valued_loops() {
    let triangle = triangle();
    let both =
        |path: &[u8]| (triangle.su2_wilson(path, &[3.0, 5.0]).unwrap(), triangle.su2_wilson_passes(path, &[3.0, 5.0]).unwrap());
    assert_eq!(both(&triangle.su2_loops()[0]), (-16.0, -16.0));
    assert_eq!(both(&[]), (34.0, 34.0));
    assert_eq!(both(&[0, 0]), (-16.0, 34.0));
    assert_eq!(both(&[0, 1, 0]), (34.0, -16.0));
}

#[test]
fn one_vertex_has_the_empty_state() {
    let vertex = Sheet::from_edges(1, &[], &[], 0).unwrap();
    let states = vertex.states().unwrap();
    assert_eq!((states.n_states(), states.n_edges(), states.values().len()), (1, 0, 0));
    assert!(states.iter().eq([&[] as &[i32]]));
    assert_eq!(vertex.su2_states().unwrap(), [0]);
    assert_eq!(vertex.spanning_tree(), SpanningTree { tree: vec![], free_edges: vec![] });
    assert_eq!((vertex.loops().len(), vertex.su2_loops().len()), (0, 0));
    assert_eq!(vertex.config_to_index(&[]), Ok(0));
    assert_eq!(vertex.hamiltonian(1.0, None).unwrap().values(), [0.0]);
    assert_eq!(vertex.csr(1.0, None).unwrap().starts, [0, 0]);
    assert_eq!(vertex.electric_field_sq(&[2.0]).unwrap(), [] as [f64; 0]);
    assert_eq!(vertex.wilson(&[], &[2.0]), Ok(4.0));
}

#[test]
fn the_library_has_the_crates_version() {
    let parts = env!("CARGO_PKG_VERSION").split('.').map(|part| part.parse::<u64>().unwrap());
    assert_eq!(zibrotka::release(), parts.fold(0, |release, part| 100 * release + part));
    assert!(header().contains(&format!("#define ZIBROTKA_RELEASE {}\n", zibrotka::release())));
}
