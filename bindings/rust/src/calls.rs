//! Each exported call of the library over lent slices, one to one. An answer is the value, or minus the number of a refusal.
//!
//! A slice carries its own length, so no length can be wrong. What a call writes to is borrowed exclusively, so it overlaps nothing else
//! that the call is given. What a call only reads may be lent twice. A `bool` is `true` or `false`, and no third value. So all that the
//! header asks of a caller from C holds for every safe program, and no function here is unsafe.
//!
//! ```
//! let (list, mut result) = ([1.0, 2.0], [0.0, 0.0]);
//! assert_eq!(zibrotka::calls::matvec(&[0, 1, 2], &[1, 0], &[5.0, 7.0], &list, &mut result), 0);
//! assert_eq!(result, [10.0, 7.0]);
//! ```
//!
//! The same into the list that is read does not compile, nor does a list of fewer entries than the header fixes, nor a number for a `bool`:
//!
//! ```compile_fail,E0502
//! let mut list = [1.0, 2.0];
//! zibrotka::calls::matvec(&[0, 1, 2], &[1, 0], &[5.0, 7.0], &list, &mut list);
//! ```
//!
//! ```compile_fail,E0308
//! zibrotka::calls::u1_params(1.0, &mut [0.0; 2]);
//! ```
//!
//! ```compile_fail,E0308
//! zibrotka::calls::build_hamiltonian(&[], [1.0, 0.5, -1.0], 2, &[], &mut [], &mut []);
//! ```
//!
//! A call that refuses leaves every lent list and number as it was; only the two calls whose names end in `_finding` and that answer a
//! place write numbers beside the refusal 17. One that succeeds changes no entry of a list beyond its result.
//!
//! Every call but [`release`] panics where the linked library is of another version than this crate: its calls may take other arguments.
//!
//! The coupling goes over as the record that `u1_params` and `su2_params` give: g², then its electric and its magnetic factor.

#![allow(clippy::too_many_arguments)]

#[path = "raw.rs"]
mod raw;

/// The bytes of the longest flat list of edges that a sheet can hold.
pub const EDGE_BYTES: usize = 126;
/// The bytes of the longest flat list of triangles that a sheet can hold.
pub const TRIANGLE_BYTES: usize = 768;
/// The bytes of the longest sheet.
pub const SHEET_BYTES: usize = 905;
/// The bytes of the longest sentence of a refusal, at most.
pub const TEXT_BYTES: usize = 200;

/// The release that this crate's declarations belong to, its own version as a number.
const RELEASE: u64 = 10000 * part(env!("CARGO_PKG_VERSION_MAJOR"))
    + 100 * part(env!("CARGO_PKG_VERSION_MINOR"))
    + part(env!("CARGO_PKG_VERSION_PATCH"));

const fn part(digits: &str) -> u64 {
    match u64::from_str_radix(digits, 10) {
        Ok(number) => number,
        Err(_) => panic!("a part of the version is no number"),
    }
}

fn judge_release() {
    // Asking costs as little as remembering the answer.
    let release = raw::zibrotka_release();
    assert!(release == RELEASE, "the library has the release {release}, and this crate needs {RELEASE}");
}

/// A sheet's bytes from flat edges and triangles; answers how many bytes were written.
pub fn make_sheet(n_vertices: u64, edges: &[u8], triangles: &[u8], lambda: u64, sheet: &mut [u8]) -> i64 {
    judge_release();
    unsafe {
        raw::zibrotka_make_sheet(
            n_vertices,
            edges.as_ptr(),
            edges.len(),
            triangles.as_ptr(),
            triangles.len(),
            lambda,
            sheet.as_mut_ptr(),
            sheet.len(),
        )
    }
}

/// What stands in a sheet; answers 0.
pub fn read_sheet(
    sheet: &[u8],
    n_vertices: &mut u64,
    n_edges: &mut u64,
    n_triangles: &mut u64,
    lambda: &mut u64,
    edges: &mut [u8; EDGE_BYTES],
    triangles: &mut [u8; TRIANGLE_BYTES],
) -> i64 {
    judge_release();
    unsafe { raw::zibrotka_read_sheet(sheet.as_ptr(), sheet.len(), n_vertices, n_edges, n_triangles, lambda, edges, triangles) }
}

/// The numbers of a triangle's edges (a,b), (a,c), (b,c); answers 0.
pub fn tri_edge_indices(sheet: &[u8], triangle: u64, indices: &mut [u64; 3]) -> i64 {
    judge_release();
    unsafe { raw::zibrotka_tri_edge_indices(sheet.as_ptr(), sheet.len(), triangle, indices) }
}

/// The edges and triangles of a flat list of pentachora; answers the number of edges.
pub fn from_pentachorons(
    n_vertices: u64,
    pentachora: &[u64],
    edges: &mut [u8],
    triangles: &mut [u8],
    n_triangles: &mut u64,
) -> i64 {
    judge_release();
    unsafe {
        raw::zibrotka_from_pentachorons(
            n_vertices,
            pentachora.as_ptr(),
            pentachora.len(),
            edges.as_mut_ptr(),
            edges.len(),
            triangles.as_mut_ptr(),
            triangles.len(),
            n_triangles,
        )
    }
}

/// The starts, edges and directions of the fundamental loops; answers the number of loops.
pub fn fundamental_loops(sheet: &[u8], starts: &mut [u32], edges: &mut [u8], directions: &mut [i8]) -> i64 {
    judge_release();
    unsafe {
        raw::zibrotka_fundamental_loops(
            sheet.as_ptr(),
            sheet.len(),
            starts.as_mut_ptr(),
            starts.len(),
            edges.as_mut_ptr(),
            edges.len(),
            directions.as_mut_ptr(),
            directions.len(),
        )
    }
}

/// The same without directions.
pub fn su2_fundamental_loops(sheet: &[u8], starts: &mut [u32], edges: &mut [u8]) -> i64 {
    judge_release();
    unsafe {
        raw::zibrotka_su2_fundamental_loops(
            sheet.as_ptr(),
            sheet.len(),
            starts.as_mut_ptr(),
            starts.len(),
            edges.as_mut_ptr(),
            edges.len(),
        )
    }
}

/// The tree edges as found and the free edges rising; answers the number of free edges.
pub fn spanning_tree(sheet: &[u8], tree: &mut [u32], free_edges: &mut [u32]) -> i64 {
    judge_release();
    unsafe {
        raw::zibrotka_spanning_tree(
            sheet.as_ptr(),
            sheet.len(),
            tree.as_mut_ptr(),
            tree.len(),
            free_edges.as_mut_ptr(),
            free_edges.len(),
        )
    }
}

/// Whether a configuration obeys Gauss's law; answers 1 or 0.
pub fn check_gauss_law(sheet: &[u8], configuration: &[i32]) -> i64 {
    judge_release();
    unsafe { raw::zibrotka_check_gauss_law(sheet.as_ptr(), sheet.len(), configuration.as_ptr(), configuration.len()) }
}

/// The same, and where it answers 0 the lowest vertex that breaks the law and its excess.
pub fn check_gauss_law_finding(sheet: &[u8], configuration: &[i32], vertex: &mut u64, excess: &mut i64) -> i64 {
    judge_release();
    unsafe {
        raw::zibrotka_check_gauss_law_finding(
            sheet.as_ptr(),
            sheet.len(),
            configuration.as_ptr(),
            configuration.len(),
            vertex,
            excess,
        )
    }
}

/// Every state, state after state; answers the number of states.
pub fn enumerate_gauge_invariant(sheet: &[u8], states: &mut [i32]) -> i64 {
    judge_release();
    unsafe { raw::zibrotka_enumerate_gauge_invariant(sheet.as_ptr(), sheet.len(), states.as_mut_ptr(), states.len()) }
}

/// The place of a configuration; the work list gets the basis.
pub fn config_to_index(sheet: &[u8], configuration: &[i32], states: &mut [i32]) -> i64 {
    judge_release();
    unsafe {
        raw::zibrotka_config_to_index(
            sheet.as_ptr(),
            sheet.len(),
            configuration.as_ptr(),
            configuration.len(),
            states.as_mut_ptr(),
            states.len(),
        )
    }
}

/// The same, and beside minus 17 what the configuration breaks: the law at a vertex, by some excess, or the band on an edge.
pub fn config_to_index_finding(
    sheet: &[u8],
    configuration: &[i32],
    states: &mut [i32],
    vertex: &mut u64,
    excess: &mut i64,
    edge: &mut u64,
) -> i64 {
    judge_release();
    unsafe {
        raw::zibrotka_config_to_index_finding(
            sheet.as_ptr(),
            sheet.len(),
            configuration.as_ptr(),
            configuration.len(),
            states.as_mut_ptr(),
            states.len(),
            vertex,
            excess,
            edge,
        )
    }
}

/// The place of a configuration with so much added on one edge, which goes to `result`; the work list gets the basis.
pub fn apply_shift(sheet: &[u8], configuration: &[i32], edge: u64, delta: i32, states: &mut [i32], result: &mut [i32]) -> i64 {
    judge_release();
    unsafe {
        raw::zibrotka_apply_shift(
            sheet.as_ptr(),
            sheet.len(),
            configuration.as_ptr(),
            configuration.len(),
            edge,
            delta,
            states.as_mut_ptr(),
            states.len(),
            result.as_mut_ptr(),
            result.len(),
        )
    }
}

/// The same, and beside minus 17 what the shifted configuration breaks.
pub fn apply_shift_finding(
    sheet: &[u8],
    configuration: &[i32],
    shifted: u64,
    delta: i32,
    states: &mut [i32],
    result: &mut [i32],
    vertex: &mut u64,
    excess: &mut i64,
    edge: &mut u64,
) -> i64 {
    judge_release();
    unsafe {
        raw::zibrotka_apply_shift_finding(
            sheet.as_ptr(),
            sheet.len(),
            configuration.as_ptr(),
            configuration.len(),
            shifted,
            delta,
            states.as_mut_ptr(),
            states.len(),
            result.as_mut_ptr(),
            result.len(),
            vertex,
            excess,
            edge,
        )
    }
}

/// The place that a triangle shifts the state at a place to; the work list gets the basis.
pub fn apply_triangle_shift(sheet: &[u8], triangle: u64, state: u64, states: &mut [i32]) -> i64 {
    judge_release();
    unsafe { raw::zibrotka_apply_triangle_shift(sheet.as_ptr(), sheet.len(), triangle, state, states.as_mut_ptr(), states.len()) }
}

/// Every set of edges that is even at each vertex, as a mask, ascending; answers the number of masks.
pub fn su2_basis(sheet: &[u8], states: &mut [u64]) -> i64 {
    judge_release();
    unsafe { raw::zibrotka_su2_basis(sheet.as_ptr(), sheet.len(), states.as_mut_ptr(), states.len()) }
}

/// The coupling with its electric and its magnetic factor for U(1); answers 0.
pub fn u1_params(g_squared: f64, params: &mut [f64; 3]) -> i64 {
    judge_release();
    unsafe { raw::zibrotka_u1_params(g_squared, params) }
}

/// The same for the two-valued truncation.
pub fn su2_params(g_squared: f64, params: &mut [f64; 3]) -> i64 {
    judge_release();
    unsafe { raw::zibrotka_su2_params(g_squared, params) }
}

/// The dense matrix, row by row, of a coupling with its two factors; the work list gets the basis. Answers the number of states.
pub fn build_hamiltonian(
    sheet: &[u8],
    [g_squared, electric, magnetic]: [f64; 3],
    given: bool,
    weights: &[f64],
    states: &mut [i32],
    result: &mut [f64],
) -> i64 {
    judge_release();
    unsafe {
        raw::zibrotka_build_hamiltonian(
            sheet.as_ptr(),
            sheet.len(),
            g_squared,
            electric,
            magnetic,
            given,
            weights.as_ptr(),
            weights.len(),
            states.as_mut_ptr(),
            states.len(),
            result.as_mut_ptr(),
            result.len(),
        )
    }
}

/// The same for the two-valued truncation, over masks.
pub fn build_su2_hamiltonian(
    sheet: &[u8],
    [g_squared, electric, magnetic]: [f64; 3],
    given: bool,
    weights: &[f64],
    states: &mut [u64],
    result: &mut [f64],
) -> i64 {
    judge_release();
    unsafe {
        raw::zibrotka_build_su2_hamiltonian(
            sheet.as_ptr(),
            sheet.len(),
            g_squared,
            electric,
            magnetic,
            given,
            weights.as_ptr(),
            weights.len(),
            states.as_mut_ptr(),
            states.len(),
            result.as_mut_ptr(),
            result.len(),
        )
    }
}

/// The matrix as row lists; the work list gets the basis. Answers the number of entries.
pub fn build_csr(
    sheet: &[u8],
    [g_squared, electric, magnetic]: [f64; 3],
    given: bool,
    weights: &[f64],
    states: &mut [i32],
    starts: &mut [u32],
    columns: &mut [u32],
    values: &mut [f64],
) -> i64 {
    judge_release();
    unsafe {
        raw::zibrotka_build_csr(
            sheet.as_ptr(),
            sheet.len(),
            g_squared,
            electric,
            magnetic,
            given,
            weights.as_ptr(),
            weights.len(),
            states.as_mut_ptr(),
            states.len(),
            starts.as_mut_ptr(),
            starts.len(),
            columns.as_mut_ptr(),
            columns.len(),
            values.as_mut_ptr(),
            values.len(),
        )
    }
}

/// The two-valued matrix as row lists; the work list gets the basis. Answers the number of entries.
pub fn build_csr_su2(
    sheet: &[u8],
    [g_squared, electric, magnetic]: [f64; 3],
    given: bool,
    weights: &[f64],
    states: &mut [u64],
    starts: &mut [u32],
    columns: &mut [u32],
    values: &mut [f64],
) -> i64 {
    judge_release();
    unsafe {
        raw::zibrotka_build_csr_su2(
            sheet.as_ptr(),
            sheet.len(),
            g_squared,
            electric,
            magnetic,
            given,
            weights.as_ptr(),
            weights.len(),
            states.as_mut_ptr(),
            states.len(),
            starts.as_mut_ptr(),
            starts.len(),
            columns.as_mut_ptr(),
            columns.len(),
            values.as_mut_ptr(),
            values.len(),
        )
    }
}

/// How many states `enumerate_gauge_invariant` lists.
pub fn count_states(sheet: &[u8]) -> i64 {
    judge_release();
    unsafe { raw::zibrotka_count_states(sheet.as_ptr(), sheet.len()) }
}

/// How many masks `su2_basis` lists.
pub fn su2_count_states(sheet: &[u8]) -> i64 {
    judge_release();
    unsafe { raw::zibrotka_su2_count_states(sheet.as_ptr(), sheet.len()) }
}

/// How many entries `build_csr` writes.
pub fn count_entries(sheet: &[u8]) -> i64 {
    judge_release();
    unsafe { raw::zibrotka_count_entries(sheet.as_ptr(), sheet.len()) }
}

/// The product of the U(1) matrix with a vector; the work list gets the basis. Answers the number of states.
pub fn hamiltonian_matvec(
    sheet: &[u8],
    [g_squared, electric, magnetic]: [f64; 3],
    given: bool,
    weights: &[f64],
    vector: &[f64],
    states: &mut [i32],
    result: &mut [f64],
) -> i64 {
    judge_release();
    unsafe {
        raw::zibrotka_hamiltonian_matvec(
            sheet.as_ptr(),
            sheet.len(),
            g_squared,
            electric,
            magnetic,
            given,
            weights.as_ptr(),
            weights.len(),
            vector.as_ptr(),
            vector.len(),
            states.as_mut_ptr(),
            states.len(),
            result.as_mut_ptr(),
            result.len(),
        )
    }
}

/// The square of the electric field on each edge; the work list gets the basis. Answers the number of edges.
pub fn electric_field_sq(sheet: &[u8], amplitudes: &[f64], states: &mut [i32], result: &mut [f64]) -> i64 {
    judge_release();
    unsafe {
        raw::zibrotka_electric_field_sq(
            sheet.as_ptr(),
            sheet.len(),
            amplitudes.as_ptr(),
            amplitudes.len(),
            states.as_mut_ptr(),
            states.len(),
            result.as_mut_ptr(),
            result.len(),
        )
    }
}

/// The Wilson loop along a path; the work list gets the basis. Answers 0.
pub fn wilson_loop(
    sheet: &[u8],
    amplitudes: &[f64],
    edges: &[u8],
    directions: &[i8],
    states: &mut [i32],
    expectation: &mut f64,
) -> i64 {
    judge_release();
    unsafe {
        raw::zibrotka_wilson_loop(
            sheet.as_ptr(),
            sheet.len(),
            amplitudes.as_ptr(),
            amplitudes.len(),
            edges.as_ptr(),
            edges.len(),
            directions.as_ptr(),
            directions.len(),
            states.as_mut_ptr(),
            states.len(),
            expectation,
        )
    }
}

/// How many entries `build_csr_su2` writes.
pub fn su2_count_entries(sheet: &[u8]) -> i64 {
    judge_release();
    unsafe { raw::zibrotka_su2_count_entries(sheet.as_ptr(), sheet.len()) }
}

/// The product of the two-valued matrix with a vector; the work list gets the basis. Answers the number of states.
pub fn su2_hamiltonian_matvec(
    sheet: &[u8],
    [g_squared, electric, magnetic]: [f64; 3],
    given: bool,
    weights: &[f64],
    vector: &[f64],
    states: &mut [u64],
    result: &mut [f64],
) -> i64 {
    judge_release();
    unsafe {
        raw::zibrotka_su2_hamiltonian_matvec(
            sheet.as_ptr(),
            sheet.len(),
            g_squared,
            electric,
            magnetic,
            given,
            weights.as_ptr(),
            weights.len(),
            vector.as_ptr(),
            vector.len(),
            states.as_mut_ptr(),
            states.len(),
            result.as_mut_ptr(),
            result.len(),
        )
    }
}

/// The expectation of a path's loop in the two-valued truncation, by the set of its edges; the work list gets the basis. Answers 0.
pub fn su2_wilson_loop(sheet: &[u8], vector: &[f64], path: &[u8], states: &mut [u64], expectation: &mut f64) -> i64 {
    judge_release();
    unsafe {
        raw::zibrotka_su2_wilson_loop(
            sheet.as_ptr(),
            sheet.len(),
            vector.as_ptr(),
            vector.len(),
            path.as_ptr(),
            path.len(),
            states.as_mut_ptr(),
            states.len(),
            expectation,
        )
    }
}

/// The same by the path's passes modulo two.
pub fn su2_wilson_passes(sheet: &[u8], vector: &[f64], path: &[u8], states: &mut [u64], expectation: &mut f64) -> i64 {
    judge_release();
    unsafe {
        raw::zibrotka_su2_wilson_passes(
            sheet.as_ptr(),
            sheet.len(),
            vector.as_ptr(),
            vector.len(),
            path.as_ptr(),
            path.len(),
            states.as_mut_ptr(),
            states.len(),
            expectation,
        )
    }
}

/// The product of row lists with a vector; answers 0.
pub fn matvec(starts: &[u32], columns: &[u32], values: &[f64], vector: &[f64], result: &mut [f64]) -> i64 {
    judge_release();
    unsafe {
        raw::zibrotka_matvec(
            starts.as_ptr(),
            starts.len(),
            columns.as_ptr(),
            columns.len(),
            values.as_ptr(),
            values.len(),
            vector.as_ptr(),
            vector.len(),
            result.as_mut_ptr(),
            result.len(),
        )
    }
}

/// The sentence of a refusal; answers how many bytes were written.
pub fn refusal_text(number: u64, text: &mut [u8]) -> i64 {
    judge_release();
    unsafe { raw::zibrotka_refusal_text(number, text.as_mut_ptr(), text.len()) }
}

/// The version of the library: 10000 times its first part, plus 100 times the second, plus the third.
pub fn release() -> u64 {
    raw::zibrotka_release()
}
