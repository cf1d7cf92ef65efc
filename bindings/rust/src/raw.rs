//! The declarations of libzibrotka.a, as in include/zibrotka.h. A slice goes over as two arguments, pointer and length: `&[T]` in such a
//! declaration would be one argument of two words.

use super::{EDGE_BYTES, TRIANGLE_BYTES};

unsafe extern "C" {
    pub fn zibrotka_make_sheet(
        n_vertices: u64,
        edges: *const u8,
        edges_len: usize,
        triangles: *const u8,
        triangles_len: usize,
        lambda: u64,
        sheet: *mut u8,
        sheet_len: usize,
    ) -> i64;
    pub fn zibrotka_read_sheet(
        sheet: *const u8,
        sheet_len: usize,
        n_vertices: *mut u64,
        n_edges: *mut u64,
        n_triangles: *mut u64,
        lambda: *mut u64,
        edges: *mut [u8; EDGE_BYTES],
        triangles: *mut [u8; TRIANGLE_BYTES],
    ) -> i64;
    pub fn zibrotka_tri_edge_indices(sheet: *const u8, sheet_len: usize, triangle: u64, indices: *mut [u64; 3]) -> i64;
    pub fn zibrotka_from_pentachorons(
        n_vertices: u64,
        pentachora: *const u64,
        pentachora_len: usize,
        edges: *mut u8,
        edges_len: usize,
        triangles: *mut u8,
        triangles_len: usize,
        n_triangles: *mut u64,
    ) -> i64;
    pub fn zibrotka_spanning_tree(
        sheet: *const u8,
        sheet_len: usize,
        tree: *mut u32,
        tree_len: usize,
        free_edges: *mut u32,
        free_len: usize,
    ) -> i64;
    pub fn zibrotka_fundamental_loops(
        sheet: *const u8,
        sheet_len: usize,
        starts: *mut u32,
        starts_len: usize,
        edges: *mut u8,
        edges_len: usize,
        directions: *mut i8,
        directions_len: usize,
    ) -> i64;
    pub fn zibrotka_su2_fundamental_loops(
        sheet: *const u8,
        sheet_len: usize,
        starts: *mut u32,
        starts_len: usize,
        edges: *mut u8,
        edges_len: usize,
    ) -> i64;
    pub fn zibrotka_check_gauss_law(sheet: *const u8, sheet_len: usize, configuration: *const i32, configuration_len: usize)
    -> i64;
    pub fn zibrotka_check_gauss_law_finding(
        sheet: *const u8,
        sheet_len: usize,
        configuration: *const i32,
        configuration_len: usize,
        vertex: *mut u64,
        excess: *mut i64,
    ) -> i64;
    pub fn zibrotka_enumerate_gauge_invariant(sheet: *const u8, sheet_len: usize, states: *mut i32, states_len: usize) -> i64;
    pub fn zibrotka_config_to_index(
        sheet: *const u8,
        sheet_len: usize,
        configuration: *const i32,
        configuration_len: usize,
        states: *mut i32,
        states_len: usize,
    ) -> i64;
    pub fn zibrotka_config_to_index_finding(
        sheet: *const u8,
        sheet_len: usize,
        configuration: *const i32,
        configuration_len: usize,
        states: *mut i32,
        states_len: usize,
        vertex: *mut u64,
        excess: *mut i64,
        edge: *mut u64,
    ) -> i64;
    pub fn zibrotka_apply_shift(
        sheet: *const u8,
        sheet_len: usize,
        configuration: *const i32,
        configuration_len: usize,
        edge: u64,
        delta: i32,
        states: *mut i32,
        states_len: usize,
        result: *mut i32,
        result_len: usize,
    ) -> i64;
    pub fn zibrotka_apply_shift_finding(
        sheet: *const u8,
        sheet_len: usize,
        configuration: *const i32,
        configuration_len: usize,
        shifted: u64,
        delta: i32,
        states: *mut i32,
        states_len: usize,
        result: *mut i32,
        result_len: usize,
        vertex: *mut u64,
        excess: *mut i64,
        edge: *mut u64,
    ) -> i64;
    pub fn zibrotka_apply_triangle_shift(
        sheet: *const u8,
        sheet_len: usize,
        triangle: u64,
        state: u64,
        states: *mut i32,
        states_len: usize,
    ) -> i64;
    pub fn zibrotka_su2_basis(sheet: *const u8, sheet_len: usize, states: *mut u64, states_len: usize) -> i64;
    pub fn zibrotka_u1_params(g_squared: f64, params: *mut [f64; 3]) -> i64;
    pub fn zibrotka_su2_params(g_squared: f64, params: *mut [f64; 3]) -> i64;
    pub fn zibrotka_build_hamiltonian(
        sheet: *const u8,
        sheet_len: usize,
        g_squared: f64,
        electric: f64,
        magnetic: f64,
        given: bool,
        weights: *const f64,
        weights_len: usize,
        states: *mut i32,
        states_len: usize,
        result: *mut f64,
        result_len: usize,
    ) -> i64;
    pub fn zibrotka_build_su2_hamiltonian(
        sheet: *const u8,
        sheet_len: usize,
        g_squared: f64,
        electric: f64,
        magnetic: f64,
        given: bool,
        weights: *const f64,
        weights_len: usize,
        states: *mut u64,
        states_len: usize,
        result: *mut f64,
        result_len: usize,
    ) -> i64;
    pub fn zibrotka_build_csr(
        sheet: *const u8,
        sheet_len: usize,
        g_squared: f64,
        electric: f64,
        magnetic: f64,
        given: bool,
        weights: *const f64,
        weights_len: usize,
        states: *mut i32,
        states_len: usize,
        starts: *mut u32,
        starts_len: usize,
        columns: *mut u32,
        columns_len: usize,
        values: *mut f64,
        values_len: usize,
    ) -> i64;
    pub fn zibrotka_build_csr_su2(
        sheet: *const u8,
        sheet_len: usize,
        g_squared: f64,
        electric: f64,
        magnetic: f64,
        given: bool,
        weights: *const f64,
        weights_len: usize,
        states: *mut u64,
        states_len: usize,
        starts: *mut u32,
        starts_len: usize,
        columns: *mut u32,
        columns_len: usize,
        values: *mut f64,
        values_len: usize,
    ) -> i64;
    pub fn zibrotka_count_states(sheet: *const u8, sheet_len: usize) -> i64;
    pub fn zibrotka_su2_count_states(sheet: *const u8, sheet_len: usize) -> i64;
    pub fn zibrotka_count_entries(sheet: *const u8, sheet_len: usize) -> i64;
    pub fn zibrotka_hamiltonian_matvec(
        sheet: *const u8,
        sheet_len: usize,
        g_squared: f64,
        electric: f64,
        magnetic: f64,
        given: bool,
        weights: *const f64,
        weights_len: usize,
        vector: *const f64,
        vector_len: usize,
        states: *mut i32,
        states_len: usize,
        result: *mut f64,
        result_len: usize,
    ) -> i64;
    pub fn zibrotka_electric_field_sq(
        sheet: *const u8,
        sheet_len: usize,
        amplitudes: *const f64,
        amplitudes_len: usize,
        states: *mut i32,
        states_len: usize,
        result: *mut f64,
        result_len: usize,
    ) -> i64;
    pub fn zibrotka_wilson_loop(
        sheet: *const u8,
        sheet_len: usize,
        amplitudes: *const f64,
        amplitudes_len: usize,
        edges: *const u8,
        edges_len: usize,
        directions: *const i8,
        directions_len: usize,
        states: *mut i32,
        states_len: usize,
        expectation: *mut f64,
    ) -> i64;
    pub fn zibrotka_su2_count_entries(sheet: *const u8, sheet_len: usize) -> i64;
    pub fn zibrotka_su2_hamiltonian_matvec(
        sheet: *const u8,
        sheet_len: usize,
        g_squared: f64,
        electric: f64,
        magnetic: f64,
        given: bool,
        weights: *const f64,
        weights_len: usize,
        vector: *const f64,
        vector_len: usize,
        states: *mut u64,
        states_len: usize,
        result: *mut f64,
        result_len: usize,
    ) -> i64;
    pub fn zibrotka_su2_wilson_loop(
        sheet: *const u8,
        sheet_len: usize,
        vector: *const f64,
        vector_len: usize,
        path: *const u8,
        path_len: usize,
        states: *mut u64,
        states_len: usize,
        expectation: *mut f64,
    ) -> i64;
    pub fn zibrotka_su2_wilson_passes(
        sheet: *const u8,
        sheet_len: usize,
        vector: *const f64,
        vector_len: usize,
        path: *const u8,
        path_len: usize,
        states: *mut u64,
        states_len: usize,
        expectation: *mut f64,
    ) -> i64;
    pub fn zibrotka_matvec(
        starts: *const u32,
        starts_len: usize,
        columns: *const u32,
        columns_len: usize,
        values: *const f64,
        values_len: usize,
        vector: *const f64,
        vector_len: usize,
        result: *mut f64,
        result_len: usize,
    ) -> i64;
    pub fn zibrotka_refusal_text(number: u64, text: *mut u8, text_len: usize) -> i64;
    pub safe fn zibrotka_release() -> u64;
}
