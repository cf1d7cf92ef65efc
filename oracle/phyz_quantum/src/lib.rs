//! The Rust's Gauss law, bases, Hamiltonians, products and loops, unchanged but for one function that opens the triangle's shift.

include!(concat!(env!("OUT_DIR"), "/glue.rs"));

#[cfg(test)]
mod tests {
    use crate::hamiltonian::{KSParams, build_hamiltonian, open_triangle_shift};
    use crate::hilbert::U1HilbertSpace;
    use crate::su2_quantum::Su2HilbertSpace;
    use phyz_regge::SimplicialComplex;

    // "Triangle" of the scope paper
    fn triangle() -> SimplicialComplex {
        let mut complex = SimplicialComplex::from_pentachorons(3, &[]);
        complex.edges = vec![[0, 1], [0, 2], [1, 2]];
        complex.edge_index = complex.edges.iter().enumerate().map(|(number, edge)| (*edge, number)).collect();
        complex.triangles = vec![[0, 1, 2]];
        complex
    }

    #[test]
    fn the_triangle_has_the_stated_states_and_matrix() {
        let complex = triangle();
        let hilbert = U1HilbertSpace::new(&complex, 1);
        assert_eq!(hilbert.basis, vec![vec![-1, 1, -1], vec![0, 0, 0], vec![1, -1, 1]]);
        assert_eq!(open_triangle_shift(&hilbert, &hilbert.basis[0], &[0, 1, 2]), Some(1));
        assert_eq!(open_triangle_shift(&hilbert, &hilbert.basis[2], &[0, 1, 2]), None);
        let matrix = build_hamiltonian(&hilbert, &complex, &KSParams::default());
        let rows: Vec<f64> = (0..9).map(|at| matrix[(at / 3, at % 3)]).collect();
        assert_eq!(rows, [1.5, -0.5, 0.0, -0.5, 0.0, -0.5, 0.0, -0.5, 1.5]);
        assert_eq!(Su2HilbertSpace::new(&complex).basis, vec![0, 7]);
    }
}
