//! Writes the glue that takes the files of phyz-quantum in where they lie.

#[path = "../source.rs"]
mod source;

/// The last two are there because the others name them.
const FILES: [&str; 8] = ["gauss_law", "hilbert", "csr", "lanczos", "su2_quantum", "observables", "diag", "ryu_takayanagi"];

/// The triangle's shift is private to its file, so its file gets one function more.
const OPENED: &str = "
/// Appended by the oracle's build: the private shift, with the signs of its own file.
pub fn open_triangle_shift(hilbert: &U1HilbertSpace, config: &[i32], edges: &[usize; 3]) -> Option<usize> {
    apply_triangle_shift(hilbert, config, edges, &TRIANGLE_HOLONOMY_SIGNS)
}
";

fn main() {
    let folder = source::folder("phyz-quantum");
    let mut glue: String = FILES.iter().map(|name| source::module(&folder, name)).collect();
    glue += &source::module_with(&folder, "hamiltonian", OPENED);
    source::write_glue(&glue);
}
