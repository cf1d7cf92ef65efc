//! The Rust's complex, unchanged, under the name by which its other files call it.

include!(concat!(env!("OUT_DIR"), "/glue.rs"));

pub use complex::SimplicialComplex;

/// Not at hand and not called by what is compared; named by a file that has to compile.
pub mod geometry {
    pub fn triangle_area(_a: f64, _b: f64, _c: f64) -> f64 {
        unimplemented!("the geometry is not at hand")
    }

    pub fn pent_volume(_lengths: &[f64; 10]) -> f64 {
        unimplemented!("the geometry is not at hand")
    }
}
