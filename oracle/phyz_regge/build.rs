//! Writes the glue that takes complex.rs in where it lies.

#[path = "../source.rs"]
mod source;

fn main() {
    let folder = source::folder("phyz-regge");
    source::write_glue(&source::module(&folder, "complex"));
}
