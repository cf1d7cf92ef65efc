//! What the tests share.
#![allow(dead_code)]

use std::fs;
use std::path::{Path, PathBuf};
use zibrotka::{Sheet, Step};

/// A file or folder of the repository.
pub fn shared(name: &str) -> PathBuf {
    Path::new(env!("CARGO_MANIFEST_DIR")).join("../..").join(name)
}

pub fn text(name: &str) -> String {
    fs::read_to_string(shared(name)).unwrap()
}

pub fn header() -> String {
    text("include/zibrotka.h")
}

pub fn shipped(name: &str) -> Sheet {
    Sheet::read(shared("sheets").join(name)).unwrap()
}

/// The names of all shipped sheets.
pub fn names() -> Vec<String> {
    let names = fs::read_dir(shared("sheets")).unwrap().map(|entry| entry.unwrap().file_name().into_string().unwrap());
    let mut names: Vec<String> = names.filter(|name| name.ends_with(".gls")).collect();
    names.sort();
    names
}

/// The bytes of the triangle, as docs/SCOPE.md has them.
pub const TRIANGLE: [u8; 20] = [0x47, 0x4C, 0x53, 1, 0, 3, 3, 1, 0, 1, 0, 0, 1, 0, 2, 1, 2, 0, 1, 2];

pub fn triangle() -> Sheet {
    Sheet::from_edges(3, &[[0, 1], [0, 2], [1, 2]], &[[0, 1, 2]], 1).unwrap()
}

/// The complete graph on so many vertices, with all its triangles, or of both those on the first so many edges.
pub fn front(vertices: u8, edges: usize, truncation: usize) -> Sheet {
    let pairs = (0..vertices).flat_map(|a| (a + 1..vertices).map(move |b| [a, b]));
    let pairs: Vec<[u8; 2]> = pairs.take(edges).collect();
    let threes = pairs.iter().flat_map(|&[a, b]| (b + 1..vertices).map(move |c| [a, b, c]));
    let threes: Vec<[u8; 3]> = threes.filter(|&[a, b, c]| pairs.contains(&[a, c]) && pairs.contains(&[b, c])).collect();
    Sheet::from_edges(vertices.into(), &pairs, &threes, truncation).unwrap()
}

pub fn complete(vertices: u8, truncation: usize) -> Sheet {
    front(vertices, usize::MAX, truncation)
}

/// Two vertices more than free edges: a fan of triangles around vertex 0, with no triangle listed.
pub fn fan(free_edges: u8) -> Sheet {
    let spokes = (1..=free_edges + 1).map(|b| [0, b]);
    let rim = (1..=free_edges).map(|b| [b, b + 1]);
    Sheet::from_edges(usize::from(free_edges) + 2, &spokes.chain(rim).collect::<Vec<_>>(), &[], 0).unwrap()
}

/// A path of steps (edge, direction).
pub fn path(steps: &[(u8, i8)]) -> Vec<Step> {
    steps.iter().map(|&(edge, direction)| Step { edge, direction }).collect()
}

/// The float of the smallest size above, with the same sign.
pub fn beyond(float: f64) -> f64 {
    f64::from_bits(float.to_bits() + 1)
}

pub fn bits(list: &[f64]) -> Vec<u64> {
    list.iter().map(|float| float.to_bits()).collect()
}

/// Floats that are neither an amplitude nor a weight.
pub fn wrong_floats() -> [f64; 6] {
    let most = 2f64.powi(32);
    [f64::NAN, -f64::NAN, f64::INFINITY, f64::NEG_INFINITY, beyond(most), beyond(-most)]
}

/// Floats that are no coupling.
pub fn wrong_couplings() -> [f64; 9] {
    let (least, most) = (2f64.powi(-32), 2f64.powi(32));
    let below = f64::from_bits(least.to_bits() - 1);
    [f64::NAN, -f64::NAN, f64::INFINITY, f64::NEG_INFINITY, beyond(most), below, 0.0, -0.0, -1.0]
}
