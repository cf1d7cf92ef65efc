//! The tables `pentachora` and `triangles`: complexes made, and the edges of their triangles.

use crate::compare::compared;
use crate::sheets::{Sheet, complete};
use crate::table::{Line, timed};
use phyz_regge::SimplicialComplex;
use std::hint::black_box;
use zibrotka::calls;

/// Flat edges and flat triangles.
type Faces = (Vec<u8>, Vec<u8>);

pub fn pentachora() -> String {
    timed(&given().iter().map(|(vertices, fives)| made(*vertices, fives)).collect::<Vec<Line>>())
}

fn made(vertices: usize, fives: &[[usize; 5]]) -> Line {
    let flat: Vec<u64> = fives.iter().flatten().map(|&vertex| vertex as u64).collect();
    let times = compared(
        &[&flat],
        |(edges, triangles): &mut Faces| {
            let (mut n_triangles, room) = (0, triangles.len() as u64);
            let answer = calls::from_pentachorons(vertices as u64, black_box(&flat), edges, triangles, &mut n_triangles);
            assert_eq!(3 * n_triangles, room);
            answer
        },
        || SimplicialComplex::from_pentachorons(vertices, black_box(fives)),
        |record| (record.n_edges() as i64, (bytes(&record.edges.concat()), bytes(&record.triangles.concat()))),
    );
    let sheet = format!("V {vertices}, pentachora {}", fives.len());
    Line { sheet, call: "from_pentachorons", states: None, entries: None, times }
}

fn bytes(vertices: &[usize]) -> Vec<u8> {
    vertices.iter().map(|&vertex| vertex as u8).collect()
}

/// Numbers of vertices, and pentachora on them.
fn given() -> [(usize, Vec<[usize; 5]>); 7] {
    let chain = (0..6).map(|five| std::array::from_fn(|at| 4 * five + at)).collect();
    [
        (1, vec![]),
        (5, vec![[4, 2, 0, 3, 1]]),
        (6, vec![[0, 1, 2, 3, 4], [5, 4, 3, 2, 1]]),
        (25, chain),
        (9, spread(9, 40)),
        (11, spread(11, 80)),
        (11, spread(11, 250)),
    ]
}

/// So many, step by step through the vertices, until each pair was met.
fn spread(vertices: usize, how_many: usize) -> Vec<[usize; 5]> {
    let fives = |step: usize| (0..vertices).map(move |first| [0, 1, 3, 4, 7].map(|at| (first + at * step) % vertices));
    let apart = |five: &[usize; 5]| (0..5).all(|at| !five[..at].contains(&five[at]));
    let list: Vec<[usize; 5]> = (1..vertices).flat_map(fives).filter(apart).collect();
    list.iter().copied().chain(list.iter().copied().cycle()).take(how_many).collect()
}

pub fn triangles() -> String {
    let rest = given().into_iter().skip(1).take(5);
    let records = rest.map(|(vertices, fives)| SimplicialComplex::from_pentachorons(vertices, &fives));
    timed(&std::iter::once(complete(3, 0).record).chain(records).flat_map(edges).collect::<Vec<Line>>())
}

/// Of the last triangle, once by the Rust's map of edges and once with that map filled anew each time.
fn edges(record: SimplicialComplex) -> [Line; 2] {
    let (e, t) = (record.n_edges(), record.n_triangles());
    let sheet = Sheet::of(format!("V {}, E {e}, T {t}", record.n_vertices), record);
    let port = |indices: &mut Vec<u64>| {
        let indices = indices.as_mut_slice().try_into().expect("three");
        calls::tri_edge_indices(black_box(&sheet.bytes), t as u64 - 1, indices)
    };
    let told = |edges: [usize; 3]| (0, edges.map(|edge| edge as u64).to_vec());
    let found = compared(&[&sheet.bytes], port, || black_box(&sheet.record).tri_edge_indices(t - 1), told);
    let mut emptied = sheet.record.clone();
    let filled = || {
        emptied.edge_index = black_box(&sheet.record.edges).iter().enumerate().map(|(number, &edge)| (edge, number)).collect();
        emptied.tri_edge_indices(t - 1)
    };
    let filled = compared(&[&sheet.bytes], port, filled, told);
    let line = |call, times| Line::of(&sheet, call, None, None, times);
    [line("tri_edge_indices", found), line("tri_edge_indices, map filled", filled)]
}
