//! The sheets that calls are timed on, and what goes with them.

use phyz_math::DVec;
use phyz_quantum::hilbert::U1HilbertSpace;
use phyz_quantum::su2_quantum::Su2HilbertSpace;
use phyz_regge::SimplicialComplex;
use std::hint::black_box;
use zibrotka::calls;

pub const G_SQUARED: f64 = 3.0;

/// A complex with its truncation, as both sides take it.
pub struct Sheet {
    pub name: String,
    pub record: SimplicialComplex,
    pub lambda: u32,
    pub bytes: Vec<u8>,
    /// One for each triangle, no two alike.
    pub weights: Vec<f64>,
}

impl Sheet {
    /// With L 1.
    pub fn of(name: String, record: SimplicialComplex) -> Sheet {
        let weights = (0..record.n_triangles()).map(|triangle| 0.5 + triangle as f64 / 7.0).collect();
        Sheet { name, lambda: 1, bytes: bytes(&record, 1), weights, record }
    }

    pub fn with(self, lambda: u32) -> Sheet {
        Sheet { name: format!("{}, L {lambda}", self.name), lambda, bytes: bytes(&self.record, lambda), ..self }
    }

    pub fn u1_states(&self) -> usize {
        number(calls::count_states(&self.bytes))
    }

    pub fn u1_entries(&self) -> usize {
        number(calls::count_entries(&self.bytes))
    }

    pub fn su2_states(&self) -> usize {
        number(calls::su2_count_states(&self.bytes))
    }

    pub fn su2_entries(&self) -> usize {
        number(calls::su2_count_entries(&self.bytes))
    }

    /// The Rust's basis with its map, and what is made with it.
    pub fn u1<T>(&self, make: impl Fn(&U1HilbertSpace) -> T) -> (U1HilbertSpace, T) {
        let space = U1HilbertSpace::new(black_box(&self.record), self.lambda);
        let made = make(&space);
        (space, made)
    }

    /// The same of Z2.
    pub fn su2<T>(&self, make: impl Fn(&Su2HilbertSpace) -> T) -> (Su2HilbertSpace, T) {
        let space = Su2HilbertSpace::new(black_box(&self.record));
        let made = make(&space);
        (space, made)
    }
}

/// An answer that is no refusal.
pub fn number(answer: i64) -> usize {
    usize::try_from(answer).expect("no refusal")
}

/// All edges on so many vertices in dictionary order less the last few, and all their triangles.
pub fn complete(vertices: usize, less: usize) -> Sheet {
    let mut edges: Vec<[usize; 2]> = (0..vertices).flat_map(|a| (a + 1..vertices).map(move |b| [a, b])).collect();
    edges.truncate(edges.len() - less);
    let name = match less {
        0 => format!("K{vertices}"),
        1 => format!("K{vertices} less one edge"),
        _ => format!("K{vertices} less {less} edges"),
    };
    Sheet::of(name, record(vertices, edges))
}

/// The edges (i,i+1), then so many shortcuts (0,2), (2,4) and so on, and all their triangles.
pub fn chain(vertices: usize, shortcuts: usize) -> Sheet {
    let steps = (1..vertices).map(|vertex| [vertex - 1, vertex]);
    let edges = steps.chain((0..shortcuts).map(|at| [2 * at, 2 * at + 2])).collect();
    Sheet::of(format!("chain of {vertices} vertices"), record(vertices, edges))
}

/// Long bases of U(1).
pub fn long() -> Vec<Sheet> {
    vec![complete(4, 0).with(50), complete(5, 0).with(4), chain(58, 6).with(4), chain(62, 2).with(511)]
}

/// The same and some more, with many candidates that give no state.
pub fn large() -> Vec<Sheet> {
    long().into_iter().chain([complete(4, 1).with(511), complete(6, 0).with(1), complete(7, 3).with(1)]).collect()
}

fn record(vertices: usize, edges: Vec<[usize; 2]>) -> SimplicialComplex {
    let mut record = SimplicialComplex::from_pentachorons(vertices, &[]);
    record.edge_index = edges.iter().enumerate().map(|(number, &edge)| (edge, number)).collect();
    let there = |a: usize, b: usize| record.edge_index.contains_key(&[a, b]);
    let over = |[a, b]: [usize; 2]| (b + 1..vertices).filter(move |&c| there(a, c) && there(b, c)).map(move |c| [a, b, c]);
    record.triangles = edges.iter().copied().flat_map(over).collect();
    record.edges = edges;
    record
}

fn bytes(record: &SimplicialComplex, lambda: u32) -> Vec<u8> {
    let edges: Vec<u8> = record.edges.iter().flatten().map(|&vertex| vertex as u8).collect();
    let triangles: Vec<u8> = record.triangles.iter().flatten().map(|&vertex| vertex as u8).collect();
    let mut sheet = vec![0; 11 + edges.len() + triangles.len()];
    let written = calls::make_sheet(record.n_vertices as u64, &edges, &triangles, lambda.into(), &mut sheet);
    assert_eq!(written, sheet.len() as i64);
    sheet
}

/// The coupling with its two factors, of one mode.
pub fn coupling(params: fn(f64, &mut [f64; 3]) -> i64) -> [f64; 3] {
    let mut coupling = [0.0; 3];
    assert_eq!(params(G_SQUARED, &mut coupling), 0);
    coupling
}

/// So many amplitudes, for the port and for the Rust.
pub fn amplitudes(count: usize) -> (Vec<f64>, DVec) {
    let list: Vec<f64> = (0..count).map(|at| (at % 17) as f64 / 7.0 - 1.0).collect();
    let vector = list[..].into();
    (list, vector)
}
