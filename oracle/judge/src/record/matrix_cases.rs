//! The cases of the fixed list with a coupling, weights or amplitudes.

use super::answers::ask;
use super::cases::{Cases, Source, at_least, basis, on, small, tetrahedron, triangle, two_triangles, wide};
use super::layout::{Call, Field, Fields};
use crate::amplitudes::Path;
use crate::basis::Basis;
use crate::couplings::{self, ENDS, Mode};
use crate::dense::Matrix;
use crate::masks::EvenSets;
use crate::product::MOST_VALUE;
use crate::random::Random;
use crate::reference::Sheet;
use crate::row_lists::Rowed;
use crate::rust::RowLists;
use crate::sheets::sheet;
use crate::weights::{self, MOST, SORTS, Weights};
use crate::{amplitude_runs, even_product_runs, floats};

/// g² and weights for one triangle, the traps of the scope paper among them.
fn weighings() -> Vec<(f64, Weights)> {
    let of = |weight: f64| Weights::of(vec![weight]);
    vec![
        (1.0, Weights::absent()),
        (3.0, of(floats::power(-1071))),
        (1.0, of(0.0)),
        (1.0, of(-0.0)),
        (ENDS[0], of(MOST)),
        (ENDS[1], of(-MOST)),
        // absent ones are not looked at
        (1.0 / 3.0, Weights { given: false, list: vec![f64::MAX; 2] }),
    ]
}

fn weighed(fields: Fields, mode: Mode, g_squared: f64, weights: &Weights) -> Fields {
    let given = u64::from(weights.given);
    let fields = fields.with(Field::Numbers, &[given]).with(Field::Coupling, &mode.params(g_squared));
    fields.with(Field::Weights, &weights.list)
}

/// Any g², with weights of a sort; past `SORTS` they may be absent.
fn any_weighed(random: &mut Random, sheet: &Sheet, mode: Mode, sort: u64) -> Fields {
    let list = weights::of_sort(random, sort, sheet.complex.triangles.len());
    let weights = if sort > SORTS && random.one_in(2) { Weights::absent() } else { Weights::of(list) };
    weighed(on(sheet), mode, couplings::any_g_squared(random), &weights)
}

/// Both ends, what is next to nothing, nothing, and numbers that go up.
fn some_amplitudes(count: usize) -> Vec<Vec<f64>> {
    let mut some: Vec<Vec<f64>> = [MOST, -MOST, floats::power(-1074), -0.0].map(|float| vec![float; count]).to_vec();
    some.push((1..=count).map(|number| number as f64).collect());
    some
}

/// One for each state, of a sort.
fn amplitudes<B: Matrix>(random: &mut Random, sheet: &Sheet, sort: u64) -> Vec<f64> {
    weights::of_sort(random, sort, basis::<B, _>(sheet, B::count))
}

fn any_amplitudes<B: Matrix>(random: &mut Random, sheet: &Sheet) -> Vec<f64> {
    let sort = random.below(SORTS + 2);
    amplitudes::<B>(random, sheet, sort)
}

/// Whether a float of the answer is not 0.
fn not_nothing(fields: &Fields) -> bool {
    fields.list(Field::Floats).is_ok_and(|floats| floats.into_iter().any(|float: f64| float != 0.0))
}

/// Whether the two-valued loop by the set of the path's edges tells another expectation.
fn read_otherwise(fields: &Fields) -> bool {
    let by_set = ask(Call::Su2WilsonLoop, &fields.taken(Call::Su2WilsonLoop));
    by_set.is_ok_and(|told| told.bytes(Field::Floats) != fields.bytes(Field::Floats))
}

/// Whether a path that has steps gives an expectation that is not 0.
fn led_somewhere(fields: &Fields) -> bool {
    !fields.bytes(Field::Path).is_empty() && not_nothing(fields)
}

impl Cases {
    /// Dense matrices, row lists and products of a mode.
    pub fn matrices<B: Matrix>(&mut self, [dense, rows, product]: [Call; 3]) {
        let vectors = some_amplitudes(basis::<B, _>(&triangle(1), B::count));
        for (at, (g_squared, weights)) in weighings().into_iter().enumerate() {
            let fields = weighed(on(&triangle(1)), B::MODE, g_squared, &weights);
            self.put(dense, fields.clone());
            self.put(rows, fields.clone());
            // the last vector with the first weights, and so on
            self.put(product, fields.with(Field::Vector, &vectors[(at + vectors.len() - 1) % vectors.len()]));
        }
        let sheets = [sheet(1, &[], &[], 1), triangle(2), two_triangles(), tetrahedron()];
        for (sort, sheet) in (0..).zip(&sheets) {
            for call in [dense, rows, product] {
                let fields = any_weighed(&mut self.random, sheet, B::MODE, sort);
                let vector = if call == product { amplitudes::<B>(&mut self.random, sheet, sort + 1) } else { vec![] };
                self.put(call, fields.with(Field::Vector, &vector));
            }
        }
        for (call, most) in [(dense, 450), (rows, 450), (product, 400)] {
            self.draw(call, (2, most), at_least(2), |random| {
                let (sheet, sort) = (small(random), random.below(SORTS + 4));
                let fields = any_weighed(random, &sheet, B::MODE, sort);
                let vector = if call == product { any_amplitudes::<B>(random, &sheet) } else { vec![] };
                fields.with(Field::Vector, &vector)
            });
        }
    }

    pub fn squares(&mut self) {
        let on = |sheet: &Sheet, vector: &[f64]| on(sheet).with(Field::Vector, vector);
        for vector in some_amplitudes(3) {
            self.put(Call::ElectricFieldSq, on(&triangle(1), &vector));
        }
        for (sort, sheet) in [(1, sheet(1, &[], &[], 1)), (3, triangle(2)), (0, two_triangles()), (SORTS, tetrahedron())] {
            let vector = amplitudes::<Basis>(&mut self.random, &sheet, sort);
            self.put(Call::ElectricFieldSq, on(&sheet, &vector));
        }
        for (how_many, complex) in [(2, small as Source), (1, wide)] {
            self.draw(Call::ElectricFieldSq, (how_many, 420), not_nothing, |random| {
                let sheet = complex(random);
                let vector = any_amplitudes::<Basis>(random, &sheet);
                on(&sheet, &vector)
            });
        }
    }

    pub fn loops(&mut self) {
        let along = |sheet: &Sheet, vector: &[f64], path: &Path| {
            let fields = on(sheet).with(Field::Path, &path.edges).with(Field::Directions, &path.directions);
            fields.with(Field::Vector, vector)
        };
        // around, back, twice, one step, one step and back, nowhere
        let around = [(0, 1), (1, -1), (2, 1)];
        let back = around.map(|(edge, to)| (edge, -to));
        for steps in [&around[..], &back, &around.repeat(2), &around[..1], &[(0, 1), (0, -1)], &[]] {
            self.put(Call::WilsonLoop, along(&triangle(1), &[1.0, 2.0, 3.0], &Path::of(steps)));
        }
        for vector in some_amplitudes(3) {
            self.put(Call::WilsonLoop, along(&triangle(1), &vector, &Path::of(&around)));
        }
        self.put(Call::WilsonLoop, along(&sheet(1, &[], &[], 1), &[MOST], &Path::default()));
        let named: [Source; 2] = [|_| two_triangles(), |_| tetrahedron()];
        for (how_many, complex) in [(1, named[0]), (1, named[1]), (5, small), (1, wide)] {
            self.draw(Call::WilsonLoop, (how_many, 580), led_somewhere, |random| {
                let sheet = complex(random);
                let vector = any_amplitudes::<Basis>(random, &sheet);
                along(&sheet, &vector, &amplitude_runs::right_path(random, &sheet))
            });
        }
    }

    pub fn su2_loops(&mut self) {
        let paths = [&[0, 1, 2][..], &[1], &[0, 2], &[1, 1], &[]];
        self.even_loops(Call::Su2WilsonLoop, paths, &[0, 1, 0], [1, 2, 4, 2], led_somewhere);
    }

    /// Of every path that is drawn the call by the edge set tells something else.
    pub fn su2_passes(&mut self) {
        // an edge and back, all edges, all of them twice, one three times, nowhere
        let paths = [&[0, 0][..], &[0, 1, 2], &[0, 1, 2, 0, 1, 2], &[1, 1, 1], &[]];
        let wanted = |fields: &Fields| led_somewhere(fields) && read_otherwise(fields);
        self.even_loops(Call::Su2WilsonPasses, paths, &[0, 0], [1, 2, 3, 1], wanted);
    }

    /// One of the two calls: on the triangle along these paths, and along one path with amplitudes of every sort; on one vertex; and so many
    /// times drawn on five vertices, on the tetrahedron, on a small complex and on a wide one.
    fn even_loops(&mut self, call: Call, paths: [&[u8]; 5], with_all: &[u8], drawn: [usize; 4], wanted: fn(&Fields) -> bool) {
        let along = |sheet: &Sheet, vector: &[f64], path: &[u8]| on(sheet).with(Field::Path, path).with(Field::Vector, vector);
        for path in paths {
            self.put(call, along(&triangle(1), &[3.0, 5.0], path));
        }
        for vector in some_amplitudes(2) {
            self.put(call, along(&triangle(1), &vector, with_all));
        }
        self.put(call, along(&sheet(1, &[], &[], 1), &[MOST], &[]));
        let sources: [Source; 4] = [|_| two_triangles(), |_| tetrahedron(), small, wide];
        for (how_many, complex) in drawn.into_iter().zip(sources) {
            self.draw(call, (how_many, 400), wanted, |random| {
                let sheet = complex(random);
                let vector = any_amplitudes::<EvenSets>(random, &sheet);
                along(&sheet, &vector, &even_product_runs::right_path(random, sheet.complex.edges.len()))
            });
        }
    }

    /// The Rust's row lists of both modes, and any.
    pub fn products(&mut self) {
        self.rust_products::<Basis>();
        self.rust_products::<EvenSets>();
        let lists = |starts: &[u32], columns: &[u32], values: &[f64]| RowLists {
            starts: starts.to_vec(),
            columns: columns.to_vec(),
            values: values.to_vec(),
        };
        // no row; rows with no entry; one column several times, out of order
        self.put(Call::Matvec, times(&lists(&[0], &[], &[]), &[]));
        self.put(Call::Matvec, times(&lists(&[0, 0, 0], &[], &[]), &[MOST, -0.0]));
        let values = [MOST_VALUE, 1.0, -MOST_VALUE, floats::power(-1074), -0.0];
        self.put(Call::Matvec, times(&lists(&[0, 4, 4, 5], &[2, 0, 2, 1, 0], &values), &[-1.0, 0.5, MOST]));
    }

    fn rust_products<B: Rowed>(&mut self) {
        let traps = weighings().into_iter().take(3).map(|(g_squared, weights)| (triangle(1), g_squared, weights));
        let mut matrices: Vec<(Sheet, f64, Weights)> = traps.collect();
        for sheet in [triangle(2), two_triangles()] {
            let weights = Weights::of(weights::right(&mut self.random, sheet.complex.triangles.len()));
            matrices.push((sheet, couplings::any_g_squared(&mut self.random), weights));
        }
        for (sort, (sheet, g_squared, weights)) in [4, 1, 0, 3, SORTS].into_iter().zip(matrices) {
            let rows = basis::<B, _>(&sheet, |basis| basis.rows_by_rust(g_squared, &weights));
            let vector = amplitudes::<B>(&mut self.random, &sheet, sort);
            self.put(Call::Matvec, times(&rows, &vector));
        }
    }
}

fn times(rows: &RowLists, vector: &[f64]) -> Fields {
    let fields = Fields::default().with(Field::First, &rows.starts).with(Field::Second, &rows.columns);
    fields.with(Field::Weights, &rows.values).with(Field::Vector, vector)
}
